"""What bench/bindings times in Python: a line for each, its name and nanoseconds of the processor, a median."""

import statistics
import sys
import time

sys.path.insert(0, sys.argv[1])
import winnathey as w  # noqa: E402

RUNS = 15
PRESETS = 7281


def timed(name, calls, call):
    def run():
        start = time.process_time_ns()
        for _ in range(calls):
            call()
        return (time.process_time_ns() - start) / calls

    run()
    print(f"{name}\t{statistics.median(run() for _ in range(RUNS))}")


word = [1 + (7 * at + 3) % 16 for at in range(16)]
window = w.window_of_word("D", 16, word)
calls = 10000
timed("python window_of_word", calls, lambda: w.window_of_word("D", 16, word))
timed("python normal_form_of_word", calls, lambda: w.normal_form_of_word("D", 16, word))
timed("python length_of_window", calls, lambda: w.length_of_window("D", 16, window))

presets = [("D", 5, [1 + number % 5 for number in (at, at // 5, at // 25)]) for at in range(PRESETS)]
full = w.append_all(1, b"", presets)
assert w.book_check(1, full) == PRESETS


def append_each():
    book = b""
    for preset in presets:
        book = w.append(1, book, *preset)
    assert book == full


timed("python append_all", 1, lambda: w.append_all(1, b"", presets))
timed("python append_each", 1, append_each)
last = w.remove(1, full, PRESETS - 1)
timed("python append_last", 200, lambda: w.append(1, last, "D", 5, [1, 2, 3]))
