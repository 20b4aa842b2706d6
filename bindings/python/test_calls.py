"""The table of calls and answers, tests/calls.jsonl, through winnathey.py. Rows about short outputs are left out: the
functions have outputs of their own, which always have room."""

import json
import os
import unittest

import winnathey as w

TABLE = os.path.join(os.path.dirname(os.path.abspath(__file__)), "..", "..", "tests", "calls.jsonl")
NO_ROOM = (-14, -15)
NONE_FITS = -100
NO_FALLBACK = -101


def rows():
    with open(TABLE, encoding="ascii") as file:
        return [json.loads(line) for line in file]


def book_of(text):
    """The bytes of a book: parts of hexadecimal digits, each repeated if a number stands behind it."""
    parts = (part.partition("*") for part in text.split())
    return b"".join(bytes.fromhex(digits) * int(times or 1) for digits, _, times in parts)


def edition_of(call):
    """The edition, and the function's name."""
    if call in ("to_second", "to_first"):
        return (1, "convert") if call == "to_second" else (2, "convert")
    return (2, call[len("second_"):]) if call.startswith("second_") else (1, call)


def steps_of(allowed):
    """The steps of a set, falling and then rising: each comes twice."""
    steps = [step for step in range(1, 65) if int(allowed) >> (step - 1) & 1]
    return steps[::-1] + steps



def as_numbers(given):
    return list(given.values())


def of_group(call, given):
    """The answer and what is written, of a call on words and windows."""
    made = getattr(w, call)(*as_numbers(given))
    if call in ("same", "length_of_word", "length_of_window", "rewrite_steps"):
        if call == "same" and not isinstance(made, bool):
            raise AssertionError(made)
        return int(made), {}
    if call in ("crossings_of_word", "crossings_of_window"):
        return made.total, {"counts": [made.inversions, made.negative_sum_pairs, made.negatives]}
    if call == "delay_table":
        lengths = [len(made.counts), len(made.window), len(made.normal_form)]
        counts = " ".join(map(str, made.counts))
        return lengths[2], {"counts": counts, "window": made.window, "normal_form": made.normal_form, "lengths": lengths}
    if call == "rewrite":
        if made is None:
            return NONE_FITS, {}
        return len(made.word), {"out": made.word, "rule": [made.family, made.i, made.j]}
    if call == "rewrite_to_end":
        families, places, lengths = ([getattr(step, name) for step in made.steps] for name in ("family", "place", "length"))
        lists = {"families": families, "places": places, "lengths": lengths}
        return len(made.steps), {**lists, "out": made.word, "written": [len(made.word)]}
    if call == "fallback":
        return (NO_FALLBACK, {}) if made is None else (len(made), {"places": made})
    if call == "split":
        lengths = [len(made.first), len(made.second)]
        return sum(lengths), {"first": made.first, "second": made.second, "lengths": lengths}
    return len(made), {"out": made}


def better(given, row):
    """Which word it is: the two differ wherever that matters."""
    first, second = row["given"]["first"], row["given"]["second"]
    made = w.better(*as_numbers(given))
    if made is None:
        return 0, {}
    if made not in (first, second):
        raise AssertionError(made)
    return (row["answer"] if first == second else 1 if made == first else 2), {}


def fields_of(book, preset, start):
    return ["ABD".index(preset.kind) + 1, preset.rank, start, len(preset.word)]


def of_book(edition, name, given, row):
    """The same of a call on a book. Where its word lies in the book is taken from the row and looked at."""
    book, *others = given.values()
    made = getattr(w, name)(edition, book, *others)
    if name == "book_check":
        return made, {}
    if name in ("append", "convert"):
        return len(made), {"out": bytes(made)}
    count = w.book_check(edition, book)
    if name == "presets" and others[0] == count:
        # An empty list here, while C refuses a number that is no preset's.
        assert made == []
        return -4, {}
    stored = row["written"]["fields"]
    if name == "preset":
        start = stored[2]
        assert list(book[start : start + len(made.word)]) == made.word
        return 4, {"fields": fields_of(book, made, start)}
    assert len(made) == count - others[0], made
    fields = []
    for at, preset in enumerate(made[: row["room"]["fields"] // 5]):
        if isinstance(preset, w.Refusal):
            fields += [int(preset.number), 0, 0, 0, 0]
        else:
            start = stored[5 * at + 3]
            assert list(book[start : start + len(preset.word)]) == preset.word
            fields += [0, *fields_of(book, preset, start)]
    return len(fields) // 5, {"fields": fields}


def outcome(row, given):
    """What a row's call returns in the table's terms."""
    call = row["call"]
    try:
        if "book" in given:
            return of_book(*edition_of(call), given, row)
        return better(given, row) if call == "better" else of_group(call, given)
    except w.Refusal as refusal:
        assert refusal.place is None
        return -int(refusal.number), {}


def forms(given):
    """What a row is given in each of the forms that the functions take: numbers and lists, letters and texts, tuples and
    bytes."""
    given = {name: book_of(value) if name == "book" else value for name, value in given.items()}
    sets = {name: int(value) for name, value in given.items() if name == "allowed"}
    yield {**given, **sets}
    texts = dict(given)
    for name, value in given.items():
        if name.startswith("kind") and value in (1, 2, 3):
            texts[name] = " AbD"[value] if name == "kind" else " aBd"[value]
        elif isinstance(value, list) and len(value) < 100:
            texts[name] = " ".join(map(str, value))
        elif name == "allowed":
            texts[name] = steps_of(value)
        elif name == "book":
            texts[name] = bytearray(value)
    yield texts
    others = dict(texts)
    for name, value in given.items():
        if isinstance(value, list):
            is_word = all(0 <= number <= 255 for number in value) and name in ("word", "first", "second", "present", "simpler")
            others[name] = iter(value) if not is_word or name in ("first", "second") else bytes(value)
        elif name == "allowed":
            others[name] = ",".join(map(str, steps_of(value)))
        elif name == "book":
            others[name] = memoryview(value)
    yield others


class Table(unittest.TestCase):
    def equal(self, made, due, row):
        """Fails with a short text: the difference of two long lists takes minutes to write."""
        if made != due:
            self.fail(f"{str(made)[:300]} is not {str(due)[:300]}: {json.dumps(row)[:300]}")

    def test_rows(self):
        ran, left, calls, refusals = 0, 0, set(), set()
        for row in rows():
            if row["answer"] in NO_ROOM:
                left += 1
                continue
            due = -row["refused"] if "refused" in row else row["answer"]
            written = {name: book_of(value) if isinstance(value, str) and name == "out" else value for name, value in row.get("written", {}).items()}
            for given in forms(row["given"]):
                self.equal(outcome(row, given), (due, written), row)
            ran += 1
            calls.add(row["call"])
            refusals.add(due)
        self.assertEqual(len(calls), 30)
        self.assertEqual({-number for number in range(1, 22)} - refusals, set(NO_ROOM))
        print(f"calls: {ran} rows through Python (left out: {left} about outputs of its own)")

    def test_appended_all(self):
        """A preset that is appended by itself is appended as one of many."""
        for row in rows():
            if row["call"].endswith("append") and row["answer"] not in NO_ROOM:
                edition, _ = edition_of(row["call"])
                book, *preset = next(forms(row["given"])).values()
                try:
                    made = w.append_all(edition, book, [preset])
                    self.equal(made, book_of(row.get("written", {"out": ""})["out"]), row)
                except w.Refusal as refusal:
                    self.equal(-int(refusal.number), row["answer"], row)
                    self.assertEqual(refusal.place, None if refusal.number <= 3 else 0)


if __name__ == "__main__":
    unittest.main()
