"""Tests of winnathey.py: every call, every refusal that a call can give, the header's declarations."""

import array
import ctypes
import doctest
import inspect
import itertools
import json
import os
import pickle
import random
import re
import threading
import unittest

import winnathey as w

ROOT = os.path.join(os.path.dirname(os.path.abspath(__file__)), "..", "..")
HEADER = os.path.join(ROOT, "include", "winnathey.h")
TYPES = {
    "uint32_t": "u", "winnathey_size": "z", "uint64_t": "q", "uint8_t *": "b", "int8_t *": "i", "uint16_t *": "h", "uint64_t *": "Q",
}

# B2 with the word 1 2 1 2, and D5 with the word 5 2 3 5 1 2, in both editions.
FIRST = bytes([2, 2, 4, 0, 1, 2, 1, 2, 3, 5, 6, 0, 5, 2, 3, 5, 1, 2, 0, 0, 8, 0, 2, 0])
SECOND = bytes([2, 2, 2, 4, 0, 1, 2, 1, 2, 3, 5, 5, 6, 0, 5, 2, 3, 5, 1, 2, 0, 0, 9, 0, 2, 0])
WORD = [4, 4, 2, 5, 3, 5, 1, 2]
WINDOW = [3, -5, 1, 4, -2]
FORM = [5, 2, 3, 5, 1, 2]


def header():
    with open(HEADER, encoding="utf-8") as file:
        return file.read()


class Calls(unittest.TestCase):
    def test_words(self):
        self.assertEqual(w.window_of_word("D", 5, WORD), WINDOW)
        self.assertEqual(w.window_of_word(3, 5, bytes(WORD)), WINDOW)
        self.assertEqual(w.normal_form_of_word("D", 5, WORD), FORM)
        self.assertEqual(w.product_of_words("D", 5, WORD, WORD), w.normal_form_of_word("D", 5, WORD + WORD))
        self.assertEqual(w.inverse_of_word("D", 5, WORD), w.normal_form_of_word("D", 5, WORD[::-1]))
        self.assertEqual(w.length_of_word("D", 5, WORD), 6)
        self.assertEqual(w.crossings_of_word("D", 5, WORD), w.Crossings(3, 3, 0))
        self.assertEqual(w.crossings_of_word("D", 5, WORD).total, 6)
        self.assertTrue(w.same("D", 5, WORD, "D", 5, FORM))
        self.assertFalse(w.same("D", 5, WORD, "D", 5, []))
        self.assertTrue(w.same("A", 3, [1], "B", 4, [1]))
        self.assertEqual(w.better("D", 5, WORD, FORM), FORM)
        self.assertEqual(w.better("D", 5, FORM, WORD), FORM)
        self.assertIsNone(w.better("D", 5, WORD, []))
        self.assertEqual(w.better("A", 2, [], [1, 1]), [])
        for number, first, second in ((8, [6], [1]), (8, [1], [6]), (7, [1], [1] * 4097), (8, [6], [1] * 4097)):
            with self.assertRaises(w.Refusal) as caught:
                w.better("D", 5, first, second)
            self.assertEqual(caught.exception.number, number)

    def test_windows(self):
        self.assertEqual(w.normal_form_of_window("D", 5, WINDOW), FORM)
        inverse = w.inverse_of_window("D", 5, WINDOW)
        self.assertEqual(w.product_of_windows("D", 5, WINDOW, inverse), [1, 2, 3, 4, 5])
        self.assertEqual(w.length_of_window("D", 5, WINDOW), 6)
        self.assertEqual(w.crossings_of_window("D", 5, WINDOW), w.Crossings(3, 3, 0))

    def test_delay_table(self):
        table = w.delay_table("B", 2)
        self.assertEqual(table, w.DelayTable([1, 2, 2, 2, 1], [-1, -2], [2, 1, 2, 1]))
        self.assertEqual(sum(w.delay_table("A", 19).counts), 2432902008176640000)

    def test_rewriting(self):
        self.assertEqual(w.rewrite("D", 5, WORD, 0), w.Rewrite(1, 4, 0, [2, 5, 3, 5, 1, 2]))
        self.assertIsNone(w.rewrite("D", 5, FORM, 0))
        self.assertEqual(w.rewrite_steps("D", 5, WORD), 2)
        self.assertEqual(w.rewrite_to_end("D", 5, WORD), w.Rewriting([w.RewriteStep(1, 0, 6), w.RewriteStep(2, 0, 6)], FORM))
        self.assertEqual(w.rewrite_to_end("A", 1, []), w.Rewriting([], []))

    def test_fallbacks_splits_ways(self):
        places = w.fallback("D", 5, WORD, [2, 3])
        self.assertEqual(w.window_of_word("D", 5, [FORM[p] for p in places]), w.window_of_word("D", 5, [2, 3]))
        self.assertIsNone(w.fallback("D", 5, [1], [2]))
        halves = w.split("D", 5, [1, 2, 3], WORD)
        self.assertEqual(w.window_of_word("D", 5, halves.first + halves.second), WINDOW)
        self.assertEqual(halves, w.split("D", 5, 0b111, WORD))
        self.assertLessEqual(set(halves.first), {1, 2, 3})
        self.assertEqual(w.between("D", 5, range(1, 6), [1, 2, 3, 4, 5], WINDOW), FORM)
        self.assertEqual(w.between("D", 5, [], WINDOW, WINDOW), [])

    def test_books(self):
        for edition, book, other in ((1, FIRST, SECOND), (2, SECOND, FIRST)):
            self.assertEqual(w.book_check(edition, book), 2)
            both = [w.Preset("B", 2, [1, 2, 1, 2]), w.Preset("D", 5, FORM)]
            self.assertEqual(w.presets(edition, book), both)
            self.assertEqual([w.preset(edition, book, i) for i in range(2)], both)
            self.assertEqual(w.convert(edition, book), other)
            started = w.append(edition, b"", *both[0])
            self.assertEqual(w.append(edition, started, *both[1]), book)
            self.assertEqual(w.presets(edition, b""), [])
        refused = bytes([3, 5, 1, 0, 9, 0, 0, 1, 0])
        self.assertEqual(w.presets(1, refused), [w.Refusal(8)])

    def test_presets_from_a_number_on(self):
        both = w.presets(1, FIRST)
        self.assertEqual([w.presets(1, FIRST, first) for first in range(3)], [both, both[1:], []])
        for first in (3, 2**64 - 1):
            with self.assertRaises(w.Refusal) as caught:
                w.presets(1, FIRST, first)
            self.assertEqual(caught.exception.number, 4)

    def test_books_of_any_layout(self):
        """The letters are those of the book's bytes, whatever a view takes for its elements."""
        spread = memoryview(bytes(byte for pair in zip(FIRST, FIRST) for byte in pair))[::2]
        views = (memoryview(FIRST).cast(format) for format in "bcHQ")
        arrays = array.array("B", FIRST), array.array("H", FIRST), (ctypes.c_uint16 * 12).from_buffer_copy(FIRST)
        for book in (bytearray(FIRST), memoryview(FIRST), memoryview(bytearray(FIRST)), spread, *views, *arrays):
            self.assertEqual(w.presets(1, book), w.presets(1, FIRST))
            self.assertEqual(w.preset(1, book, 1), w.preset(1, FIRST, 1))

    def test_library(self):
        self.assertEqual(w.version(), re.search(r'#define WINNATHEY_VERSION "(.*)"', header()).group(1))
        self.assertEqual(w.__version__, w.version())
        self.assertEqual(w.refusal_message(5), "The kind must be 1 (A), 2 (B) or 3 (D).")
        self.assertEqual(w.refusal_message(0), "")
        self.assertEqual(w.refusal_message(22), "")


class Refusals(unittest.TestCase):
    # One call for each refusal that these functions can give: their outputs always have room, so 14 and 15 never come.
    GIVEN = {
        1: lambda: w.book_check(1, b"\0"),
        2: lambda: w.book_check(1, bytes([1, 0])),
        3: lambda: w.book_check(1, bytes([0, 0, 0])),
        4: lambda: w.preset(1, FIRST, 2),
        5: lambda: w.window_of_word(4, 5, []),
        6: lambda: w.window_of_word("D", 3, []),
        7: lambda: w.window_of_word("D", 5, [1] * 4097),
        8: lambda: w.window_of_word("D", 5, [6]),
        9: lambda: w.length_of_window("D", 5, [1, 2, 3, 4]),
        10: lambda: w.length_of_window("A", 2, [1, 1, 3]),
        11: lambda: w.length_of_window("D", 4, [1, 2, 3, -4]),
        12: lambda: w.rewrite("D", 5, [1], 1),
        13: lambda: w.append(1, full_book(), "A", 2, [1]),
        16: lambda: w.split("D", 5, [6], []),
        17: lambda: w.preset(2, SECOND[:2] + b"\3" + SECOND[3:], 0),
        18: lambda: w.convert(2, w.append(2, b"", "B", 33, [])),
        19: lambda: w.between("B", 2, [], [1, 2], [2, 1]),
        20: lambda: w.delay_table("B", 17),
        21: lambda: w.append(1, b"", "A", 1, []),
    }

    def test_each(self):
        for number, call in self.GIVEN.items():
            with self.subTest(number=number):
                with self.assertRaises(w.Refusal) as caught:
                    call()
                self.assertEqual(caught.exception.number, number)

    def test_messages(self):
        table = re.search(r"(?s)\n \* +1  The book is.*?\n \*\n", header()).group()
        said = re.findall(r"\n \* {2,4}(\d+)  ((?:.|\n \* {7})*)", table)
        self.assertEqual([int(number) for number, _ in said], list(range(1, 22)))
        for number, message in said:
            message = re.sub(r"\s*\n \* *", " ", message)
            self.assertEqual(w.refusal_message(int(number)), message)

    def test_names(self):
        constants = re.findall(r"#define WINNATHEY_REFUSED_(\w+) (\d+)", header())
        self.assertEqual([(name, int(number)) for name, number in constants], [(r.name, r.value) for r in w.Refused])
        with self.assertRaises(w.Refusal) as caught:
            w.window_of_word("D", 5, [6])
        self.assertIs(caught.exception.number, w.Refused.LETTER)
        self.assertIsNone(caught.exception.place)

    def test_exception(self):
        refusal = w.Refusal(8)
        self.assertEqual(str(refusal), "refused 8: " + refusal.message)
        self.assertIsInstance(refusal, ValueError)
        self.assertEqual(pickle.loads(pickle.dumps(refusal)), refusal)
        placed = w.Refusal(8, 3)
        self.assertEqual(str(placed), "refused 8: " + refusal.message + " (preset 3 of the list)")
        self.assertEqual(pickle.loads(pickle.dumps(placed)), placed)
        self.assertNotEqual(placed, refusal)

    def test_equal(self):
        """Refusals are equal if they have one number and one place, and are nothing else's equal."""
        all_of_them = [w.Refusal(number, place) for number in range(1, 22) for place in (None, 0, 1)]
        for at, one in enumerate(all_of_them):
            again = w.Refusal(int(one.number), one.place)
            self.assertTrue(one == again)
            self.assertFalse(one != again)
            self.assertEqual(hash(one), hash(again))
            for other in all_of_them[:at]:
                self.assertFalse(one == other)
                self.assertTrue(one != other)
            for other in (int(one.number), one.number, None, str(one), ValueError(str(one)), (one.number, one.place)):
                self.assertFalse(one == other)
        self.assertEqual(len(set(all_of_them)), 63)


def stored_edits():
    """The cases that all bindings are held to."""

    def letters(text):
        letter, _, times = text.partition("x")
        return [int(letter)] * int(times) if times else [int(letter) for letter in text.split(".") if letter]

    def part(text):
        group, colon, word = text.partition(":")
        return (group[0], int(group[1:]), letters(word)) if colon else int(text)

    with open(os.path.join(os.path.dirname(HEADER), "..", "tests", "books", "edits"), encoding="utf-8") as file:
        for line in file:
            if not line.startswith("#"):
                edit, outcome = line.rstrip("\n").split(" = ")
                edition, book, name, *parts = edit.split(" ")
                yield int(edition), bytes.fromhex(book.strip("-")), name, [part(text) for text in parts], outcome


class Edits(unittest.TestCase):
    def edited(self, edition, book, name, parts):
        if name == "replace":
            return w.replace(edition, book, parts[0], *parts[1])
        return w.append_all(edition, book, parts) if name == "append_all" else getattr(w, name)(edition, book, *parts)

    def test_stored(self):
        cases = 0
        for edition, book, name, parts, wanted in stored_edits():
            try:
                outcome = self.edited(edition, book, name, parts).hex() or "-"
            except w.Refusal as refusal:
                outcome = f"refused {int(refusal.number)}" + ("" if refusal.place is None else f" at {refusal.place}")
            self.assertEqual(outcome, wanted, (edition, book.hex(), name, parts))
            cases += 1
        self.assertGreater(cases, 100)

    def test_random(self):
        """Edits of a book do to its presets what the same edits do to a list."""
        rng = random.Random(2)
        for edition in (1, 2) * 50:
            # Whole records, right or not: the check of a book does not look into them.
            records = []
            for _ in range(rng.randrange(8)):
                word = [rng.randrange(5) for _ in range(rng.randrange(6))]
                records.append(bytes([rng.randrange(5) for _ in range(1 + edition)] + [len(word), 0] + word))
            starts = [sum(map(len, records[:at])) for at in range(len(records))]
            book = b"".join(records) + b"".join(number.to_bytes(2, "little") for number in [*starts, len(records)])
            listed = w.presets(edition, book)
            for _ in range(20):
                origin, target = rng.randrange(len(listed) + 1), rng.randrange(len(listed) + 1)
                added = w.Preset("D", 5, [rng.randint(1, 5) for _ in range(rng.randrange(5))])
                name = rng.choice(("remove", "replace", "move_to", "append_all"))
                given = {"remove": [origin], "replace": [origin, added], "move_to": [origin, target], "append_all": [added, added]}
                before = book
                try:
                    book = self.edited(edition, bytearray(book), name, given[name])
                except w.Refusal as refusal:
                    self.assertEqual(refusal.number, w.Refused.PRESET_NUMBER)
                    self.assertIn(len(listed), (origin, target))
                    self.assertEqual(book, before)
                    continue
                if name == "remove":
                    del listed[origin]
                elif name == "replace":
                    listed[origin] = added
                elif name == "move_to":
                    listed.insert(target, listed.pop(origin))
                else:
                    listed += [added, added]
                self.assertEqual(w.presets(edition, book), listed)

    def test_many_at_once(self):
        for edition in (1, 2):
            words = [1, 2, 1, 2], "", b"\2", (1,) * 100
            presets = [("Bb"[at % 2], 2, words[at % 4]) for at in range(400)]
            book = b""
            for preset in presets:
                book = w.append(edition, book, *preset)
            self.assertEqual(w.append_all(edition, b"", presets), book)
            self.assertEqual(w.append_all(edition, w.append_all(edition, b"\0\0", presets[:200]), iter(presets[200:])), book)
            head = 3 + edition
            rest = [1] * (65535 - 2 - 15 * (4096 + head + 2) - head - 2)
            full = w.append_all(edition, b"", [("A", 2, [1] * 4096)] * 15 + [("A", 2, rest)])
            self.assertEqual(len(full), 65535)
            self.assertEqual(w.book_check(edition, full), 16)
            with self.assertRaises(w.Refusal) as caught:
                w.append_all(edition, b"", [("A", 2, [1] * 4096)] * 15 + [("A", 2, rest + [1])])
            self.assertEqual((caught.exception.number, caught.exception.place), (w.Refused.BOOK_FULL, 15))
            for call in (lambda: w.append_all(edition, full, [("A", 2, [])]), lambda: w.replace(edition, full, 15, "A", 2, rest + [1])):
                with self.assertRaises(w.Refusal) as caught:
                    call()
                self.assertEqual(caught.exception.number, w.Refused.BOOK_FULL)
            self.assertEqual(len(w.replace(edition, full, 15, "A", 2, rest[1:])), 65534)


def full_book():
    """A book that has no room for one record more."""
    book = b""
    for _ in range(15):
        book = w.append(1, book, "A", 2, [1] * 4096)
    return w.append(1, book, "A", 2, [1] * (65535 - len(book) - 6))


class Whole:
    """A number that is no int but stands for one, as NumPy's do."""

    def __init__(self, value):
        self.value = value

    def __index__(self):
        return self.value


class Arguments(unittest.TestCase):
    def test_whatever_yields_numbers_is_a_word(self):
        self.assertEqual(w.better("D", 5, iter(WORD), iter(FORM)), FORM)
        self.assertEqual(w.better("A", 2, iter([2, 1, 2]), iter([1, 2, 1])), [2, 1, 2])
        self.assertEqual(w.rewrite_to_end("D", 5, iter(WORD)).word, FORM)
        self.assertEqual(w.between("D", 5, iter(range(1, 6)), iter([1, 2, 3, 4, 5]), iter(WINDOW)), FORM)

    def test_whatever_stands_for_a_number_is_one(self):
        word, window = [Whole(letter) for letter in WORD], [Whole(entry) for entry in WINDOW]
        self.assertEqual(w.window_of_word(Whole(3), Whole(5), word), WINDOW)
        self.assertEqual(w.normal_form_of_window("D", 5, window), FORM)
        self.assertEqual(w.split("D", 5, [Whole(1), Whole(2), Whole(3)], WORD), w.split("D", 5, Whole(0b111), WORD))
        self.assertEqual(w.preset(1, FIRST, Whole(1)), w.preset(1, FIRST, 1))

    def test_no_byte_is_taken_for_another(self):
        for call in (
            lambda: w.window_of_word("D", 5, [257]),
            lambda: w.window_of_word("D", 5, [-1]),
            lambda: w.length_of_window("D", 5, [200, 2, 3, 4, 5]),
            lambda: w.window_of_word("D", 2**32 + 5, []),
            lambda: w.window_of_word("C", 5, []),
            lambda: w.window_of_word(-1, 5, []),
            lambda: w.split("D", 5, [0], []),
            lambda: w.split("D", 5, 2**64, []),
            lambda: w.book_check(3, FIRST),
            lambda: w.rewrite("D", 5, [1], -1),
        ):
            with self.assertRaises(ValueError) as caught:
                call()
            self.assertNotIsInstance(caught.exception, w.Refusal)

    def test_types(self):
        for call in (
            lambda: w.window_of_word("D", 5, [1.0]),
            lambda: w.window_of_word("D", 5, [True]),
            lambda: w.window_of_word("D", 5, None),
            lambda: w.window_of_word("D", 5, {1, 2}),
            lambda: w.window_of_word("D", 5, {1: 2}),
            lambda: w.window_of_word(True, 5, []),
            lambda: w.split("D", 5, True, []),
            lambda: w.split("D", 5, None, []),
            lambda: w.book_check(1, "text"),
            lambda: w.delay_table("B", "2"),
        ):
            with self.assertRaisesRegex(TypeError, "^the "):
                call()

    def test_no_bool_is_a_number(self):
        yes, word, window = True, [1], [1, 2, 3]
        for call in (
            lambda: w.book_check(yes, FIRST),
            lambda: w.preset(1, FIRST, yes),
            lambda: w.presets(1, FIRST, yes),
            lambda: w.append(yes, FIRST, "A", 2, word),
            lambda: w.append_all(yes, FIRST, []),
            lambda: w.append_all(1, FIRST, [("A", yes, word)]),
            lambda: w.remove(1, FIRST, yes),
            lambda: w.replace(1, FIRST, yes, "A", 2, word),
            lambda: w.move_to(1, FIRST, 0, yes),
            lambda: w.convert(yes, FIRST),
            lambda: w.window_of_word(yes, 5, word),
            lambda: w.window_of_word("D", yes, word),
            lambda: w.window_of_word("D", 5, [1, yes]),
            lambda: w.window_of_word("D", 5, (1, yes)),
            lambda: w.window_of_word("D", 5, iter([1, yes])),
            lambda: w.window_of_word("D", 5, yes),
            lambda: w.length_of_window("A", 2, [yes, 2, 3]),
            lambda: w.length_of_window("A", 2, (yes, 2, 3)),
            lambda: w.rewrite("A", 2, word, yes),
            lambda: w.split("A", 2, yes, word),
            lambda: w.split("A", 2, [yes], word),
            lambda: w.between("A", 2, yes, window, window),
            lambda: w.refusal_message(yes),
        ):
            with self.assertRaisesRegex(TypeError, "^the .* (must be an integer, got True|is True and no list)$"):
                call()

    def test_kinds_in_either_case(self):
        for kind in ("D", "d", 3, Whole(3)):
            self.assertEqual(w.normal_form_of_word(kind, 5, WORD), FORM)
        self.assertEqual(w.window_of_word("a", 1, []), [1, 2])
        self.assertEqual(w.window_of_word("b", 2, [2]), [1, -2])
        for kind in ("C", "", "AB", "1", "\u0410"):
            with self.assertRaisesRegex(ValueError, "^the kind is .* and not 'A', 'B' or 'D'$"):
                w.window_of_word(kind, 5, [])

    def test_texts(self):
        for text in ("4 4 2 5 3 5 1 2", "4,4,2,5,3,5,1,2", " 4, 4 ,2 5\t3 5 1 2\n"):
            self.assertEqual(w.normal_form_of_word("D", 5, text), FORM)
        self.assertEqual(w.normal_form_of_window("D", 5, "3 -5 1 4 -2"), FORM)
        self.assertEqual(w.between("D", 5, "1,2 3 4,5", "1 2 3 4 5", "3,-5,1,4,-2"), FORM)
        self.assertEqual(w.split("D", 5, "1 2 3", "4 4 2"), w.split("D", 5, [1, 2, 3], [4, 4, 2]))
        self.assertEqual(w.append(1, b"", "B", 2, "1 2"), w.append(1, b"", "B", 2, [1, 2]))
        self.assertEqual(w.window_of_word("A", 1, " "), [1, 2])
        for text in ("1 +1", "1 -1", "1,,1", "1,", "1 256", "1 x", "1 1.0", "1 1_0", "1 \u0661", "1 " + "9" * 5000):
            with self.assertRaisesRegex(ValueError, "^the letter at place 1 is .* and not 0 to 255$"):
                w.window_of_word("A", 2, text)
        for text in ("1 128", "1 -129", "1 --1", "1 - 1", "1 +1"):
            with self.assertRaisesRegex(ValueError, "^the entry at place 1 is .* and not -128 to 127$"):
                w.length_of_window("A", 2, text)
        for text in ("1 0", "1 65", "1 -2", "1 2-3"):
            with self.assertRaisesRegex(ValueError, "^the step at place 1 is .* and not 1 to 64$"):
                w.split("A", 2, text, [])

    def test_stored_texts(self):
        """Texts are read as tests/texts has it, which holds every language to one rule."""
        long = [1 + i * 37 % 64 for i in range(500)]
        calls = {
            "word": ("letter", lambda word, _: w.better("B", 64, word, word)),
            "window": ("entry", lambda window, lanes: w.inverse_of_window("B", lanes, window)),
            "steps": ("step", lambda steps, _: w.split("B", 64, steps, long)),
        }
        with open(os.path.join(ROOT, "tests", "texts"), encoding="utf-8") as file:
            rows = [line.rstrip("\n").split(" | ") for line in file if not line.startswith("#")]
        self.assertGreater(len(rows), 50)
        for of, text, due in rows:
            (element, call), text = calls[of], json.loads(text)
            with self.subTest(of=of, text=text):
                if due.startswith("wrong "):
                    with self.assertRaisesRegex(ValueError, f"^the {element} at place {due[6:]} is .* and not "):
                        call(text, 2)
                else:
                    numbers = [int(number) for number in due.split()]
                    self.assertEqual(call(text, len(numbers)), call(numbers, len(numbers)))

    def test_any_number_of_digits(self):
        self.assertEqual(w.better("A", 2, "0" * 5000 + "1", ""), None)
        for digits in ("1" + "0" * 5000, "9" * 5000):
            with self.assertRaisesRegex(ValueError, "^the letter at place 0 is .{,60} and not 0 to 255$"):
                w.window_of_word("A", 2, digits)

    def test_integers_that_python_does_not_print(self):
        huge = 10**5000
        for call, named in (
            (lambda: w.window_of_word(huge, 2, []), "the kind"),
            (lambda: w.window_of_word("A", huge, []), "the rank"),
            (lambda: w.window_of_word("A", -huge, []), "the rank"),
            (lambda: w.window_of_word("A", 2, [1, huge]), "the letter at place 1"),
            (lambda: w.length_of_window("A", 2, [1, -huge]), "the entry at place 1"),
            (lambda: w.rewrite("A", 2, [1], huge), "the place"),
            (lambda: w.split("A", 2, huge, []), "the set"),
            (lambda: w.split("A", 2, [huge], []), "the step"),
            (lambda: w.book_check(huge, FIRST), "the edition"),
            (lambda: w.refusal_message(huge), "the refusal"),
        ):
            with self.assertRaisesRegex(ValueError, f"^{named} is an integer of 16610 bits and not "):
                call()
        with self.assertRaisesRegex(TypeError, "^the rank must be an integer, got .an integer of 16610 bits.$"):
            w.window_of_word("A", [huge], [])

    def test_arguments_by_their_names(self):
        for call, named in (
            (lambda: w.rewrite("A", 2, [1], -1), "place"),
            (lambda: w.preset(1, FIRST, -1), "number"),
            (lambda: w.presets(1, FIRST, -1), "argument first"),
            (lambda: w.remove(1, FIRST, -1), "number"),
            (lambda: w.replace(1, FIRST, -1, "A", 2, []), "number"),
            (lambda: w.move_to(1, FIRST, -1, 0), "argument from_number"),
            (lambda: w.move_to(1, FIRST, 0, -1), "argument to_number"),
        ):
            with self.assertRaisesRegex(ValueError, f"^the {named} is -1 and not 0 to 18446744073709551615$"):
                call()

    def test_no_more_is_read_than_the_library_has_to_see(self):
        """Endless iterators are refused as lists are that are too long."""
        for call, number in (
            (lambda: w.window_of_word("A", 2, itertools.repeat(1)), 7),
            (lambda: w.window_of_word("A", 2, range(1, 10**12)), None),
            (lambda: w.window_of_word("A", 2, [1] * 10**6), 7),
            (lambda: w.window_of_word("A", 2, b"\1" * 10**6), 7),
            (lambda: w.length_of_window("A", 2, itertools.repeat(1)), 9),
            (lambda: w.length_of_window("A", 2, [1] * 10**6), 9),
            (lambda: w.book_check(1, bytes(10**6)), 1),
            (lambda: w.book_check(1, bytearray(10**6)), 1),
            (lambda: w.append_all(1, b"", itertools.repeat(("A", 2, [1]))), 13),
            (lambda: w.split("A", 2, itertools.repeat(1), []), None),
        ):
            with self.assertRaises(ValueError) as caught:
                call()
            self.assertEqual(getattr(caught.exception, "number", None), number)
        taken = []
        with self.assertRaises(w.Refusal):
            w.window_of_word("A", 2, (taken.append(1) or 1 for _ in itertools.count()))
        self.assertEqual(len(taken), 4097)


class Header(unittest.TestCase):
    def test_declarations(self):
        """Every function that the header declares is here, with the same arguments."""
        text = re.sub(r"(?s)/\*.*?\*/", "", header())
        declared = {}
        for name, arguments in re.findall(r"(?s)\bint64_t\s+winnathey_(\w+)\s*\(([^)]*)\)\s*;", text):
            letters = ""
            for argument in arguments.split(","):
                argument = " ".join(argument.replace("const", " ").replace("*", " * ").split())
                if argument != "void":
                    letters += TYPES[argument.rsplit(" ", 1)[0]]
            declared[name] = re.sub(r"([bihQ])z", r"\1", letters)
        self.assertEqual(declared, w._CALLS)

    def test_limits(self):
        for name, value in (("MAX_LANES", w.MAX_LANES), ("MAX_WORD", w.MAX_WORD), ("MAX_BOOK", w.MAX_BOOK)):
            found = re.search(rf"#define WINNATHEY_{name} (\d+)", header())
            self.assertIsNotNone(found, name)
            self.assertEqual(int(found.group(1)), value)


class Annotations(unittest.TestCase):
    def test_everywhere(self):
        """Every function says what it takes and returns."""
        for name, function in inspect.getmembers(w, lambda member: inspect.isfunction(member) and member.__module__ == w.__name__):
            signature = inspect.signature(function)
            given = [signature.return_annotation, *(parameter.annotation for parameter in signature.parameters.values())]
            self.assertNotIn(inspect.Signature.empty, given, name)


class Together(unittest.TestCase):
    def test_random_words(self):
        rng = random.Random(1)
        for _ in range(2000):
            kind = rng.choice("ABD")
            rank = rng.randint({"A": 1, "B": 2, "D": 4}[kind], 63)
            word = [rng.randint(1, rank) for _ in range(rng.randint(0, 40))]
            window = w.window_of_word(kind, rank, word)
            form = w.normal_form_of_window(kind, rank, window)
            self.assertEqual(form, w.normal_form_of_word(kind, rank, word))
            self.assertEqual(form, w.rewrite_to_end(kind, rank, word).word)
            self.assertEqual(len(form), w.crossings_of_window(kind, rank, window).total)

    def test_threads(self):
        wrong = []

        def ask():
            for _ in range(200):
                if w.normal_form_of_word("D", 5, WORD) != FORM:
                    wrong.append(1)

        threads = [threading.Thread(target=ask) for _ in range(8)]
        for thread in threads:
            thread.start()
        for thread in threads:
            thread.join()
        self.assertEqual(wrong, [])

    def test_examples_in_the_text(self):
        failed, tried = doctest.testmod(w)
        self.assertGreater(tried, 0)
        self.assertEqual(failed, 0)


if __name__ == "__main__":
    unittest.main()
