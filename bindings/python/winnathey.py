"""Router presets as words in Coxeter groups A, B and D.

A preset is a kind, a rank n and a word: a list of steps from 1 to n, applied from the left. Its window is
what the screens show then: lane by lane a number, with a minus sign if the lane is mirrored. Of all words
with one window the normal form is the shortest, and among those the first in the dictionary, where the
HIGHER step comes first.

The functions call a library whose answers are proved; what it cannot answer it refuses with a number and a
message, raised as `Refusal`. Nothing is left to the caller to check.

>>> window_of_word("D", 5, [4, 4, 2, 5, 3, 5, 1, 2])
[3, -5, 1, 4, -2]
>>> normal_form_of_word("D", 5, [4, 4, 2, 5, 3, 5, 1, 2])
[5, 2, 3, 5, 1, 2]
>>> window_of_word("B", 2, [1, 2, 3])
Traceback (most recent call last):
    ...
winnathey.Refusal: refused 8: A letter of the word is out of range: every letter must be at least 1 and at most the rank.

Kinds are "A", "B" and "D", large or small, or 1, 2 and 3. Words and windows are lists of numbers, or texts of
decimal numbers with blanks (spaces, tabs, line ends) or commas between them; a set of allowed steps is a list of steps, a text, or a number whose
bit 0 stands for step 1. Books are bytes, or any other buffer, of the edition 1 or 2. What a function cannot hand
to the library at all, such as a letter above 255, a bool or a float, is a ValueError or a TypeError that names it.

>>> normal_form_of_word("d", 5, "4 4 2 5 3 5 1 2")
[5, 2, 3, 5, 1, 2]
>>> try:
...     book_check(1, bytes([0]))
... except Refusal as refusal:
...     print(refusal.number is Refused.BOOK_SIZE)
True

The shared library is looked for at the path in the environment variable WINNATHEY_LIBRARY, beside this file, in
the `lib` folder of the package that this file belongs to, and where the system looks for libraries. Every
function may be called from any number of threads.
"""

from __future__ import annotations

import ctypes
import operator
import os
import re
import reprlib
import struct
from array import array
from ctypes import c_char, c_int64, c_uint32, c_uint64, c_void_p
from enum import IntEnum
from itertools import islice
from types import SimpleNamespace
from typing import TYPE_CHECKING, Any, Callable, Iterable, Iterator, List, NamedTuple, Optional, Tuple, Type, Union

if TYPE_CHECKING:
    from _typeshed import ReadableBuffer as Book
else:
    Book = Any

__version__ = "1.0.0"
__all__ = [
    "Refusal", "Refused", "Crossings", "DelayTable", "Preset", "Rewrite", "RewriteStep", "Rewriting", "Split",
    "Kind", "Word", "Window", "Steps", "Book", "NewPreset", "MAX_LANES", "MAX_WORD", "MAX_TABLE_COUNTS", "MAX_BOOK",
    "window_of_word", "normal_form_of_word", "normal_form_of_window", "product_of_words", "product_of_windows",
    "inverse_of_word", "inverse_of_window", "length_of_word", "length_of_window", "crossings_of_word",
    "crossings_of_window", "delay_table", "same", "better", "rewrite", "rewrite_steps", "rewrite_to_end",
    "fallback", "split", "between", "book_check", "preset", "presets", "append", "append_all", "remove", "replace",
    "move_to", "convert", "refusal_message", "version",
]

Kind = Union[str, int]
"""A kind: "A", "B" or "D", large or small, or 1, 2 or 3."""
Word = Union[str, Iterable[int]]
"""A word: up to 4,096 steps, each from 1 to the rank; or a text of them."""
Window = Union[str, Iterable[int]]
"""A window: the entries of its lanes, a mirrored one with a minus sign; or a text of them."""
Steps = Union[str, int, Iterable[int]]
"""A set of steps: the steps, a text of them, or a number whose bit 0 stands for step 1."""
NewPreset = Tuple[Kind, int, Word]
"""A preset for a book: its kind, its rank and its word. A `Preset` is one."""

MAX_LANES = 64
MAX_WORD = 4096
MAX_TABLE_COUNTS = 257
MAX_BOOK = 65535

_NONE_FITS = -100
_NO_FALLBACK = -101
_MAX_RECORD = 5 + MAX_WORD
# What stands behind the only record of a book: its offset and the count.
_TRAILER = 4


class Refused(IntEnum):
    """The numbers of the refusals by the names that the C header has for them, without WINNATHEY_REFUSED_."""

    BOOK_SIZE = 1
    BOOK_COUNT = 2
    BOOK_OFFSET = 3
    PRESET_NUMBER = 4
    KIND = 5
    RANK = 6
    WORD_LENGTH = 7
    LETTER = 8
    WINDOW_LENGTH = 9
    ENTRY = 10
    ODD_NEGATIVES = 11
    PLACE = 12
    BOOK_FULL = 13
    OUTPUT = 14
    STEP_LISTS = 15
    ALLOWED = 16
    LANE_COUNT = 17
    FIRST_EDITION_LANES = 18
    UNREACHABLE = 19
    TABLE_RANK = 20
    RETIRED_PRESET = 21


class Refusal(ValueError):
    """A call was refused, and changed nothing. `number` and `message` say why; `place` says which preset of the
    list `append_all` was given is refused, counted from 0, and is None for all other calls."""

    number: Refused
    message: str
    place: Optional[int]

    def __init__(self, number: int, place: Optional[int] = None) -> None:
        self.number = Refused(number)
        self.message = refusal_message(number)
        self.place = place
        where = "" if place is None else f" (preset {place} of the list)"
        super().__init__(f"refused {int(number)}: {self.message}{where}")

    def __reduce__(self) -> Tuple[Type[Refusal], Tuple[int, Optional[int]]]:
        return Refusal, (int(self.number), self.place)

    def __eq__(self, other: object) -> bool:
        return isinstance(other, Refusal) and (self.number, self.place) == (other.number, other.place)

    def __hash__(self) -> int:
        return hash((Refusal, self.number, self.place))


class Crossings(NamedTuple):
    """A length as its three counts: plain pairs, pairs against a mirrored lane, mirrored lanes."""

    inversions: int
    negative_sum_pairs: int
    negatives: int

    @property
    def total(self) -> int:
        """The length."""
        return sum(self)


class DelayTable(NamedTuple):
    """How many windows have the length 0, 1, ..; the one with the greatest; its normal form."""

    counts: List[int]
    window: List[int]
    normal_form: List[int]


class Preset(NamedTuple):
    """A preset of a book: its kind as a letter, its rank, its word."""

    kind: str
    rank: int
    word: List[int]


class Rewrite(NamedTuple):
    """The rule that one rewrite used, and the new word."""

    family: int
    i: int
    j: int
    word: List[int]


class RewriteStep(NamedTuple):
    """One step of a rewriting: the rule's family, the place, the letters left after it."""

    family: int
    place: int
    length: int


class Rewriting(NamedTuple):
    """The rewriting of a word to its end: its steps, and the final word, which is the normal form."""

    steps: List[RewriteStep]
    word: List[int]


class Split(NamedTuple):
    """A word split by allowed steps: the first word is over them, the second begins with none."""

    first: List[int]
    second: List[int]


# ---- the library


def _open() -> ctypes.CDLL:
    """The shared library."""
    named = os.environ.get("WINNATHEY_LIBRARY")
    if named:
        return ctypes.CDLL(named)
    here = os.path.dirname(os.path.abspath(__file__))
    for folder in (here, os.path.join(here, "..", "lib"), os.path.join(here, "..", "..", "lib")):
        path = os.path.join(folder, "libwinnathey.so.1")
        if os.path.exists(path):
            return ctypes.CDLL(path)
    try:
        return ctypes.CDLL("libwinnathey.so.1")
    except OSError as error:
        raise OSError("libwinnathey.so.1 is not installed: set WINNATHEY_LIBRARY to its path") from error


# The arguments of each call, as the header has them. A letter stands for an argument: u a number of 32 bits,
# z a size, q a set; the others for an array and its length: b bytes, i signed bytes, h and Q numbers of 16
# and 64 bits.
_CALLS = {
    "window_of_word": "uubi",
    "normal_form_of_word": "uubb",
    "product_of_words": "uubbb",
    "inverse_of_word": "uubb",
    "length_of_word": "uub",
    "crossings_of_word": "uubQ",
    "same": "uubuub",
    "better": "uubb",
    "normal_form_of_window": "uuib",
    "product_of_windows": "uuiii",
    "inverse_of_window": "uuii",
    "length_of_window": "uui",
    "crossings_of_window": "uuiQ",
    "delay_table": "uuQibQ",
    "rewrite": "uubzbb",
    "rewrite_steps": "uub",
    "rewrite_to_end": "uubbhhbQ",
    "fallback": "uubbh",
    "split": "uuqbbbQ",
    "between": "uuqiib",
    "book_check": "b",
    "preset": "bzQ",
    "presets": "bzQ",
    "append": "buubb",
    "second_book_check": "b",
    "second_preset": "bzQ",
    "second_presets": "bzQ",
    "second_append": "buubb",
    "to_second": "bb",
    "to_first": "bb",
    "refusal_message": "ub",
    "version": "",
}
_NUMBERS = {"u": c_uint32, "z": c_uint64, "q": c_uint64}


def _types(arguments: str) -> Iterator[Any]:
    for letter in arguments:
        if letter in _NUMBERS:
            yield _NUMBERS[letter]
        else:
            yield c_void_p
            yield c_uint64


def _functions(library: ctypes.CDLL) -> Any:
    """The calls by their names. Each array that one is given is followed by its length."""
    functions = SimpleNamespace()
    for name, arguments in _CALLS.items():
        function = getattr(library, "winnathey_" + name)
        function.argtypes = list(_types(arguments))
        function.restype = c_int64
        setattr(functions, name, function)
    return functions


_c = _functions(_open())

# Outputs: room for a word, a window, numbers, places and a book. Each call has its own, for threads.
_Letters: Any = c_char * MAX_WORD
_Entries: Any = c_char * MAX_LANES
_Message: Any = c_char * 256
_Three: Any = c_uint64 * 3
_Counts: Any = c_uint64 * MAX_TABLE_COUNTS
_Places: Any = ctypes.c_uint16 * MAX_WORD
_NewBook: Any = c_char * MAX_BOOK
_Records: Any = c_char * (MAX_BOOK + _MAX_RECORD + _TRAILER)


def _answered(number: int) -> int:
    if number < 0:
        raise Refusal(-number)
    return number


def _letters(out: Any, count: int) -> List[int]:
    """The letters at the front of an output, by the answer of the call that wrote it."""
    if count < 0:
        raise Refusal(-count)
    return list(out[:count])


def _entries(out: Any, count: int) -> List[int]:
    """The same of a window."""
    if count < 0:
        raise Refusal(-count)
    return array("b", out[:count]).tolist()


# ---- arguments: what a call cannot be handed at all is an error before it

_KINDS = {letter: number for number, letters in ((1, "Aa"), (2, "Bb"), (3, "Dd")) for letter in letters}
_INT = frozenset([int])


class _Shown(reprlib.Repr):
    """Values in messages, cut short. Python itself does not print an integer of more than 4,300 digits."""

    def repr_int(self, x: int, level: int) -> str:
        return super().repr_int(x, level) if x.bit_length() <= 64 else f"an integer of {x.bit_length()} bits"


_shown = _Shown().repr


def _kind(kind: Kind) -> int:
    if isinstance(kind, str):
        try:
            return _KINDS[kind]
        except KeyError:
            raise ValueError(f"the kind is {_shown(kind)} and not 'A', 'B' or 'D'") from None
    return _number(kind, 2**32, "the kind")


def _whole(value: Any, what: str) -> int:
    """A whole number of any type that stands for one, such as NumPy's; a truth value is none."""
    try:
        if not isinstance(value, bool):
            return operator.index(value)
    except TypeError:
        pass
    raise TypeError(f"{what} must be an integer, got {_shown(value)}")


def _number(value: Any, limit: int, what: str) -> int:
    value = _whole(value, what)
    if not 0 <= value < limit:
        raise ValueError(f"{what} is {_shown(value)} and not 0 to {limit - 1}")
    return int(value)


def _rank(rank: int) -> int:
    if type(rank) is int and 0 <= rank < 4294967296:
        return rank
    return _number(rank, 2**32, "the rank")


def _place(value: int, name: str) -> int:
    return _number(value, 2**64, name)


# The blanks of a text are these in every language, and no others that Unicode has.
_BLANKS = " \t\n\r"
_WHOLE = re.compile("(-?)0*([0-9]+)")


def _parts(text: str) -> List[str]:
    """The numbers of a text as texts: with blanks between them, or commas, around which there may be blanks. Between
    two commas stands a number at least."""
    if not text.strip(_BLANKS):
        return []
    return [number for part in text.split(",") for number in re.split(f"[{_BLANKS}]+", part.strip(_BLANKS))]


def _parsed(text: str, lowest: int, highest: int, what: str) -> List[int]:
    numbers = []
    for place, part in enumerate(_parts(text)):
        found = _WHOLE.fullmatch(part)
        # Every limit has three digits at most.
        number = int(found[1] + found[2]) if found and len(found[2]) <= 3 and (lowest < 0 or not found[1]) else None
        if number is None or not lowest <= number <= highest:
            raise ValueError(f"{what} at place {place} is {_shown(part)} and not {lowest} to {highest}")
        numbers.append(number)
    return numbers


def _checked(values: Any, limit: int, lowest: int, highest: int, what: str, list_of: str) -> List[int]:
    """Up to so many numbers of a list or of whatever yields them. A set or a dictionary has no order that could be
    meant."""
    if isinstance(values, str):
        values = _parsed(values, lowest, highest, what)
    if isinstance(values, (set, frozenset, dict)) or not hasattr(values, "__iter__"):
        raise TypeError(f"the {list_of} is {_shown(values)} and no list")
    numbers = []
    for place, value in enumerate(islice(values, limit)):
        value = _whole(value, f"{what} at place {place}")
        if not lowest <= value <= highest:
            raise ValueError(f"{what} at place {place} is {_shown(value)} and not {lowest} to {highest}")
        numbers.append(value)
    return numbers


def _word(word: Word) -> bytes:
    """A word as bytes. Of one that is too long no more is read than the library has to see."""
    if type(word) is list or type(word) is tuple:
        if len(word) <= MAX_WORD and _INT.issuperset(map(type, word)):
            try:
                return bytes(word)
            except ValueError:
                pass
    elif type(word) is bytes:
        return word[: MAX_WORD + 1]
    return bytes(_checked(word, MAX_WORD + 1, 0, 255, "the letter", "word"))


def _window(window: Window) -> bytes:
    """A window as signed bytes. Of one that is too long no more is read than the library has to see."""
    if type(window) is list or type(window) is tuple:
        if len(window) <= MAX_LANES and _INT.issuperset(map(type, window)):
            try:
                return array("b", window).tobytes()
            except OverflowError:
                pass
    return array("b", _checked(window, MAX_LANES + 1, -128, 127, "the entry", "window")).tobytes()


def _book(book: Book) -> bytes:
    """A book as bytes, whatever buffer has them. Of one that is too long no more is read than the library has to
    see."""
    if type(book) is not bytes:
        try:
            view = memoryview(book)
        except TypeError:
            raise TypeError(f"the book is {type(book).__name__} and not bytes") from None
        if view.nbytes > MAX_BOOK and view.c_contiguous and view.format in ("B", "b", "c"):
            view = view.cast("B")[: MAX_BOOK + 1]
        book = view.tobytes()
    return book if len(book) <= MAX_BOOK else book[: MAX_BOOK + 1]


def _second(edition: int) -> bool:
    number = _whole(edition, "the edition")
    if number not in (1, 2):
        raise ValueError(f"the edition is {_shown(number)} and not 1 or 2")
    return number == 2


def _allowed(allowed: Steps) -> int:
    listed: Any = _parsed(allowed, 1, 64, "the step") if isinstance(allowed, str) else allowed
    if not hasattr(listed, "__iter__"):
        return _number(listed, 2**64, "the set")
    steps = 0
    for place, value in enumerate(listed):
        if place == MAX_WORD:
            raise ValueError(f"the set has more than {MAX_WORD} steps")
        step = _whole(value, "the step")
        if not 1 <= step <= 64:
            raise ValueError(f"the step is {_shown(step)} and not 1 to 64")
        steps |= 1 << (step - 1)
    return steps


# ---- words


def window_of_word(kind: Kind, rank: int, word: Word) -> List[int]:
    """The window of a word. Refusals 5 to 8."""
    letters, out = _word(word), _Entries()
    return _entries(out, _c.window_of_word(_kind(kind), _rank(rank), letters, len(letters), out, MAX_LANES))


def normal_form_of_word(kind: Kind, rank: int, word: Word) -> List[int]:
    """The normal form of a word. Refusals 5 to 8."""
    letters, out = _word(word), _Letters()
    return _letters(out, _c.normal_form_of_word(_kind(kind), _rank(rank), letters, len(letters), out, MAX_WORD))


def product_of_words(kind: Kind, rank: int, first: Word, second: Word) -> List[int]:
    """The product of two words, the first followed by the second, as a normal form. Refusals 5 to 8."""
    one, two, out = _word(first), _word(second), _Letters()
    length = _c.product_of_words(_kind(kind), _rank(rank), one, len(one), two, len(two), out, MAX_WORD)
    return _letters(out, length)


def inverse_of_word(kind: Kind, rank: int, word: Word) -> List[int]:
    """The inverse of a word, as a normal form. Refusals 5 to 8."""
    letters, out = _word(word), _Letters()
    return _letters(out, _c.inverse_of_word(_kind(kind), _rank(rank), letters, len(letters), out, MAX_WORD))


def length_of_word(kind: Kind, rank: int, word: Word) -> int:
    """The length of a word's normal form. Refusals 5 to 8."""
    letters = _word(word)
    return _answered(_c.length_of_word(_kind(kind), _rank(rank), letters, len(letters)))


def crossings_of_word(kind: Kind, rank: int, word: Word) -> Crossings:
    """The length of a word's normal form as its three counts. Refusals 5 to 8."""
    letters, counts = _word(word), _Three()
    _answered(_c.crossings_of_word(_kind(kind), _rank(rank), letters, len(letters), counts, 3))
    return Crossings(*counts)


def same(kind1: Kind, rank1: int, word1: Word, kind2: Kind, rank2: int, word2: Word) -> bool:
    """Whether two presets look alike: as many lanes and the same window. Refusals 5 to 8, the first's first."""
    one, two = _word(word1), _word(word2)
    first, second = (_kind(kind1), _rank(rank1), one, len(one)), (_kind(kind2), _rank(rank2), two, len(two))
    return _answered(_c.same(*first, *second)) == 1


def better(kind: Kind, rank: int, first: Word, second: Word) -> Optional[List[int]]:
    """The better of two words with one window: the shorter, at equal lengths the one earlier in the dictionary, at
    equal words the first. None if the windows differ. Refusals 5 to 8, the first word's first."""
    number, rank = _kind(kind), _rank(rank)
    one, two = _word(first), _word(second)
    choice = _c.better(number, rank, one, len(one), two, len(two))
    if choice == 0:
        # Neither: their windows differ, or one is refused.
        _answered(_c.same(number, rank, one, len(one), number, rank, two, len(two)))
        return None
    return list(one if choice == 1 else two)


# ---- windows


def normal_form_of_window(kind: Kind, rank: int, window: Window) -> List[int]:
    """The normal form of a window. Refusals 5, 6, 9 to 11."""
    entries, out = _window(window), _Letters()
    return _letters(out, _c.normal_form_of_window(_kind(kind), _rank(rank), entries, len(entries), out, MAX_WORD))


def product_of_windows(kind: Kind, rank: int, first: Window, second: Window) -> List[int]:
    """The product of two windows: its entry at i is the first's entry at the second's. Refusals 5, 6, 9 to 11."""
    one, two, out = _window(first), _window(second), _Entries()
    lanes = _c.product_of_windows(_kind(kind), _rank(rank), one, len(one), two, len(two), out, MAX_LANES)
    return _entries(out, lanes)


def inverse_of_window(kind: Kind, rank: int, window: Window) -> List[int]:
    """The inverse of a window. Refusals 5, 6, 9 to 11."""
    entries, out = _window(window), _Entries()
    return _entries(out, _c.inverse_of_window(_kind(kind), _rank(rank), entries, len(entries), out, MAX_LANES))


def length_of_window(kind: Kind, rank: int, window: Window) -> int:
    """The length of a window's normal form. Refusals 5, 6, 9 to 11."""
    entries = _window(window)
    return _answered(_c.length_of_window(_kind(kind), _rank(rank), entries, len(entries)))


def crossings_of_window(kind: Kind, rank: int, window: Window) -> Crossings:
    """The length of a window's normal form as its three counts. Refusals 5, 6, 9 to 11."""
    entries, counts = _window(window), _Three()
    _answered(_c.crossings_of_window(_kind(kind), _rank(rank), entries, len(entries), counts, 3))
    return Crossings(*counts)


def delay_table(kind: Kind, rank: int) -> DelayTable:
    """The delay table, up to rank 19 in kind A and 16 in B and D. Refusals 5, 6, 20."""
    counts, window, form, lengths = _Counts(), _Entries(), _Letters(), _Three()
    outputs = counts, MAX_TABLE_COUNTS, window, MAX_LANES, form, MAX_WORD, lengths, 3
    _answered(_c.delay_table(_kind(kind), _rank(rank), *outputs))
    return DelayTable(counts[: lengths[0]], _entries(window, lengths[1]), _letters(form, lengths[2]))


# ---- rewriting


def rewrite(kind: Kind, rank: int, word: Word, place: int) -> Optional[Rewrite]:
    """One rewrite of a word at a place, which counts from 0, or None if no rule fits there. Refusals 5 to 8, 12."""
    letters, out, rule = _word(word), _Letters(), _Entries()
    outputs = out, MAX_WORD, rule, 3
    length = _c.rewrite(_kind(kind), _rank(rank), letters, len(letters), _place(place, "the place"), *outputs)
    if length == _NONE_FITS:
        return None
    new = _letters(out, length)
    family, i, j = rule[:3]
    return Rewrite(family, i, j, new)


def rewrite_steps(kind: Kind, rank: int, word: Word) -> int:
    """How many steps the rewriting of a word to its end takes. Refusals 5 to 8."""
    letters = _word(word)
    return _answered(_c.rewrite_steps(_kind(kind), _rank(rank), letters, len(letters)))


def rewrite_to_end(kind: Kind, rank: int, word: Word) -> Rewriting:
    """Rewrites a word always at the lowest place where a rule fits, until none fits. Refusals 5 to 8."""
    number, rank, letters = _kind(kind), _rank(rank), _word(word)
    steps = _answered(_c.rewrite_steps(number, rank, letters, len(letters)))
    families, places, lengths = array("B", bytes(steps)), array("H", bytes(2 * steps)), array("H", bytes(2 * steps))
    out, written = _Letters(), _Three()
    lists = [part for column in (families, places, lengths) for part in (column.buffer_info()[0], steps)]
    _answered(_c.rewrite_to_end(number, rank, letters, len(letters), *lists, out, MAX_WORD, written, 1))
    return Rewriting(list(map(RewriteStep, families, places, lengths)), _letters(out, written[0]))


# ---- fallbacks and allowed steps


def fallback(kind: Kind, rank: int, present: Word, simpler: Word) -> Optional[List[int]]:
    """The places of the present word's normal form whose letters have the simpler window, or None if that cannot
    be reached by removing letters. Refusals 5 to 8, the present word's first."""
    one, two, places = _word(present), _word(simpler), _Places()
    kept = _c.fallback(_kind(kind), _rank(rank), one, len(one), two, len(two), places, MAX_WORD)
    if kept == _NO_FALLBACK:
        return None
    return array("H", ctypes.string_at(places, 2 * _answered(kept))).tolist()


def split(kind: Kind, rank: int, allowed: Steps, word: Word) -> Split:
    """A word split by allowed steps. Refusals 5, 6, 16, 7, 8."""
    letters, first, second, lengths = _word(word), _Letters(), _Letters(), _Three()
    outputs = first, MAX_WORD, second, MAX_WORD, lengths, 2
    _answered(_c.split(_kind(kind), _rank(rank), _allowed(allowed), letters, len(letters), *outputs))
    return Split(_letters(first, lengths[0]), _letters(second, lengths[1]))


def between(kind: Kind, rank: int, allowed: Steps, from_window: Window, to_window: Window) -> List[int]:
    """The normal form of the word over allowed steps that leads from one window to another. Refusals 5, 6, 16,
    9 to 11, the first window's first, and 19 if no word does."""
    one, two, out = _window(from_window), _window(to_window), _Letters()
    windows = one, len(one), two, len(two)
    return _letters(out, _c.between(_kind(kind), _rank(rank), _allowed(allowed), *windows, out, MAX_WORD))


# ---- books


def book_check(edition: int, book: Book) -> int:
    """The number of a book's presets. Refusals 1 to 3."""
    call = _c.second_book_check if _second(edition) else _c.book_check
    lent = _book(book)
    return _answered(call(lent, len(lent)))


def preset(edition: int, book: Book, number: int) -> Preset:
    """The preset with this number, from 0. Refusals 1 to 8, in the second edition 17."""
    call = _c.second_preset if _second(edition) else _c.preset
    lent, fields = _book(book), (c_uint64 * 4)()
    _answered(call(lent, len(lent), _place(number, "the number"), fields, 4))
    return _lent(lent, *fields)


def _lent(lent: bytes, kind: int, rank: int, start: int, letters: int) -> Preset:
    return Preset("ABD"[kind - 1], rank, list(lent[start : start + letters]))


def presets(edition: int, book: Book, first: int = 0) -> List[Union[Preset, Refusal]]:
    """The presets of a book in their order, from the number `first` on; in place of one that is refused stands its
    `Refusal`, which is not raised. With `first` the number of presets, the list is empty; above that it is refused 4.
    Refusals 1 to 4, of the book."""
    call = _c.second_presets if _second(edition) else _c.presets
    lent, first = _book(book), _place(first, "the argument first")
    count = book_check(edition, lent)
    if first == count:
        return []
    # With room for one at least, so that it is the library that says 4.
    room = 5 * max(count - first, 1)
    fields = array("Q", bytes(8 * room))
    written = _answered(call(lent, len(lent), first, fields.buffer_info()[0], room))
    rows = (fields[at : at + 5] for at in range(0, 5 * written, 5))
    return [Refusal(refused) if refused else _lent(lent, *row) for refused, *row in rows]


def append(edition: int, book: Book, kind: Kind, rank: int, word: Word) -> bytes:
    """The book with a preset appended. Refusals 1 to 3, 5 to 8, 21, 13."""
    call = _c.second_append if _second(edition) else _c.append
    lent, letters, out = _book(book), _word(word), _NewBook()
    length = call(lent, len(lent), _kind(kind), _rank(rank), letters, len(letters), out, MAX_BOOK)
    return bytes(out[: _answered(length)])


def convert(edition: int, book: Book) -> bytes:
    """The book, which is of this edition, as one of the other. Refusals 1 to 3; of each record 5 to 8, in the
    second edition 17 and 18; 13."""
    call = _c.to_first if _second(edition) else _c.to_second
    lent, out = _book(book), _NewBook()
    return bytes(out[: _answered(call(lent, len(lent), out, MAX_BOOK))])


# ---- edits: whole records are spliced, so that each reads as before, one of kind A and rank 1 or a refused one too


def _starts(edition: int, lent: bytes) -> List[int]:
    """Where the records of a book begin, and at the end of the list where they end."""
    count = book_check(edition, lent)
    end = max(len(lent) - 2 * (count + 1), 0)
    return [*struct.unpack_from(f"<{count}H", lent, end), end]


def _records(edition: int, lent: bytes) -> List[bytes]:
    starts = _starts(edition, lent)
    return [lent[start:end] for start, end in zip(starts, starts[1:])]


def _present(records: List[bytes], number: int, name: str) -> int:
    """The number of a preset that there is."""
    number = _place(number, name)
    if number >= len(records):
        raise Refusal(Refused.PRESET_NUMBER)
    return number


def _joined(edition: int, records: List[bytes]) -> bytes:
    """The book with these records, which the library checks."""
    starts, end = [], 0
    for record in records:
        starts.append(end)
        end += len(record)
    return _whole_book(edition, b"".join(records), starts)


def _whole_book(edition: int, records: bytes, starts: List[int]) -> bytes:
    if len(records) + 2 * (len(starts) + 1) > MAX_BOOK:
        raise Refusal(Refused.BOOK_FULL)
    book = records + struct.pack(f"<{len(starts) + 1}H", *starts, len(starts))
    book_check(edition, book)
    return book


def append_all(edition: int, book: Book, presets: Iterable[NewPreset]) -> bytes:
    """The book with presets appended in their order, each made a record by the library's append: all of them or none.
    A refusal has the `place` of the preset in the list. Refusals 1 to 3; of each preset 5 to 8, 21, 13."""
    call: Callable[..., int] = _c.second_append if _second(edition) else _c.append
    lent = _book(book)
    *starts, end = _starts(edition, lent)
    before, out = len(starts), _Records()
    address, room = ctypes.addressof(out), _MAX_RECORD + _TRAILER
    ctypes.memmove(out, lent, end)
    # The library writes each record where it stays, and behind it a trailer, over which the next one is written.
    for place, (kind, rank, word) in enumerate(presets):
        letters = _word(word)
        length = call(None, 0, _kind(kind), _rank(rank), letters, len(letters), address + end, room)
        if length < 0:
            raise Refusal(-length, place)
        starts.append(end)
        end += length - _TRAILER
        if end + 2 * (len(starts) + 1) > MAX_BOOK:
            raise Refusal(Refused.BOOK_FULL, place)
    if len(starts) == before:
        return lent
    return _whole_book(edition, bytes(out[:end]), starts)


def remove(edition: int, book: Book, number: int) -> bytes:
    """The book without the preset with this number. Refusals 1 to 4."""
    records = _records(edition, _book(book))
    del records[_present(records, number, "the number")]
    return _joined(edition, records)


def replace(edition: int, book: Book, number: int, kind: Kind, rank: int, word: Word) -> bytes:
    """The book with another preset in the place of the one with this number. Refusals 1 to 8, 21, 13."""
    records = _records(edition, _book(book))
    number = _present(records, number, "the number")
    records[number] = append(edition, b"", kind, rank, word)[:-_TRAILER]
    return _joined(edition, records)


def move_to(edition: int, book: Book, from_number: int, to_number: int) -> bytes:
    """The book with a preset at another number; those between move up or down by one. Refusals 1 to 4."""
    records = _records(edition, _book(book))
    origin = _present(records, from_number, "the argument from_number")
    target = _present(records, to_number, "the argument to_number")
    records.insert(target, records.pop(origin))
    return _joined(edition, records)


# ---- about the library


def refusal_message(number: int) -> str:
    """Why a call is refused with this number; empty for a number that is no refusal."""
    out = _Message()
    length = _c.refusal_message(_number(number, 2**32, "the refusal"), out, 256)
    return bytes(out[: max(length, 0)]).decode("ascii")


def version() -> str:
    """The library's version as a text such as 1.0.0."""
    number = _c.version()
    return f"{number // 1000000}.{number // 1000 % 1000}.{number % 1000}"
