"""Every call of winnathey, with its types. tests/packages lets mypy check it strictly, and runs it."""

from typing import List, Optional, Union

import winnathey
from winnathey import Book, Kind, NewPreset, Steps, Window, Word

kind: Kind = "D"
word: Word = [4, 4, 2, 5, 3, 5, 1, 2]
simpler: Word = "5 2 3"
allowed: Steps = {1, 2, 3, 4, 5}
identity: Window = (1, 2, 3, 4, 5)

# ---- words and windows
window: List[int] = winnathey.window_of_word(kind, 5, word)
form: List[int] = winnathey.normal_form_of_word(kind, 5, word)
same_form: List[int] = winnathey.normal_form_of_window(kind, 5, window)
product: List[int] = winnathey.product_of_words(kind, 5, word, simpler)
composed: List[int] = winnathey.product_of_windows(kind, 5, window, identity)
inverse: List[int] = winnathey.inverse_of_word(kind, 5, word)
inverted: List[int] = winnathey.inverse_of_window(kind, 5, window)
length: int = winnathey.length_of_word(kind, 5, word) + winnathey.length_of_window(kind, 5, window)
counts: winnathey.Crossings = winnathey.crossings_of_word(kind, 5, word)
total: int = counts.total + winnathey.crossings_of_window(kind, 5, window).negatives
table: winnathey.DelayTable = winnathey.delay_table(kind, 5)
windows: int = sum(table.counts)
alike: bool = winnathey.same(kind, 5, word, 3, 5, form)
better: Optional[List[int]] = winnathey.better(kind, 5, word, form)
assert form == same_form == better and alike and composed == window and length == 12 and total == 6
assert windows == 1920 and product and inverse and inverted and table.window and table.normal_form

# ---- rewriting, fallbacks, allowed steps
one: Optional[winnathey.Rewrite] = winnathey.rewrite(kind, 5, word, 0)
rewriting: winnathey.Rewriting = winnathey.rewrite_to_end(kind, 5, word)
step: winnathey.RewriteStep = rewriting.steps[0]
assert one is not None and one.family == step.family and rewriting.word == form
assert winnathey.rewrite_steps(kind, 5, word) == len(rewriting.steps)
places: Optional[List[int]] = winnathey.fallback(kind, 5, word, simpler)
parts: winnathey.Split = winnathey.split(kind, 5, [1, 2], word)
path: List[int] = winnathey.between(kind, 5, allowed, identity, window)
assert places is not None and len(parts.first) + len(parts.second) == len(form) and path == form

# ---- books
new: NewPreset = (kind, 5, word)
empty: Book = b""
book: bytes = winnathey.append(1, empty, kind, 5, word)
book = winnathey.append_all(1, book, [new, ("B", 2, "1 2 1 2")])
book = winnathey.replace(1, book, 0, "A", 2, [1])
book = winnathey.move_to(1, book, 0, 2)
book = winnathey.remove(1, bytearray(book), 0)
count: int = winnathey.book_check(2, winnathey.convert(1, memoryview(book)))
last: winnathey.Preset = winnathey.preset(1, book, 1)
listed: List[Union[winnathey.Preset, winnathey.Refusal]] = winnathey.presets(1, book)
assert count == 2 and last == ("A", 2, [1]) and listed[1] == last and len(winnathey.presets(1, book, 1)) == 1

# ---- refusals and limits
try:
    winnathey.window_of_word("B", 2, [1, 2, 3])
except winnathey.Refusal as refusal:
    number: winnathey.Refused = refusal.number
    place: Optional[int] = refusal.place
    assert number is winnathey.Refused.LETTER and place is None
    assert refusal.message == winnathey.refusal_message(number)
limits: List[int] = [winnathey.MAX_LANES, winnathey.MAX_WORD, winnathey.MAX_TABLE_COUNTS, winnathey.MAX_BOOK]
assert limits == [64, 4096, 257, 65535]
version: str = winnathey.version()
assert version == winnathey.__version__
