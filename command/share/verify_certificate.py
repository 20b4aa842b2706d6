"""Checks a certificate that `winnathey certify` wrote against the book that it is about.

    python3 verify_certificate.py BOOK CERTIFICATE --edition first|second

It says yes and what was checked (status 0), or no and the first line of the certificate that is wrong (status 1);
status 2 is for a wrong call, a file that cannot be read or too little memory. It runs on Python 3.8 or later without
Winnathey: books, steps and rules are written here from docs/SPECIFICATION.md, whose clauses the comments name.
"""
import argparse, functools, hashlib, json, sys

KINDS = {1: "A", 2: "B", 3: "D"}  # K2
RANKS = {"first": {"A": (1, 31), "B": (2, 32), "D": (4, 32)},  # B12
         "second": {"A": (1, 63), "B": (2, 64), "D": (4, 64)}}  # B13, K4
HEAD_BYTES = {"first": 4, "second": 5}  # B6, B7
MAX_BOOK, MAX_WORD = 65535, 4096  # C1, C7
MAX_LINE = {False: 1 << 20, True: 1 << 27}  # more bytes than any line has, without and with a rewriting (T25)

# The fields of the certificate's lines and their types; lists are of whole numbers.
HEAD = {"certificate": int, "version": str, "library_sha256": str, "book_sha256": str, "bytes": int, "edition": str,
        "presets": int, "lines": bool}
PRESET = {"preset": int, "kind": str, "rank": int, "word": list, "window": list, "normal_form": list}
LISTS = {"families": list, "places": list, "lengths": list}
REFUSED = {"preset": int, "refused": int}
END = {"end": bool, "presets": int, "refused": int}

class Wrong(Exception):
    """What is wrong in a line of the certificate."""

def need(condition, message):
    if not condition: raise Wrong(message)

def agree(line, **values):
    for name, value in values.items():
        need(line[name] == value, "%s has to be %s" % (name, str(value)[:100]))

def records(book, edition):
    """The records of a book, each as its bytes (B1 to B7, B10); Wrong if one of the checks 1 to 3 refuses the book."""
    number = lambda at: book[at] + 256 * book[at + 1]
    if not book: return []
    need(2 <= len(book) <= MAX_BOOK, "the book is refused 1")
    trailer = len(book) - 2 - 2 * number(len(book) - 2)
    need(trailer >= 0, "the book is refused 2")
    start, found = 0, []
    for offset in range(trailer, len(book) - 2, 2):
        letters = start + HEAD_BYTES[edition]
        need(number(offset) == start and letters <= trailer, "the book is refused 3")
        found.append(book[start:letters + number(letters - 2)])
        start = letters + number(letters - 2)
        need(start <= trailer, "the book is refused 3")
    need(start == trailer, "the book is refused 3")
    return found

def read(record, edition):
    """Kind, rank and word of a record, or the number of the first check that refuses it (CO2, CO8)."""
    kind, rank, word = KINDS.get(record[0]), record[1], record[HEAD_BYTES[edition]:]
    if kind is None: return 5
    if not RANKS[edition][kind][0] <= rank <= RANKS[edition][kind][1]: return 6
    if edition == "second" and record[2] != (rank + 1 if kind == "A" else rank): return 17
    if len(word) > MAX_WORD: return 7
    if not all(1 <= letter <= rank for letter in word): return 8
    return kind, rank, word

def window(kind, n, word):
    """The window of a word: its steps on the straight window, from the left (W3, W4)."""
    w = list(range(n + 2 if kind == "A" else n + 1))  # K3; the entry on lane i is w[i], and w[0] is not used
    for i in word:
        if kind == "A" or i < n:
            w[i], w[i + 1] = w[i + 1], w[i]  # K7
        elif kind == "B":
            w[n] = -w[n]  # K8
        else:
            w[n - 1], w[n] = -w[n], -w[n - 1]  # K9
    return w[1:]

def block(kind, n, i, j):
    """The block [i,j]. Words are bytes, one a letter."""
    if kind == "D" and j >= n:
        return bytes([*range(i, n - 1), n, *range(n - 1, 2 * n - j - 1, -1)])  # N8
    if kind == "B" and j > n:
        return bytes([*range(i, n + 1), *range(n - 1, 2 * n - j - 1, -1)])  # N6
    return bytes(range(i, j + 1))  # N4, N5, N7

@functools.lru_cache(maxsize=None)
def rules(kind, n):
    """Every rule of a rig: from its family and the left side's first letter to pairs of a left and a right side."""
    found = {}
    def rule(family, left, right):
        found.setdefault((family, left[0]), []).append((bytes(left), bytes(right)))

    for i in range(1, n + 1):
        rule(1, [i, i], [])  # R2
        for j in range(i + 2, n + 1):
            if kind != "D" or (i, j) != (n - 2, n):
                rule(2, [i, j], [j, i])  # R3, R4
        last = n if kind == "A" else n - 1 if kind == "D" and i > n - 3 else 2 * n - i - 2
        for j in range(i + 1, last + 1):
            rule(3, [*block(kind, n, i, j), i], [i + 1, *block(kind, n, i, j)])  # R5, R6, R7
        if kind == "B" and i <= n - 1 or kind == "D" and i <= n - 3:
            longest = block(kind, n, i, 2 * n - i)
            rule(4, [*longest, i + 1], [i + 1, *longest])  # R8, R9
    if kind == "D":
        top = block(kind, n, n - 2, n + 2)
        rule(2, [n - 1, n], [n, n - 1])  # R4
        rule(5, [n - 2, n, n - 2], [n, n - 2, n])  # R10
        rule(6, [*top, n], [n - 1, *top])  # R11
        rule(7, [*top, n - 1], [n, *top])  # R12
    return found

def replayed(kind, n, word, families, places, lengths):
    """The word that a rewriting leaves; each of its lines has to be one rewrite by a rule (R1, R13, R14, T20)."""
    need(len(families) == len(places) == len(lengths), "families, places and lengths are not equally long")
    word, known = bytearray(word), rules(kind, n)
    for number, (family, place, length) in enumerate(zip(families, places, lengths), 1):
        first = word[place] if 0 <= place < len(word) else None
        fitting = (sides for sides in known.get((family, first), ()) if word.startswith(sides[0], place))
        left, right = next(fitting, (None, None))
        need(left, "rewrite %d: no rule of family %d fits at place %d" % (number, family, place))
        word[place:place + len(left)] = right
        need(len(word) == length, "rewrite %d: it leaves %d letters, not %d" % (number, len(word), length))
    return bytes(word)

def whole(text):
    need(len(text) < 10 and text == str(int(text)), "a number is not a whole one of at most nine digits")
    return int(text)

def once(pairs):
    need(len(dict(pairs)) == len(pairs), "a field is there twice")
    return dict(pairs)

def parsed(raw, form):
    """A line of the certificate as an object, with just the fields of a form."""
    need(raw.endswith(b"\n"), "the line is missing, cut off or too long")
    numbers = {"parse_int": whole, "parse_float": whole, "parse_constant": whole}
    try:
        line = json.loads(raw.decode(), object_pairs_hook=once, **numbers)
    except (ValueError, RecursionError):
        raise Wrong("this is not JSON with whole numbers") from None
    need(type(line) is dict and line.keys() == form.keys(), "the fields have to be " + ", ".join(form))
    for name, value in line.items():
        need(type(value) is form[name], "%s is of the wrong type" % name)
        need(type(value) is not list or {int}.issuperset(map(type, value)), "%s is no list of numbers" % name)
    return line

def check_preset(line, kind, n, word):
    """Both words have the window, no rule fits in the second (T10), and the rewriting, if it is there, leads to it."""
    agree(line, kind=kind, rank=n, word=list(word), window=window(kind, n, word))
    need(all(1 <= letter <= n for letter in line["normal_form"]), "a letter of normal_form is no step")
    form = bytes(line["normal_form"])
    need(len(form) <= len(word), "normal_form is longer than the word")
    need(line["window"] == window(kind, n, form), "normal_form has another window than the word")
    for (family, _), sides in rules(kind, n).items():
        need(not any(left in form for left, _ in sides), "a rule of family %d fits in normal_form" % family)
    if "families" in line:
        ends = replayed(kind, n, word, *(line[name] for name in LISTS))
        need(ends == form, "the rewriting does not end with normal_form")

def verify(book, edition, certificate):
    """What was checked, in words; Wrong with the number of the first line that is wrong."""
    number, refused, rewrites = 1, 0, 0
    try:
        head = parsed(certificate.readline(MAX_LINE[False]), HEAD)
        agree(head, certificate=1, book_sha256=hashlib.sha256(book).hexdigest(), bytes=len(book), edition=edition)
        presets = [read(record, edition) for record in records(book, edition)]
        agree(head, presets=len(presets))
        for place, preset in enumerate(presets):
            number += 1
            form = REFUSED if type(preset) is int else {**PRESET, **LISTS} if head["lines"] else PRESET
            line = parsed(certificate.readline(MAX_LINE["families" in form]), form)
            agree(line, preset=place)
            if form is REFUSED:
                agree(line, refused=preset)
                refused += 1
            else:
                check_preset(line, *preset)
                rewrites += len(line.get("families", ()))
        number += 1
        agree(parsed(certificate.readline(MAX_LINE[False]), END), end=True, presets=len(presets), refused=refused)
        number += 1
        need(not certificate.read(1), "something follows the closing line")
    except Wrong as wrong:
        raise Wrong("line %d: %s" % (number, wrong)) from None
    return "presets %d, refused %d, rewrites replayed %d" % (len(presets), refused, rewrites)

def main():
    arguments = argparse.ArgumentParser(description="Checks a certificate of `winnathey certify` against its book.")
    arguments.add_argument("book", metavar="BOOK")
    arguments.add_argument("certificate", metavar="CERTIFICATE")
    arguments.add_argument("--edition", required=True, choices=HEAD_BYTES, help="the edition that the book has")
    given = arguments.parse_args()
    try:
        with open(given.book, "rb") as book, open(given.certificate, "rb") as certificate:
            print("yes:", verify(book.read(MAX_BOOK + 1), given.edition, certificate))
    except Wrong as wrong:
        print("no:", wrong)
        sys.exit(1)
    except (OSError, MemoryError) as error:
        arguments.error("not enough memory" if type(error) is MemoryError else str(error))

if __name__ == "__main__":
    main()
