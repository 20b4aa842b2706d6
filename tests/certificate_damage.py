"""Damaged certificates: each has to be refused, at the line that was damaged."""
import hashlib
import json
import re

from certificate_kit import EDITIONS, accepts, at_limits, book_of, certificate_of, command, read, record, refuses, written


def mixed(edition):
    """All kinds at small ranks, a step twice among the words, and two refused records."""
    presets = [(1, 1, [1, 1, 1]), (2, 2, [1, 2, 1, 2, 1, 1]), (4, 1, []), (1, 3, [2, 1, 2, 1, 3, 3, 1]), (3, 5, [4, 4, 2, 5, 3, 5, 1, 2]),
               (3, 4, [2, 4, 3, 2, 4, 3, 3, 1, 2]), (2, 3, [4, 1]), (2, 3, [])]
    return book_of([record(edition, *preset) for preset in presets])


def changes(value, name):
    """Values that are not the one of a field."""
    yield None
    yield {}
    if type(value) is list:
        yield str(value)
        yield value + [1]
        yield value + [value]
        yield [value]
        yield dict(enumerate(value))
        for at, one in enumerate(value):
            yield value[:at] + value[at + 1:]
            yield value[:at] + [one] + value[at:]
            for other in (one + 1, one - 1, -one, one + 256, str(one), [one], None, True, False, float(one)):
                # A lower place may do as well: this has a test of its own.
                if (other != one or type(other) is not int) and not (name == "places" and type(other) is int):
                    yield value[:at] + [other] + value[at + 1:]
            for later in range(at + 1, len(value)):
                if value[later] != one and name not in ("places", "families"):
                    yield value[:at] + [value[later]] + value[at + 1:later] + [one] + value[later + 1:]
    elif type(value) is str:
        yield 1
        yield [value]
        if name not in ("version", "library_sha256"):
            for other in ("", value + " ", value.upper() if value.upper() != value else value.lower(), value[1:], "second", "first", "A", "B", "D"):
                if other != value:
                    yield other
    else:
        yield str(value)
        yield [value]
        yield float(value)
        yield not value
        yield bool(value) if type(value) is int else int(value)
        if type(value) is int:
            yield from (value + 1, value - 1, value + 256, -value - 1, value + 2**32)


def test_fields(book, edition, lines):
    """Each field of each line: missing, under another name, with another value, there twice; and one too many."""
    whole = read(certificate_of(book, edition, lines))
    raw = [written(line) for line in whole]
    for at, line in enumerate(whole):
        def refused_here(what, damaged):
            refuses(f"line {at + 1}, {what}", at + 1, book, edition, b"".join(raw[:at] + [damaged] + raw[at + 1:]))

        for name, value in line.items():
            refused_here(f"no {name}", written({other: line[other] for other in line if other != name}))
            refused_here(f"{name} under another name", written({other + "_" * (other == name): line[other] for other in line}))
            for number in ("NaN", "Infinity", "-Infinity", "1e0", "-0", "01", "9" * 5000, "0x1"):
                if type(value) in (int, list):
                    told = number if type(value) is int else "[%s]" % number
                    refused_here(f"{name} is {told[:20]}", written({**line, name: "?"}).replace(b'"?"', told.encode()))
            for other in changes(value, name):
                if (name, other) != ("lines", not value) and not (name == "lines" and other is int(value)):
                    refused_here(f"{name} is {str(other)[:60]}", written({**line, name: other}))
            # Twice, the right one before or behind another.
            field = written({name: value})[1:-2]
            for first, second in ((field, field), (field, b'"%s":0' % name.encode()), (b'"%s":0' % name.encode(), field)):
                fields = [second if other == name else written({other: line[other]})[1:-2] for other in line]
                refused_here(f"{name} twice", b"{" + first + b"," + b",".join(fields) + b"}\n")
        refused_here("a field too many", written({**line, "more": 0}))
        for other in (b"", b"\n", b"{}\n", b"[]\n", b"null\n", b"1\n", b'"x"\n', b"\xff\n", b"\0\n", b"[" * 100000 + b"\n", b'{"a":' * 100000 + b"\n",
                      b"\xef\xbb\xbf" + raw[at], raw[at].decode().encode("utf-16"), raw[at][:-2] + b"\n", raw[at][:-1] + b"}\n", raw[at][:-1] + b" x\n",
                      raw[at].replace(b'":', b"':", 1), raw[at][:-2] + b",}\n", raw[at].strip() + raw[at], b"//\n" + raw[at]):
            refused_here(f"{other[:20]} in its place", other)
        refused_here("a very long list", written({**line, next(iter(line)): [0] * 100000}))
    # The lists are there exactly if the head says so.
    head = written({**whole[0], "lines": not lines})
    first = next(at for at, line in enumerate(whole) if "word" in line)
    refuses("lines is the other", first + 1, book, edition, b"".join([head, *raw[1:]]))


def test_lines(book, edition, lines):
    """Lines that are missing, twice, swapped or too many; the certificate cut off at each byte and each bit of it turned."""
    certificate = certificate_of(book, edition, lines)
    raw = certificate.splitlines(keepends=True)
    for at in range(len(raw)):
        refuses(f"without line {at + 1}", at + 1, book, edition, b"".join(raw[:at] + raw[at + 1:]))
        refuses(f"line {at + 1} twice", at + 2, book, edition, b"".join(raw[:at + 1] + raw[at:]))
        refuses(f"an empty line before line {at + 1}", at + 1, book, edition, b"".join(raw[:at] + [b"\n"] + raw[at:]))
        for other in range(at + 1, len(raw)):
            swapped = raw[:at] + [raw[other]] + raw[at + 1:other] + [raw[at]] + raw[other + 1:]
            refuses(f"lines {at + 1} and {other + 1} swapped", at + 1, book, edition, b"".join(swapped))
    for behind in (b"\n", b" ", b"{}\n", b"\0", raw[0], certificate):
        refuses(f"{behind[:20]} behind it", len(raw) + 1, book, edition, certificate + behind)
    for length in range(len(certificate)):
        refuses(f"cut off behind {length} bytes", certificate[:length].count(b"\n") + 1, book, edition, certificate[:length])
    # Nothing can be said of the version and of the library's hash, and another place may do as well.
    free = [match.span(1) for match in re.finditer(rb'"(?:version|library_sha256|places)":("[^"]*"|\[[^]]*\])', certificate)]
    for at in range(len(certificate)):
        if not any(start <= at < end for start, end in free):
            for bit in range(8):
                damaged = bytearray(certificate)
                damaged[at] ^= 1 << bit
                number = certificate[:at].count(b"\n") + 1
                # A line that is turned into white space and what it was is no damage.
                if bytes(damaged).split() != certificate.split():
                    refuses(f"bit {bit} of byte {at} turned", number, book, edition, bytes(damaged))


def rewritten(rig, word, families, places, lengths):
    """Whether the library's single rewrite replays the lists; with the word that is left."""
    for family, place, length in zip(families, places, lengths):
        run = command("why", rig, " ".join(map(str, word)), "--at", str(place), "--json")
        used = json.loads(run.stdout).get("rewrite") if run.returncode == 0 else None
        if not used or used["family"] != family or len(used["word"]) != length:
            return None
        word = used["word"]
    return word


def test_rewritings(book, edition):
    """Lines of a rewriting left out, twice, swapped or at another place: as the library's single rewrite has it."""
    whole = read(certificate_of(book, edition, lines=True))
    raw = [written(line) for line in whole]
    for at, line in enumerate(whole):
        if "families" not in line:
            continue
        lists = [line[name] for name in ("families", "places", "lengths")]
        steps = range(len(lists[0]))
        others = [[one[:step] + one[step + 1:] for one in lists] for step in steps]
        others += [[one[:step + 1] + one[step:] for one in lists] for step in steps]
        others += [[one[:step] + one[step:step + 2][::-1] + one[step + 2:] for one in lists] for step in steps]
        for step in steps:
            for place in {0, lists[1][step] - 1, lists[1][step] + 1, lists[2][step], 4095, 65536, -1, -lists[2][step]} - {lists[1][step]}:
                others.append([lists[0], lists[1][:step] + [place] + lists[1][step + 1:], lists[2]])
        others.append([one + [value] for one, value in zip(lists, (1, 0, 0))])
        for other in others:
            damaged = written({**line, **dict(zip(("families", "places", "lengths"), other))})
            certificate = b"".join(raw[:at] + [damaged] + raw[at + 1:])
            is_right = min(other[1], default=0) >= 0 and rewritten(f"{line['kind']}{line['rank']}", line["word"], *other) == line["normal_form"]
            (accepts if is_right else lambda what, *rest: refuses(what, at + 1, *rest))(f"line {at + 1}, rewriting {other}", book, edition, certificate)


def test_normal_forms(edition, lines):
    """Words in a normal form's place: every other shortest word, the stored word, one with a step twice, and others."""
    book = at_limits(edition, 40)
    whole = read(certificate_of(book, edition, lines))
    raw = [written(line) for line in whole]
    for at, line in enumerate(whole):
        if "word" not in line:
            continue
        form, word, rank = line["normal_form"], line["word"], line["rank"]
        shortest = command("shortest", f"{line['kind']}{rank}", " ".join(map(str, word)), "--limit", "12", "--json")
        others = [other for other in json.loads(shortest.stdout)["words"]] + [word]
        others += [form[:place] + [step, step] + form[place:] for place in range(0, len(form) + 1, 7) for step in (1, rank)]
        others += [form + [1], form[1:], form[:-1], form[::-1], [], form + form + form, [rank + 1], [0], [256], [-1], form + [0], form + [rank + 1]]
        for other in others:
            if other != form:
                damaged = b"".join(raw[:at] + [written({**line, "normal_form": other})] + raw[at + 1:])
                refuses(f"line {at + 1}, normal form {str(other)[:60]}", at + 1, book, edition, damaged)


def test_books(edition):
    """A certificate with another book: one that differs in a byte, with and without its hash put right."""
    book = mixed(edition)
    certificate = certificate_of(book, edition, lines=False)
    whole, other_edition = read(certificate), EDITIONS[edition == "first"]
    for at in range(len(book)):
        for byte in (book[at] ^ 1, book[at] ^ 128, 0, 255):
            changed = book[:at] + bytes([byte]) + book[at + 1:]
            if changed == book:
                continue
            refuses(f"byte {at} of the book is {byte}", 1, changed, edition, certificate)
            forged = [{**whole[0], "book_sha256": hashlib.sha256(changed).hexdigest()}, *whole[1:]]
            right = certificate_of(changed, edition, lines=False)
            wrong = [1]
            if right is not None:
                wrong = [number for number, (one, other) in enumerate(zip(forged, read(right)), 1) if one != other]
            what = f"byte {at} of the book is {byte}, with its hash"
            # A refused record is refused for the same reason, whatever its other bytes are.
            if wrong:
                refuses(what, wrong[0], changed, edition, b"".join(map(written, forged)))
            else:
                accepts(what, changed, edition, b"".join(map(written, forged)))
    for other, read_as in ((book + b"\0", edition), (book[1:], edition), (b"", edition), (mixed(other_edition), edition), (book, other_edition)):
        refuses("another book, or read as another edition", 1, other, read_as, certificate)
    # The head says the other edition, and so does the reader: these bytes are no book of that.
    refuses("editions swapped", 1, book, other_edition, b"".join(map(written, [{**whole[0], "edition": other_edition}, *whole[1:]])))
    # The same presets in another order.
    turned = book_of([record(edition, 3, 4, [1, 1]), record(edition, 1, 3, [2])])
    there = read(certificate_of(book_of([record(edition, 1, 3, [2]), record(edition, 3, 4, [1, 1])]), edition, lines=False))
    forged = [{**there[0], "book_sha256": hashlib.sha256(turned).hexdigest()}, {**there[2], "preset": 0}, {**there[1], "preset": 1}, there[3]]
    accepts("presets put right", turned, edition, b"".join(map(written, forged)))
    forged[1:3] = there[1:3]
    refuses("presets in another order", 2, turned, edition, b"".join(map(written, forged)))
    # A refused record as if it were none, and the other way round.
    at = next(at for at, line in enumerate(whole) if line.get("refused") == 8)
    as_read = {"preset": at - 1, "kind": "B", "rank": 3, "word": [4, 1], "window": [2, 1, 3], "normal_form": [1]}
    refuses("a refused record is read", at + 1, book, edition, b"".join(map(written, whole[:at] + [as_read] + whole[at + 1:])))
    for number in (4, 5, 6, 7, 8, 17, 21):
        if number != 8:
            damaged = whole[:at] + [{**whole[at], "refused": number}] + whole[at + 1:]
            refuses(f"refused {number}", at + 1, book, edition, b"".join(map(written, damaged)))
        damaged = whole[:2] + [{"preset": 1, "refused": number}] + whole[3:]
        refuses("a good record is refused", 3, book, edition, b"".join(map(written, damaged)))
    # What the verifier does not look at, and other ways to write the same.
    turned = [dict(reversed(list(line.items()))) for line in whole]
    accepts("fields in another order, with spaces", book, edition, b"".join(json.dumps(line).encode() + b" \r\n" for line in turned))
    accepts("another library", book, edition, b"".join(map(written, [{**whole[0], "version": "x", "library_sha256": ""}, *whole[1:]])))


def test_damaged():
    for edition in EDITIONS:
        for lines in (False, True):
            test_fields(mixed(edition), edition, lines)
            test_normal_forms(edition, lines)
        test_lines(mixed(edition), edition, lines=edition == "second")
        test_books(edition)
    test_rewritings(mixed("second"), "second")
