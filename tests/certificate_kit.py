"""What the tests of certificates share: books, their certificates, and whether verify_certificate.py takes them."""
import importlib.util
import io
import json
import os
import re
import subprocess
import sys

ROOT = os.path.join(os.path.dirname(os.path.abspath(__file__)), "..")
COMMAND = os.path.abspath(sys.argv[1] if sys.argv[1:] else os.path.join(ROOT, "build/release/winnathey"))
VERIFIER = os.path.join(ROOT, "command/share/verify_certificate.py")
EDITIONS = ("first", "second")

specification = importlib.util.spec_from_file_location("verify_certificate", VERIFIER)
verifier = importlib.util.module_from_spec(specification)
specification.loader.exec_module(verifier)


def fail(message):
    sys.exit(f"certificates: {message}")


def record(edition, kind, rank, word, lanes=None):
    lanes = rank + (kind == 1) if lanes is None else lanes
    return bytes([kind, rank] + [lanes] * (edition == "second")) + len(word).to_bytes(2, "little") + bytes(word)


def book_of(records):
    offsets = [sum(map(len, records[:number])) for number in range(len(records))]
    return b"".join(records) + b"".join(number.to_bytes(2, "little") for number in [*offsets, len(records)])


def random_word(seed, rank, length):
    """The same on every machine."""
    word = []
    for _ in range(length):
        seed = (seed * 6364136223846793005 + 1442695040888963407) % 2**64
        word.append(1 + (seed >> 33) % rank)
    return word


def command(*arguments, book=b""):
    return subprocess.run([COMMAND, *arguments], input=book, stdout=subprocess.PIPE, stderr=subprocess.PIPE)


def certificate_of(book, edition, lines):
    """The certificate as bytes, or none if the command refuses the book."""
    run = command("certify", "-", "--edition", edition, *["--lines"] * lines, book=book)
    if run.returncode == 0:
        return run.stdout
    if run.returncode != 1 or run.stdout:
        fail(f"certify ends with {run.returncode}: {run.stderr.decode()}")
    return None


def problem(book, edition, certificate):
    """None for a yes, else what the verifier says."""
    try:
        verifier.verify(book, edition, io.BytesIO(certificate))
    except verifier.Wrong as wrong:
        return str(wrong)
    return None


def verdict(book, edition, certificate):
    """None for a yes, else the number of the line that is named."""
    said = problem(book, edition, certificate)
    return said and int(re.match(r"line (\d+): ", said)[1])


def written(line):
    return json.dumps(line, separators=(",", ":")).encode() + b"\n"


def read(certificate):
    return [json.loads(line) for line in certificate.splitlines()]


counts = {"accepted": 0, "refused": 0}


def refuses(what, number, book, edition, certificate):
    found = verdict(book, edition, certificate)
    if found != number:
        fail(f"{what}: line {number} is wrong, and the verifier {'says yes' if found is None else f'names line {found}'}")
    counts["refused"] += 1


def accepts(what, book, edition, certificate):
    found = verdict(book, edition, certificate)
    if found is not None:
        fail(f"{what}: the verifier names line {found}")
    counts["accepted"] += 1


LIMITS = {"first": [(1, 1), (1, 31), (2, 2), (2, 32), (3, 4), (3, 32)],
          "second": [(1, 1), (1, 2), (1, 63), (2, 2), (2, 3), (2, 64), (3, 4), (3, 5), (3, 64)]}


def at_limits(edition, length):
    words = ((kind, rank, random_word(kind * 100 + rank, rank, length)) for kind, rank in LIMITS[edition])
    return book_of([record(edition, *preset) for preset in words])
