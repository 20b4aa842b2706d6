"""Faults that a baseline shows: statements that differ from those of the version before, and a changelog that tells of others. The copy has the baseline of
its own sources, so that without a fault nothing differs, and a version in work."""
import re

CHANGES, THEOREMS, CITED, PINS = "CHANGELOG.md", "crates/coxeter/proofs/Theorems.antt", "docs/statements.txt", "docs/definitions.txt"
LAW = "coxeter/proofs/Theorems: window_passes"
WEAKER = (THEOREMS, "~pub window_passes : ", "pub window_passes : ⊥ → ")
LISTING, PROGRAMS = "crates/programs/src/listing.rt", "crates/programs/src/lib.rt"


def in_work(changelog):
    """The changelog with a version in work, which tells of no statement yet."""
    if "\n## In work\n" not in changelog:
        return changelog.replace("\n## ", "\n## In work\n\n- Nothing yet.\n\n## ", 1)
    return re.sub(r"(?s)(\n## In work\n(?:(?!\n## ).)*?\n### Statements\n).*?(?=\n## |\Z)", r"\1", changelog, count=1)


def said(*lines):
    """The section of the version in work with these lines."""
    return CHANGES, "~(?s)\\n## In work\\n(.*?)(?=\\n## |\\Z)", "\n## In work\n\n### Statements\n\n" + "".join(f"- {line}\n" for line in lines)


FAULTS = (
    ("a changed law without a line", *WEAKER, rf"since \S+: changed law `{LAW}`(?s:.*)changed law `{LAW}`: no line in CHANGELOG\.md, 'In work', Statements"),
    ("a changed law whose line says that it is added", WEAKER, said(f"added law `{LAW}`: it is new."), rf"changed law `{LAW}`: .* says added"),
    ("a changed law whose line gives no reason", WEAKER, said(f"changed law `{LAW}`: "), r"cannot read - changed law"),
    ("a changed law with a line among those of an older version", WEAKER,
     (CHANGES, "~\\n## [0-9.]+\\n", f"\\g<0>\n### Statements\n\n- changed law `{LAW}`: it was.\n"), rf"changed law `{LAW}`: no line in"),
    ("a line for an unchanged law", *said(f"changed law `{LAW}`: it says more."), rf"law `{LAW}` is not changed since"),
    ("a line for a law that is not there", *said("removed law `coxeter/proofs/Theorems: window-fails`: it said nothing."), r"window-fails` is not removed since"),
    ("two lines for one law", WEAKER, said(f"changed law `{LAW}`: it says less.", f"changed law `{LAW}`: it says more."), rf"law `{LAW}` stands twice"),
    ("a removed definition", "docs/baseline.txt", r"~(definition book_format/specs/Books: )append_refusal (\w+)\n", r"\g<0>\1append_size \2\n",
     r"removed definition `book_format/specs/Books: append_size`: no line in"),
    ("a changed definition", "crates/coxeter/specs/Kinds.antt", "greatest B = 64", "greatest B = 63", r"changed definition `coxeter/specs/Kinds: greatest`: no line in"),
    ("a pinned definition that has to be read now", PINS, "  coxeter/proofs/Orders: before_exactly\n", "  primitive: Nothing simpler can be said.\n",
     r"changed definition `coxeter/specs/Dictionary: before`: no line in"),
    ("a definition that fewer laws pin", PINS, "~(coxeter/specs/Kinds: least, greatest\n  coxeter/proofs/Sentences: ranks_of_A), ranks_of_B", r"\1",
     r"changed definition `coxeter/specs/Kinds: least`: no line in"),
    ("an added law", CITED, "coxeter/proofs/Inverses: window-reverse", "coxeter/proofs/Inverses: window-reverse, length-inverse",
     r"added law `coxeter/proofs/Inverses: length-inverse`: no line in"),
    ("a renamed contract", (LISTING, "list_from", "list_file"), (PROGRAMS, "list_from", "list_file"), (CITED, "list_from", "list_file"),
     r"(?s)added contract `programs: list_file`: no line in.*removed contract `programs: list_from`: no line in"),
    ("a clause that another law settles", CITED, "~(\\nO2\\n(?:  .*\\n)*  coxeter/proofs/Order: )before_continuation", r"\1before_higher",
     r"changed clause `O2`: no line in"),
    ("a clause that says more", "docs/SPECIFICATION.md", "~(\\*\\*O2\\*\\*<a [^>]*></a>) ", r"\1 Always and everywhere: ", r"changed clause `O2`: no line in"),
    ("a type with one more case", "crates/book_format/src/lib.rt", "    Second,\n}", "    Second,\n    Third,\n}", r"changed type `book_format: Edition`: no line in"),
    ("a wrong router that is another", "crates/examples/proofs/WrongChecks.antt", r"~(\nlanes_as_the_rank k n) = n", r"\1 = n + 1",
     r"changed table `wrong routers`: no line in"),
    ("a baseline with a line that cannot be read", "docs/baseline.txt", "~\\nlaw ", "\nlow ", r"baseline\.txt:\d+: cannot read low"),
    ("a change without a new version", WEAKER, (CHANGES, "\n## In work\n", "\n## In works\n"), rf"changed law `{LAW}`: docs/baseline\.txt is that of this version"),
)
# what has to pass: the name, the changes, what is said
PASSES = (
    ("nothing changed", r"^baseline: 0 differ from \S+, 0 wrong$"),
    ("a changed law with its line", WEAKER, said(f"changed law `{LAW}`: to be seen here."), r"baseline: 1 differ from \S+, 0 wrong"),
    ("no baseline", ("docs/baseline.txt", "~(?s).*", None), r"^baseline: there is no docs/baseline\.txt yet, nothing to compare with$"),
)
