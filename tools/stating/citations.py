"""Reads docs/SPECIFICATION.md, the clauses, and docs/statements.txt, which says what settles each of them."""
import re
from dataclasses import dataclass, field

SPECIFICATION, CITATIONS = "docs/SPECIFICATION.md", "docs/statements.txt"
# a clause with these words has a part of its own further down: the next table or code block of its section
NAMES_BLOCK = re.compile(r"\b(?:table|listing) below\b")
# a clause that a sentence names is the second part; what stands between backticks is none
NAMED = re.compile(r"(`[^`]*`)|\b([A-Z]{1,2}[0-9]+)\b")
# the clauses that need no law: of these alone the sentences among the following settle any
WITHOUT = re.compile(r"without a law, ([0-9]+): (.+)")
# what settles a clause; vectors, edits and notes only stand beside it, and an excuse says why no law does
SETTLES = ("law", "contract", "definition", "field", "type", "row", "code", "tests", "gate", "file", "checker", "outside")


@dataclass
class Clause:
    name: str
    text: str
    section: "Section"
    line: int
    block: list = field(default_factory=list)  # the lines of the table or the code block that it names


@dataclass
class Section:
    name: str
    title: str
    clauses: list = field(default_factory=list)


@dataclass
class Citation:
    kind: str
    where: str  # a path without its ending, a crate, or nothing
    names: list  # of a test, a note and the like: the sentence
    line: int


def plain(text):
    """The text without its links."""
    return re.sub(r"\[([^\]]*)\]\([^)]*\)", r"\1", text)


def sections_of(source):
    """The sections of the specification that have clauses; a clause begins with its identifier in bold."""
    sections, clause = [], None
    for number, text in enumerate(source.split("\n"), 1):
        heading = re.match(r"## ([A-Z]+) (.+)", text)
        begin = re.match(r"(?:[-*] )?\*\*([A-Z]+[0-9]+[a-z]?)\*\*[.:]? *(.*)", re.sub(r"<a [^>]*></a>", "", text))
        if text.startswith("#"):
            clause = None
            if text.startswith("## "):
                sections.append(Section(*heading.groups()) if heading else Section("", text[3:]))
        elif begin and sections:
            clause = Clause(begin.group(1), plain(begin.group(2)), sections[-1], number)
            sections[-1].clauses.append(clause)
        elif clause and text.startswith("  ") and text.strip():
            clause.text += " " + plain(text.strip())
        else:
            clause = None
    for section in sections:
        for one in section.clauses:
            if NAMES_BLOCK.search(one.text):
                one.block = block_behind(source.split("\n"), one.line)
    return [section for section in sections if section.clauses]


def block_behind(lines, at):
    """The first table or code block behind a line, without its links; nothing if the section has none there."""
    found, fenced = [], False
    for text in lines[at:]:
        fence = text.startswith("```")
        if fenced or fence or text.startswith("|"):
            found.append(text if fenced or fence else re.sub("-{3,}", "---", re.sub(" +", " ", plain(text))))
            if fenced and fence:
                break
            fenced = fenced or fence
        elif found or text.startswith("## "):
            break
    return found


FORMS = (
    ("definition", r"(\w+/specs/[\w/]+): (.+)"),
    ("law", r"(\w+/proofs/[\w/]+): (.+)"),
    ("vectors", r"vectors (\w+/proofs/[\w/]+): (.+)"),
    ("row", r"rows()?: (.+)"),
    ("edit", r"edits (\w+): (.+)"),
    ("code", r"code (\w+/src/[\w/]+): (.+)"),
    ("type", r"types (\w+): (.+)"),
)
EXCUSES = ("primitive", "program")
PLAIN, OF_FILES = ("note", "checker", "outside") + EXCUSES, ("tests", "gate", "file")
SENTENCES = PLAIN + OF_FILES


def citations_of(source):
    """Clause by clause the citations of statements.txt, and what is wrong with its form."""
    found, wrong, clause = {}, [], None
    for number, text in enumerate(source.split("\n"), 1):
        if not text.strip() or text.startswith("#") or WITHOUT.fullmatch(text) and clause is None:
            continue
        if not text.startswith(" "):
            clause = text.strip()
            if clause in found:
                wrong.append(f"{CITATIONS}:{number}: {clause} stands twice")
            found.setdefault(clause, [])
            continue
        if clause is None:
            wrong.append(f"{CITATIONS}:{number}: a citation before any clause")
            continue
        citation = cited(text.strip(), number)
        if citation is None:
            wrong.append(f"{CITATIONS}:{number}: cannot read {text.strip()}")
        else:
            found[clause].append(citation)
    return found, wrong


def without_a_law(source):
    """The clauses that need no law, and what is wrong with their list."""
    lists = [(number, *WITHOUT.fullmatch(text).groups()) for number, text in enumerate(source.split("\n"), 1) if WITHOUT.fullmatch(text)]
    if len(lists) != 1:
        return [], [f"{CITATIONS} has {len(lists) or 'no'} lists of the clauses without a law"]
    number, count, names = lists[0]
    names = names.split(" ")
    wrong = [f"{CITATIONS}:{number}: {name} stands twice in the list of clauses without a law" for name in sorted(set(names)) if names.count(name) > 1]
    return names, wrong + ([f"{CITATIONS}:{number}: {len(names)} clauses without a law, and the list says {count}"] if len(names) != int(count) else [])


def cited(text, number):
    for kind in PLAIN:
        if text.startswith(f"{kind}: "):
            return Citation(kind, "", [text[len(kind) + 2:]], number)
    path = re.fullmatch(rf"({'|'.join(OF_FILES)}) ([\w./-]+): (.+)", text)
    if path:
        return Citation(path.group(1), path.group(2), [path.group(3)], number)
    for kind, form in FORMS:
        match = re.fullmatch(form, text)
        if match:
            return Citation(kind, match.group(1) or "", [name.strip() for name in match.group(2).split(",")], number)
    contract = re.fullmatch(r"(\w+): ([\w:, ]+)", text)
    if contract:
        return Citation("contract", contract.group(1), [name.strip() for name in contract.group(2).split(",")], number)
    return None
