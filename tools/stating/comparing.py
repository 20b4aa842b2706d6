"""Compares contracts, laws, definitions and clauses with a baseline, a list of those of an earlier version, and what differs with the changelog."""
import hashlib
import re
from dataclasses import dataclass

from defining import Definitions
from pages import shown
from statements import WRONG_ROUTERS, is_law

BASELINE, CHANGELOG, VERSION = "docs/baseline.txt", "CHANGELOG.md", "VERSION"
IN_WORK, STATEMENTS = "In work", "Statements"
HEAD = """# The contracts, laws, definitions and clauses of version {}, with the SHA-256 of each as the pages show it. `tools/baseline --write` takes it with a
# version; in each run the gate compares the sources with it, and what differs with the section 'Statements' of CHANGELOG.md.
"""
LINE = re.compile(r"(clause|contract|law|field|definition|type|table) (.+) ([0-9a-f]{64})")
ITEM = re.compile(r"- (added|changed|removed) (\w+) ((?:`[^`]+`(?:, )?)+): (.*\w.*)")


@dataclass
class Difference:
    how: str  # added, changed or removed
    kind: str
    name: str

    def __str__(self):
        return f"{self.how} {self.kind} `{self.name}`"


def texts_of(model):
    """By kind and name what the pages show of each contract, cited law or field, definition, type and clause, and of the table of wrong routers. To a definition
    belongs what pins it or why it has to be read, to a clause what settles it."""
    definitions, found = Definitions(model), {}
    for (kind, where, name), one in model.statements.items():
        found[kind, f"{where}: {name}"] = "\n".join([*one.before, one.text])
    for key in model.definitions:
        pin = model.pins[key]
        settled = sorted("{} {}: {}".format(*law) for law in pin.laws)
        found["definition", "{}/specs/{}: {}".format(*key)] = "\n".join([definitions.text(key), pin.sort, pin.why, *settled])
    for crate in model.world.crates:
        for made in definitions.types(crate):
            found["type", f"{crate}: {made.name}"] = f"{made.comment}\n{made.text}"
    for clause in model.clauses:
        mark, cited = model.marks[clause.name], model.cited.get(clause.name, [])
        settled = sorted(f"{one.kind} {one.where}: {name}" for one in cited for name in one.names)
        found["clause", clause.name] = "\n".join([clause.text, *clause.block, mark.sort, mark.why, *settled])
    wrong = [one for path in WRONG_ROUTERS for one in model.world.antt(path).declarations if not one.owner]
    found["table", "wrong routers"] = "\n".join(one.text if one.public and is_law(one) else one.body for one in wrong)
    return found


def hashes_of(model):
    return {key: hashlib.sha256(shown(text).encode()).hexdigest() for key, text in texts_of(model).items()}


def written(version, hashes):
    """The text of a baseline."""
    return HEAD.format(version) + f"version {version}\n" + "".join(f"{kind} {name} {sha}\n" for (kind, name), sha in sorted(hashes.items()))


def read(text):
    """The version of a baseline, its lines and what is wrong with its form."""
    version, found, wrong = "", {}, []
    for number, line in enumerate(text.split("\n"), 1):
        head, one = re.fullmatch(r"version (\S+)", line), LINE.fullmatch(line)
        if head:
            version = head.group(1)
        elif one and one.groups()[:2] not in found:
            found[one.groups()[:2]] = one.group(3)
        elif line and not line.startswith("#"):
            wrong.append(f"{BASELINE}:{number}: cannot read {line}")
    return version, found, wrong if version else [*wrong, f"{BASELINE} names no version"]


def differences(then, now):
    """What differs, in the order of kinds and names."""
    for key in sorted({*then, *now}):
        if then.get(key) != now.get(key):
            yield Difference("added" if key not in then else "removed" if key not in now else "changed", *key)


def told(changelog, version):
    """What the section of a version tells of statements, with the line and what is wrong with its form."""
    found, wrong, inside = {}, [], ["", ""]
    for number, line in enumerate(changelog.split("\n"), 1):
        heading = re.fullmatch(r"(###?) (.+)", line)
        if heading:
            inside = [heading.group(2), ""] if heading.group(1) == "##" else [inside[0], heading.group(2)]
        elif inside == [version, STATEMENTS] and line.strip():
            item = ITEM.fullmatch(line)
            if item is None:
                wrong.append(f"{CHANGELOG}:{number}: cannot read {line}")
                continue
            for name in re.findall(r"`([^`]+)`", item.group(3)):
                if (item.group(2), name) in found:
                    wrong.append(f"{CHANGELOG}:{number}: {item.group(2)} `{name}` stands twice")
                found[item.group(2), name] = (item.group(1), number)
    return found, wrong


def compared(world, now):
    """What differs from the baseline, where that is told, and what is wrong with it."""
    since, then, wrong = read(world.read(BASELINE))
    changelog, version = world.read(CHANGELOG), world.read(VERSION).strip()
    found = list(differences(then, now))
    work = IN_WORK if f"\n## {IN_WORK}\n" in changelog else version
    if work == since:
        return since, found, [*wrong, *(f"{one}: {BASELINE} is that of this version" for one in found)]
    lines, form = told(changelog, work)
    where = f"{CHANGELOG}, '{work}', {STATEMENTS}"
    for one in found:
        how, _ = lines.pop((one.kind, one.name), ("", 0))
        if how != one.how:
            wrong.append(f"{one}: no line in {where}" if not how else f"{one}: {where} says {how}")
    kinds = sorted({kind for kind, _ in now})
    for (kind, name), (how, number) in lines.items():
        wrong.append(f"{CHANGELOG}:{number}: {kind} `{name}` is not {how} since {since}" if kind in kinds
                     else f"{CHANGELOG}:{number}: {kind} is no kind of statement; the kinds are {', '.join(kinds)}")
    return since, found, form + wrong
