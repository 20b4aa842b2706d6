"""Holds the names of calls in docs/SPECIFICATION.md to the code: each call with its parameters, and the table of the calls for C."""
import re

from citations import SPECIFICATION, plain

PREFIX = "winnathey_"


def public(world):
    return [one for crate in world.crates for file in world.rattle(crate) for one in file.functions if one.public]


def wrong_calls(world, clauses):
    """Calls that a clause names otherwise than the code has them."""
    functions = public(world)
    for clause in clauses:
        for name, parameters in re.findall(r"`(\w+)\(([\w, ]*)\)`", clause.text):
            found = [", ".join(one.parameters) for one in functions if one.name == name]
            if parameters not in found:
                has = f"it takes {' or '.join(found)}" if found else "there is no such public function"
                yield f"{SPECIFICATION}:{clause.line}: {clause.name} names {name}({parameters}): {has}"


def wrong_table(world, clauses, source):
    """Calls for C that the table names and the code lacks, or the other way round."""
    named, there = set(), {one.name for one in public(world) if one.name.startswith(PREFIX)}
    order = [clause.name for clause in clauses]
    calls = {clause.name: re.findall(r"`(\w+)\([\w, ]*\)`", clause.text) for clause in clauses}
    inside = False
    for text in source.split("\n"):
        cells = [plain(cell).strip() for cell in text.strip("|").split("|")] if text.startswith("|") else []
        if len(cells) < 2:
            inside = False
        elif PREFIX in cells[1]:
            inside = True
        elif inside and "same name" in cells[1]:
            ends = [name for name in re.findall(r"[A-Z]+[0-9]+", cells[0]) if name in order]
            listed = order[order.index(ends[0]): order.index(ends[-1]) + 1] if " to " in cells[0] and ends else ends
            named |= {PREFIX + name for clause in listed for name in calls[clause]}
        elif inside and not set(cells[1]) <= set("-: "):
            named |= {PREFIX + name for name in re.findall(r"\w+", cells[1])}
    for name in sorted(named - there):
        yield f"{SPECIFICATION}: the table of the calls for C names {name}, which is no public function"
    for name in sorted(there - named):
        yield f"{SPECIFICATION}: the table of the calls for C lacks {name}"
