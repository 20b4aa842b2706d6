"""Reads files of Rattle: the functions with their contracts, the enums and structs, and the imports of the contracts. A function of an `impl` has the name of its
type before its own, as `Kind::number`; what the `impl` of a trait says of it by ghost members belongs to its contract."""
import re
from dataclasses import dataclass, field

from antt import File as AnttFile
from antt import tokens
from forms import blank

# an item may stand behind an attribute or another item on its line
ITEM = re.compile(r"(?m)(?:^|(?<=[\]};]))[ \t]*((?:pub(?:\([a-z]+\))?\s+)?)((?:(?:const|unsafe|extern \"C\")\s+)*)(fn|enum|struct)\s+(\w+)")


@dataclass
class Function:
    name: str
    public: bool
    path: str
    line: int
    text: str  # the signature and the contract, without the body
    parameters: list
    clauses: list  # (requires or ensures, its tokens)
    comment: str


@dataclass
class Type:
    name: str
    kind: str
    public: bool
    path: str
    line: int
    text: str
    comment: str
    members: list = field(default_factory=list)  # variants, or fields
    fields: list = field(default_factory=list)  # every field's name
    ghosts: list = field(default_factory=list)  # the tokens of each fact that its ghost fields state


def closing(code, at):
    """The place behind the bracket that closes the one at this place."""
    depth = 0
    for n in range(at, len(code)):
        depth += (code[n] in "({[") - (code[n] in ")}]")
        if depth == 0:
            return n + 1
    return len(code)


def behind_types(code, at):
    """The place behind the type parameters that begin at this place, if any do."""
    if not re.compile(r"\s*<").match(code, at):
        return at
    depth = 0
    for sign in re.compile(r"->|[<>]").finditer(code, at):
        depth += (sign.group() == "<") - (sign.group() == ">")
        if depth == 0:
            return sign.end()
    return at


# the head of an impl: the trait, if it is of one, and the type
IMPL = re.compile(r"(?m)^impl(?:<[^{};]*?>)? (?:([\w:]+(?:<[^{};]*>)?) for )?(\w+)(?:<[^{};]*>)? \{$")
GHOST_MEMBER, GHOST_FIELD = re.compile(r"(?m)^ +ghost (\w+) = (?=\{)"), re.compile(r"(?m)^ +(?:pub(?:\([a-z]+\))? )?ghost (\w+): (?=\{)")


@dataclass
class Impl:
    start: int
    end: int
    trait: str
    type: str
    head: str  # the first line and the ghost members, as they stand
    clauses: list  # the tokens of each ghost member


class File:
    def __init__(self, path, source):
        self.path, self.source = path, source
        self.code = blank(source)
        self.functions, self.types = [], []
        ghosts = "\n".join(" ".join(g.split()) for g in re.findall(r"(?ms)^\s*(?:pub )?ghost (use .*?);", self.code))
        self.ghosts = AnttFile(path, ghosts).uses
        self.imports = {}
        for path, names in re.findall(r"(?m)^\s*(?:pub )?use ([\w:]+?)(?:::\{([\w:,\s]*)\})?;", self.code):
            whole = [f"{path}::{name}" for name in re.findall(r"[\w:]+", names)] if names else [path]
            self.imports.update((one.split("::")[-1], one) for one in whole)
        self.impls = [self._impl(found) for found in IMPL.finditer(self.code)]
        for item in ITEM.finditer(self.code):
            # what C can call is public, whether it says so or not
            public = item.group(1).strip() == "pub" or "extern" in item.group(2)
            kind, name = item.group(3), item.group(4)
            start = item.start() + len(item.group()) - len(item.group().lstrip())
            line = source.count("\n", 0, start) + 1
            if kind == "fn":
                within = next((one for one in self.impls if one.start < start < one.end), None)
                self._function(start, item.end(), name, public, line, within)
            else:
                self._type(start, item.end(), name, kind, line, public)

    def _comment_above(self, line):
        said = []
        for text in reversed(self.source.split("\n")[: line - 1]):
            if text.strip().startswith("#["):
                continue
            if not text.strip().startswith("//"):
                break
            said.append(text.strip()[2:].strip())
        return "\n".join(reversed(said))

    def _braced(self, brace):
        """The tokens within a brace of a clause."""
        return tokens(self.source, brace + 1, closing(self.code, brace) - 1, self.source.count("\n", 0, brace) + 1)

    def _impl(self, found):
        end = closing(self.code, found.end() - 1)
        ghosts = list(GHOST_MEMBER.finditer(self.code, found.end(), end))
        lines = [found.group(), *(self.source[ghost.start():closing(self.code, ghost.end())] + ";" for ghost in ghosts)]
        return Impl(found.start(), end, found.group(1) or "", found.group(2), "\n".join(lines), [self._braced(ghost.end()) for ghost in ghosts])

    def _function(self, start, at, name, public, line, within):
        opening = self.code.index("(", behind_types(self.code, at))
        behind = closing(self.code, opening)
        parameters = re.findall(r"(?:^|,)\s*(?:mut )?(\w+)\s*:", self.code[opening + 1: behind - 1])
        parameters += re.findall(r"^\s*(?:&(?:'\w+ )?)?(?:mut )?(self)\b", self.code[opening + 1: behind - 1])
        # an array that is the result has a semicolon of its own
        array = re.compile(r"\s*->\s*(?=\[)").match(self.code, behind)
        clauses, place, end = [], closing(self.code, array.end()) if array else behind, behind
        while True:
            # a clause may have a name
            brace = re.compile(r"\b(requires|ensures)\b\*?\s*(?:\w+\s*)?\{|[{;]").search(self.code, place)
            if brace is None:
                break
            end = brace.start()
            if brace.group(1) is None:
                break
            inside = brace.end() - 1
            place = closing(self.code, inside)
            number = self.source.count("\n", 0, inside) + 1
            clauses.append((brace.group(1), tokens(self.source, inside + 1, place - 1, number)))
        text = self.source[start:end].rstrip()
        comment = self._comment_above(line)
        if within:
            # whoever has the type can call what the impl of a trait has
            name, public = f"{within.type}::{name}", public or bool(within.trait)
            text = f"{within.head}\n    {text}" if within.trait else "\n".join(one.removeprefix("    ") for one in text.split("\n"))
            clauses += [("ensures", clause) for clause in within.clauses]
            comment = comment or self._comment_above(self.source.count("\n", 0, within.start) + 1)
        self.functions.append(Function(name, public, self.path, line, text, parameters, clauses, comment))

    def _type(self, start, at, name, kind, line, public):
        brace = re.compile(r"[{;(]").search(self.code, at)
        end = closing(self.code, brace.start()) if brace and brace.group() != ";" else at
        inside = re.sub(r"pub(\(\w+\))? |(?<!\w)ghost ", "", self.code[brace.start() + 1: end - 1]) if brace else ""
        made = Type(name, kind, public, self.path, line, self.source[start:end], self._comment_above(line))
        made.ghosts = [self._braced(ghost.end()) for ghost in GHOST_FIELD.finditer(self.code, start, end)]
        made.fields = re.findall(r"(\w+)\s*:", inside)
        flat, depth = "", 0
        for sign in inside:
            depth -= sign in ")}]"
            flat += sign if depth == 0 else ""
            depth += sign in "({["
        made.members = re.findall(r"(?:^|,)\s*(\w+)", flat)
        self.types.append(made)
