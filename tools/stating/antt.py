"""Reads files of antt: tokens, and the declarations of a file with their text, their line and the sections around them.

A name is any run of characters other than spaces and ( ) { } . ; , @ " « »; what stands between « and » is one name. Layout is by indentation: a
declaration goes on over the lines that stand further in than its first."""
import re
from dataclasses import dataclass, field

TOKEN = re.compile(r"""--[^\n]*|\{-.*?-\}|"(?:[^"\\]|\\.)*"|«[^»]*»|[(){}.;,@]|[^\s(){}.;,@"«»]+""", re.S)
MARKS = ("pub", "abbrev", "unfoldable", "irreducible")


@dataclass(frozen=True)
class Token:
    text: str
    start: int
    line: int
    spaced: bool  # a space or the line's start stands before it
    name: str  # the text without the signs of an escaped name


def tokens(source, start=0, end=None, line=1):
    """The tokens of a part of the source, without comments. `line` is the number of the part's first line."""
    found, at, place = [], start, line
    for match in TOKEN.finditer(source, start, len(source) if end is None else end):
        text, here = match.group(), match.start()
        place += source.count("\n", at, here)
        at = here
        if text.startswith("--") or text.startswith("{-"):
            continue
        found.append(Token(text, here, place, here == start or source[here - 1] in " \n\t", text.strip("«»")))
    return found


def result_of(signature):
    """The first word of a signature's result: behind the last arrow outside all brackets."""
    depth, first = 0, ""
    for n, word in enumerate(signature):
        depth += (word.text in "({") - (word.text in ")}")
        if depth == 0 and word.text in (":", "→") and n + 1 < len(signature):
            first = signature[n + 1].text
    return first


@dataclass
class Use:
    module: str
    names: dict  # the name here -> the name there
    alias: str
    line: int


@dataclass
class Declaration:
    name: str
    kind: str  # value, record, data, field, constructor
    public: bool
    line: int  # of the signature
    text: str  # the signature, or the whole of a record or a type, as it stands in the file
    signature: list  # its tokens behind the name
    comment: str
    sections: list
    owner: "Declaration" = None  # of a field or a constructor
    marks: tuple = ()
    levels: tuple = ()  # names in braces before the ':'
    equations: list = field(default_factory=list)  # (line, text, tokens)
    members: list = field(default_factory=list)

    @property
    def body(self):
        """The text with the equations."""
        return "\n".join([self.text, *(text for _, text, _ in self.equations)])


@dataclass
class Section:
    line: int
    text: str
    parameters: list  # tokens
    comment: str


@dataclass
class Block:
    """The lines of one declaration: where it starts, and where the next one does."""
    first: int
    last: int
    indent: int


class File:
    def __init__(self, path, source):
        self.path, self.source = path, source
        self.lines = source.split("\n")
        self.starts = [0]
        for text in self.lines:
            self.starts.append(self.starts[-1] + len(text) + 1)
        self.uses, self.declarations, self.unread, self.fixities, self.modules = [], [], [], [], []
        self.header = self._comment_from(0)
        self._read(0, len(self.lines), 0, [])
        self.by_name = {}
        for declaration in self.declarations:
            self.by_name.setdefault(declaration.name, declaration)

    # -- layout

    def _comment_from(self, first):
        said = []
        for text in self.lines[first:]:
            if not text.lstrip().startswith("--"):
                break
            said.append(text.strip()[2:].strip())
        return "\n".join(said)

    def _comment_above(self, first):
        said = []
        for at in range(first - 1, -1, -1):
            text = self.lines[at].strip()
            if not text.startswith("--") or text.startswith("-- ----"):
                break
            said.append(text[2:].strip())
        return "\n".join(reversed(said))

    def _blocks(self, first, last, indent):
        """The declarations between two lines: each starts at the indentation, and goes on over deeper lines and over closing brackets."""
        blocks = []
        for at in range(first, last):
            text = self.lines[at]
            bare = text.strip()
            if not bare or bare.startswith("--"):
                continue
            here = len(text) - len(text.lstrip())
            if (here <= indent and bare[0] not in ")]}") or not blocks:
                blocks.append(Block(at, at + 1, here))
            else:
                blocks[-1].last = at + 1
        return blocks

    def _tokens(self, first, last):
        return tokens(self.source, self.starts[first], self.starts[last], first + 1)

    def _text(self, first, last):
        while last > first + 1 and not self.lines[last - 1].strip():
            last -= 1
        return "\n".join(self.lines[first:last])

    # -- declarations

    def _read(self, first, last, indent, sections):
        blocks = self._blocks(first, last, indent)
        opened = None
        for block in blocks:
            words = self._tokens(block.first, block.last)
            heads = [word.text for word in words[:4]]
            if heads[:1] == ["use"] or heads[:2] == ["pub", "use"]:
                self._use(words[heads.index("use") + 1:])
            elif heads[:1] == ["module"]:
                self._section(block, words, sections)
            elif heads[0] in ("infix", "infixl", "infixr"):
                self.fixities += [(word.name, block.first + 1, self.lines[block.first].strip()) for word in words[2:]]
            elif heads[0] == "mod" or heads[:2] == ["pub", "mod"]:
                self.modules.append((block.first + 1, words[-1].name))
            elif heads[0] == "unfolding":
                continue
            else:
                opened = self._declaration(block, words, sections, opened)

    def _use(self, words):
        """use a.b.{c, d as e}; use a.b as f; use a.b"""
        at, path = 0, []
        while at < len(words) and words[at].text not in ("{", "as"):
            path.append(words[at].text)
            at += 1
        module = "".join(path).rstrip(".")
        names, alias = {}, None
        if at < len(words) and words[at].text == "as":
            alias = words[at + 1].name
        elif at < len(words):
            part = []
            for word in words[at + 1:]:
                if word.text in (",", "}"):
                    if part:
                        names[part[-1]] = part[0]
                    part = []
                elif word.text != "as":
                    part.append(word.name)
        else:
            alias = module.split(".")[-1]
        self.uses.append(Use(module, names, alias, words[0].line))

    def _section(self, block, words, sections):
        ends = [n for n, word in enumerate(words) if word.text == "where"]
        if not ends or words[1].text != "_":
            self.unread.append((block.first + 1, self.lines[block.first].strip()))
            return
        where = words[ends[0]]
        inside = where.line  # the number of the line behind the header
        section = Section(block.first + 1, self._text(block.first, inside), words[2:ends[0]], self._comment_above(block.first))
        content = [at for at in range(inside, block.last) if self.lines[at].strip() and not self.lines[at].strip().startswith("--")]
        if content:
            deeper = len(self.lines[content[0]]) - len(self.lines[content[0]].lstrip())
            self._read(inside, block.last, deeper, [*sections, section])

    def _declaration(self, block, words, sections, opened):
        marks, at = [], 0
        while at < len(words) and words[at].text in MARKS:
            marks.append(words[at].text)
            at += 1
        if at >= len(words):
            self.unread.append((block.first + 1, self.lines[block.first].strip()))
            return opened
        if words[at].text in ("record", "data"):
            return self._type(block, words, at, marks, sections)
        colon = self._colon(words, at)
        if colon is None:
            if opened is not None and any(word.text == "=" for word in words):
                opened.equations.append((block.first + 1, self._text(block.first, block.last), words))
            else:
                self.unread.append((block.first + 1, self.lines[block.first].strip()))
            return opened
        text = self._text(block.first, block.last)
        declared = None
        names = [word for word in words[at:colon] if word.text not in ("{", "}", ",")]
        brace = next((word.start for word in words[at:colon] if word.text == "{"), words[colon].start)
        levels = tuple(word.name for word in names if word.start > brace)
        for word in names[: len(names) - len(levels)]:
            declared = Declaration(word.name, "value", "pub" in marks, word.line, text, words[colon:], self._comment_above(block.first), sections,
                                   marks=tuple(marks), levels=levels)
            self.declarations.append(declared)
        return declared

    @staticmethod
    def _colon(words, at):
        """Where the ':' of a signature stands: behind names and levels in braces, before any '='."""
        depth = 0
        for n in range(at, len(words)):
            text = words[n].text
            depth += (text == "{") - (text == "}")
            if text == ":" and depth == 0:
                return n if n > at else None
            if text in ("=", "(", ";", ",", ".", "↦"):
                return None
        return None

    def _type(self, block, words, at, marks, sections):
        name = words[at + 1]
        wheres = [word for word in words if word.text == "where"]
        inside = wheres[0].line if wheres else block.last
        head = [word for word in words[at + 2:] if word.line <= inside and word.text != "where"]
        declared = Declaration(name.name, words[at].text, "pub" in marks, name.line, self._text(block.first, block.last), head,
                               self._comment_above(block.first), sections, marks=tuple(marks))
        self.declarations.append(declared)
        member = "field" if words[at].text == "record" else "constructor"
        content = [n for n in range(inside, block.last) if self.lines[n].strip() and not self.lines[n].strip().startswith("--")]
        if content:
            deeper = len(self.lines[content[0]]) - len(self.lines[content[0]].lstrip())
            for inner in self._blocks(inside, block.last, deeper):
                parts = self._tokens(inner.first, inner.last)
                start = sum(1 for part in parts[:1] if part.text == "pub")
                colon = self._colon(parts, start)
                if colon is None:
                    self.unread.append((inner.first + 1, self.lines[inner.first].strip()))
                    continue
                for part in parts[start:colon]:
                    if part.text in "{}":
                        break
                    made = Declaration(part.name, member, True, part.line, self._text(inner.first, inner.last), parts[colon:],
                                       self._comment_above(inner.first), sections, declared)
                    self.declarations.append(made)
                    declared.members.append(made)
        return declared
