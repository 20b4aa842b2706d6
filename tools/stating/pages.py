"""Writes pages of Markdown that read well on a code host and in a terminal: links stand by name in the text, and where they lead at the foot."""
import re
import textwrap
from functools import lru_cache
from itertools import groupby

from citations import NAMED, SPECIFICATION

NOTE = "Written by `tools/statements --write` from the sources and from {}: do not edit. The gate fails where it differs from them."
WIDTH = 112
SIGNS = ("→", "×", "⊎", "↔", "|", "∷", "++")


def broken(line):
    """A line of code in lines that a page shows whole: it is broken where the fewest brackets are open, rather before a sign
    than elsewhere, and never inside a text."""
    if len(line) <= WIDTH:
        return [line]
    bare = line.lstrip()
    indent = " " * (len(line) - len(bare))
    depth, places = 0, []
    for n, sign in enumerate(line):
        depth += (sign in "({⌜") - (sign in ")}⌝")
        in_text = line.count('"', 0, n) % 2
        if sign == " " and not in_text and WIDTH * 2 // 5 < n <= WIDTH and not re.match(r" [.:=⌝}]", line[n: n + 2]):
            places.append((depth, line[n + 1:].split(" ")[0] not in SIGNS, -n))
    if not places:
        return [line]
    at = -min(places)[2]
    further = indent if bare.split(" ")[0] in SIGNS else f"{indent}    "
    return [line[:at], *broken(further + line[at + 1:])]


@lru_cache(None)
def shown(text):
    """Code as a page shows it: long lines are broken, and comments with a long line filled anew."""
    lines = []
    for begin, group in groupby(text.split("\n"), key=lambda line: (re.match(r"\s*(--|//) ", line) or [""])[0]):
        group = list(group)
        if begin and any(len(line) > WIDTH for line in group):
            said = " ".join(line[len(begin):].strip() for line in group)
            group = textwrap.wrap(said, WIDTH, initial_indent=begin, subsequent_indent=begin, break_long_words=False, break_on_hyphens=False)
        lines += group if begin else [part for line in group for part in broken(line)]
    return "\n".join(lines)


@lru_cache(None)
def filled(text, begin):
    """A paragraph in lines of a page's width. What would begin a list or a heading stays behind the word before it."""
    kept = re.sub(r" (?=(?:[-+*=|>#]+|\d+[.)])(?: |$))", "\0", text)
    lines = textwrap.wrap(kept, WIDTH, initial_indent=begin, subsequent_indent=begin, break_long_words=False, break_on_hyphens=False)
    return [line.replace("\0", " ") for line in lines]


class Page:
    def __init__(self, path):
        self.path, self.lines, self.links, self.slugs = path, [], {}, {}

    def add(self, *lines):
        self.lines.extend(lines)

    def say(self, text, begin=""):
        self.add(*filled(text, begin), "")

    def item(self, text):
        """An item of a list, as a paragraph."""
        first = len(self.lines)
        self.say(text, "  ")
        self.lines[first] = "- " + self.lines[first][2:]
        self.lines.pop()

    def note(self, *lists):
        """That the page is written from the sources and from these lists."""
        self.say(NOTE.format(" and ".join(self.link([path.split("/")[-1]], self.to(path)) for path in lists)))

    def heading(self, level, title):
        """A heading, and the anchor that code hosts give it."""
        if self.lines and self.lines[-1]:
            self.add("")
        self.add(f"{'#' * level} {title}", "")
        slug = re.sub(r"[^\w\- ]", "", title.lower()).replace(" ", "-")
        count = self.slugs.get(slug, 0)
        self.slugs[slug] = count + 1
        return slug if count == 0 else f"{slug}-{count}"

    def to(self, path, anchor=""):
        """Where a link from this page to a file of the repository leads."""
        here, there = self.path.split("/")[:-1], path.split("/")
        if path == self.path:
            return f"#{anchor}"
        while here and there and here[0] == there[0]:
            here, there = here[1:], there[1:]
        return "/".join([".."] * len(here) + there) + (f"#{anchor}" if anchor else "")

    def link(self, names, target):
        """A link by the first of these names that leads nowhere else yet. Labels are the same whatever the case of their letters."""
        for name in names:
            if self.links.setdefault(name.casefold(), (name, target))[1] == target:
                return f"[{self.links[name.casefold()][0]}]"
        return f"[{names[-1]}]({target})"

    def clause(self, clause):
        """A link to the clause: on a page of statements to the specification, elsewhere to the page with its statements."""
        there = SPECIFICATION if self.path.startswith("docs/statements/") else f"docs/statements/{clause.section.name}.md"
        return self.link([clause.name], self.to(there, clause.name.lower()))

    def reason(self, text, clauses):
        """A sentence whose clauses are links. `clauses` has them by name."""
        return NAMED.sub(lambda found: self.clause(clauses[found.group(2)]) if found.group(2) in clauses else found.group(), text)

    def source(self, name, path, line):
        """A link by its name to something that stands in a file."""
        where = path.removeprefix("crates/")
        return self.link([f"`{name}`", f"`{where.split('/')[0]}: {name}`", f"`{where}: {name}`"], self.to(path, f"L{line}" if line else ""))

    def fence(self, language, text):
        self.add(f"```{language}", shown(text), "```", "")

    def text(self):
        lines = [line for n, line in enumerate(self.lines) if line or (n and self.lines[n - 1])]
        while lines and not lines[-1]:
            lines.pop()
        if self.links:
            lines += ["", *(f"[{name}]: {target}" for name, target in sorted(self.links.values()))]
        return "\n".join(lines) + "\n"
