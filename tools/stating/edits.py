"""Reads the edits of crates/*/must-fail: what each replaces, and at which input it makes another answer. An edit of a definition has

    input: a term of the edited file
    without: the value that it has, and
    with: the one that it has with the edit, both written out,

which the prover computes (tools/edits). An edit of code, or one that no term can show, has a sentence for each of these and a line `tried:` that says how."""
import re
from dataclasses import dataclass, field

from antt import tokens

EDITS = "crates/*/must-fail/*.edit"
LINES = ("file", "old", "new", "input", "without", "with", "tried")
ONCE = ("input", "without", "with")
# what a value is written with: two that are written otherwise are different, but for brackets around the whole or one word, and blanks
PLAIN = re.compile(r"0|[1-9][0-9]*")
VALUES = {"(", ")", "∷", "[]", "true", "false", "none", "some", "pos", "negsuc"}


@dataclass
class Edit:
    path: str
    changes: list = field(default_factory=list)  # (file, old, new)
    said: dict = field(default_factory=dict)
    wrong: list = field(default_factory=list)

    @property
    def crate(self):
        return self.path.split("/")[1]

    @property
    def name(self):
        return self.path.split("/")[-1].removesuffix(".edit")

    @property
    def computed(self):
        """Whether the prover computes both answers."""
        return "tried" not in self.said


def edit_of(path, source):
    """An edit, and what is wrong with its form."""
    edit, file, old = Edit(path), "", ""
    for number, line in enumerate(source.rstrip("\n").split("\n"), 1):
        key, colon, text = line.partition(":")
        text = text.removeprefix(" ")
        if key not in LINES or not colon or not (text.strip() or key == "new"):
            edit.wrong.append(f"{number}: cannot read {line}")
        elif key == "file":
            file = text
        elif key == "old":
            old = text
        elif key == "new":
            edit.changes.append((file, old, text))
        elif key in edit.said:
            edit.wrong.append(f"{number}: {key} stands twice")
        else:
            edit.said[key] = text
    edit.wrong += [f"1: there is no line {key}:" for key in ONCE if key not in edit.said]
    if "with" in edit.said and _bare(edit.said["with"]) == _bare(edit.said.get("without", "")):
        edit.wrong.append("1: the answers with and without it are the same")
    if edit.computed:
        _computed(edit)
    return edit


def _bare(text):
    """The words of an answer, without brackets around the whole or around one word."""
    bare = " ".join(text.replace("(", " ( ").replace(")", " ) ").split())
    while (less := re.sub(r"\( (\S+) \)", r"\1", re.sub(r"^\( ([^()]*) \)$", r"\1", bare))) != bare:
        bare = less
    return bare


def _computed(edit):
    if len({file for file, _, _ in edit.changes}) != 1 or not edit.changes[0][0].startswith("specs/"):
        edit.wrong.append("1: it edits no definition, and no line tried: says how its answers were found")
    for key in ("with", "without"):
        for word in tokens(edit.said.get(key, "")):
            if word.text not in VALUES and not PLAIN.fullmatch(word.text):
                edit.wrong.append(f"1: {key}: {word.text} belongs to no value that is written out")


def edits_of(world):
    return [world.made(edit_of, path) for path in world.glob(EDITS)]
