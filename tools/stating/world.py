"""The sources of the repository, read as they are asked for."""
import glob
import os

import antt
import rattle
from forms import counted_by_awk, wrong_forms

LISTS = ["docs/statements.txt", "docs/definitions.txt"]


def below(crates):
    """The files of the crates, without what `rt` makes: that lies in a folder out/ of each crate."""
    for folder, folders, names in os.walk(crates):
        if os.path.dirname(folder) == crates and "out" in folders:
            folders.remove("out")
        yield from (os.path.join(folder, name) for name in names)


class World:
    read_files = {}  # what was made of a path and a text, for as long as the program runs

    def __init__(self, root):
        self.root = root
        self.crates = sorted(os.path.basename(path) for path in glob.glob(f"{root}/crates/*") if os.path.isdir(path))
        self.sources = sorted(os.path.relpath(path, root) for path in below(f"{root}/crates") if path.endswith((".antt", ".rt", ".edit")))
        self._antt, self._rattle = {}, {}

    def read(self, path):
        with open(f"{self.root}/{path}", encoding="utf-8", newline="") as file:
            return file.read()

    def exists(self, path):
        return os.path.exists(f"{self.root}/{path}")

    def glob(self, pattern):
        return sorted(os.path.relpath(path, self.root) for path in glob.glob(f"{self.root}/{pattern}", recursive=True))

    def antt(self, path):
        """The file of antt at this path, or None."""
        if path not in self._antt:
            self._antt[path] = self.made(antt.File, path) if self.exists(path) else None
        return self._antt[path]

    def rattle(self, crate):
        """The files of Rattle of a crate."""
        if crate not in self._rattle:
            self._rattle[crate] = [self.made(rattle.File, path) for path in self.sources if path.startswith(f"crates/{crate}/src/") and path.endswith(".rt")]
        return self._rattle[crate]

    def made(self, kind, path):
        return self._kept(kind, path, self.read(path))

    def _kept(self, make, *given):
        """What is made of a path and a text: made once."""
        if (make, *given) not in self.read_files:
            self.read_files[(make, *given)] = make(*given)
        return self.read_files[(make, *given)]

    def forms(self):
        """What is wrong with the form of the sources and of the lists of statements and definitions."""
        for path in self.sources + LISTS:
            if self.exists(path):
                yield from (f"{path}:{line}: {said}" for line, said in self.made(wrong_forms, path))

    def public_functions(self):
        """How many public functions the gate's own count finds, or what it says instead."""
        return self._kept(counted_by_awk, self.root, *((path, self.read(path)) for path in self.sources if path.endswith(".rt")))

    def function(self, crate, name):
        return [(file, function) for file in self.rattle(crate) for function in file.functions if function.name == name]

    def type(self, crate, name):
        return next((made for file in self.rattle(crate) for made in file.types if made.name == name), None)

    def specs(self):
        return [path for path in self.sources if path.split("/")[2] == "specs" and not path.endswith("/specs/Lib.antt")]
