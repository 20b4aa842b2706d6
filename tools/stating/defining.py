"""Makes docs/DEFINITIONS.md with a page for each crate, and links to what stands there."""
import re
from itertools import groupby

from citations import CITATIONS
from crates import listed
from pages import Page
from pinning import PINS, READ
from statements import with_comment

DEFINITIONS, BELIEVED = "docs/DEFINITIONS.md", "docs/BELIEVED.md"


def full(declared):
    """The text of a definition with its comment and its equations."""
    return "\n".join([with_comment(declared), *(text for _, text, _ in declared.equations)])


class Definitions:
    def __init__(self, model):
        self.model, self.world = model, model.world
        self.clauses = {clause.name: clause for clause in model.clauses}
        self.anchors = {}  # of definitions and of types of Rattle: (page, anchor)

    def pages(self):
        pages, index = {}, Page(DEFINITIONS)
        crates = [crate for crate in self.order() if any(key[0] == crate for key in self.model.definitions) or self.types(crate)]
        for crate in crates:
            pages[f"docs/definitions/{crate}.md"] = self._crate_page(crate)
        for page in pages.values():
            self._uses(page)
        index.heading(1, "Definitions")
        index.say("Every definition of `specs/`, and the enums and structs of Rattle that definitions, laws and contracts speak of. Laws rest on nothing else "
                  "of this repository. Most definitions are *pinned*: laws that are proved of them say what they have to be. The others have to be read, and "
                  f"stand together on [one page]({index.to(BELIEVED)}): the *primitive* ones, each *text*, a fixed text or a table that is to be compared "
                  "with the specification, and those of the papers' *theorem*.")
        index.note(CITATIONS, PINS)
        sorts = [sort for sort in (*READ, "pinned") if sort != "theorem" or any(pin.sort == sort for pin in self.model.pins.values())]
        index.add(f"| Crate | Definitions | Lines | of them {' | '.join(sorts)} |", "|---" * (len(sorts) + 3) + "|")
        for crate in [*crates, ""]:
            pins = [pin for key, pin in self.model.pins.items() if key[0] == crate or not crate]
            lines = [sum(pin.lines for pin in pins if pin.sort == sort) for sort in sorts]
            name = f"[{crate}](definitions/{crate}.md)" if crate else "together"
            index.add(f"| {name} | {len(pins)} | {sum(lines):,} | " + " | ".join(f"{number:,}" for number in lines) + " |")
        index.add("")
        index.say("A line is one of a signature or an equation; comments are not counted.")
        self._kit(index)
        return {**pages, DEFINITIONS: index}

    def order(self):
        """The crates in the order of crates.txt, the lowest first."""
        return [crate for crate in listed(self.world) if crate in self.world.crates]

    def keys(self):
        """All definitions in the order of their reading: by the crates, by the files of each, and from top to bottom."""
        return [key for crate in self.order() for key in self._keys(crate)]

    def _keys(self, crate):
        order = self._file_order(crate)
        return sorted((key for key in self.model.definitions if key[0] == crate), key=lambda key: order(key[1]))

    def types(self, crate):
        """The types of Rattle of a crate that statements speak of."""
        named = {term.name for term in self.model.terms() if term.kind == "type" and term.crate == crate}
        named |= {name for citations in self.model.cited.values() for one in citations if one.kind == "type" and one.where == crate for name in one.names}
        return [made for file in self.world.rattle(crate) for made in file.types if made.name in named]

    def _crate_page(self, crate):
        page = Page(f"docs/definitions/{crate}.md")
        page.heading(1, f"Definitions of {crate}")
        page.entries = []
        keys = self._keys(crate)
        files = list(dict.fromkeys(key[1] for key in keys))
        contents = page.lines
        page.lines = []
        for file in files:
            path = f"crates/{crate}/specs/{file}.antt"
            page.heading(2, file)
            page.say(self.world.antt(path).header.replace("\n", " "))
            for key in keys:
                if key[1] == file:
                    declared, terms = self.model.definitions[key]
                    self.anchors[key] = (page.path, page.heading(3, f"`{declared.name}`"))
                    page.fence("agda", self.text(key))
                    page.say(self.mark(page, key))
                    page.entries.append((len(page.lines), path, declared.line, terms, key))
                    page.add("", "")
        types = self.types(crate)
        if types:
            page.heading(2, "Types of Rattle")
            for made in types:
                self.anchors[crate, "", made.name] = (page.path, page.heading(3, f"`{made.name}`, {made.kind}"))
                comment = "".join(f"// {said}\n" for said in made.comment.split("\n") if made.comment)
                page.fence("rust", comment + made.text)
                page.add(page.link([f"{made.name} in {made.path.removeprefix('crates/')}"], page.to(made.path, f"L{made.line}")), "")
        body, page.lines = page.lines, contents
        page.say("[All crates](../DEFINITIONS.md). " + " · ".join(f"[{file}](#{file.lower().replace('/', '')})" for file in files)
                 + (" · [Types of Rattle](#types-of-rattle)" if types else ""))
        shift = len(page.lines)
        page.lines += body
        page.entries = [(at + shift, *rest) for at, *rest in page.entries]
        return page

    def text(self, key):
        """A definition as the pages show it, with its fixity."""
        declared = self.model.definitions[key][0]
        fixity = [text for name, _, text in self.world.antt(f"crates/{key[0]}/specs/{key[1]}.antt").fixities if name == declared.name]
        return "\n".join([full(declared), *fixity])

    def mark(self, page, key):
        """Why a definition has to be read, or the laws that pin it, with a clause that cites them, and rather one that cites the definition too."""
        pin = self.model.pins[key]
        if pin.sort in READ:
            return f"**{pin.sort.capitalize()}**: {page.reason(pin.why, self.clauses)}"
        about = self.model.citing.get(("definition", f"{key[0]}/specs/{key[1]}", key[2]), [])
        stands = {law: min(self.model.citing[law], key=lambda clause: clause not in about) for law in pin.laws}
        groups = [(clause, [name for _, _, name in laws]) for clause, laws in groupby(pin.laws, key=lambda law: stands[law])]
        return "**Pinned** by " + ", ".join(", ".join(f"`{name}`" for name in names) + f" ({page.clause(clause)})" for clause, names in groups) + "."

    def _file_order(self, crate):
        """In the order that specs/Lib.antt declares them."""
        lib = self.world.read(f"crates/{crate}/specs/Lib.antt") if self.world.exists(f"crates/{crate}/specs/Lib.antt") else ""
        order = re.findall(r"(?m)^\s*(?:pub )?mod (\w+)", lib)
        return lambda file: (order.index(file) if file in order else len(order), file)

    def _uses(self, page):
        """Behind each definition where it stands and what it is made of: the anchors of all pages are known by now."""
        for at, path, line, terms, own in page.entries:
            where = page.link([f"{own[2]} in {path.removeprefix('crates/')}", f"{own[2]} of {path.removeprefix('crates/')}"], page.to(path, f"L{line}"))
            page.lines[at] = where + self.terms(page, terms, own, " uses ")

    def terms(self, page, terms, own=None, begin="Terms: "):
        shown = []
        for term in terms:
            key = (term.crate, term.file, term.name)
            if term.kind == "kit" or key == own:
                continue
            if term.kind == "wrong":
                shown.append(page.link([f"`{term.name}`", f"`{term.crate}: {term.name}`"], page.to(term.crate, f"L{term.file}")))
                continue
            path, anchor = self.anchors[key]
            longer = [f"`{term.name}`", f"`{term.crate}.{term.name}`", f"`{term.crate}/{term.file}.{term.name}`", f"`{term.crate}/{term.file}: {term.name}`"]
            shown.append(page.link(longer, page.to(path, anchor)))
        return begin + ", ".join(shown) if shown else ""

    def _kit(self, index):
        """The words that statements and definitions take from the kit, by module: another module for a word shows here."""
        words = {}
        for term in self.model.terms():
            if term.kind == "kit":
                words.setdefault(term.crate, set()).add(term.name)
        index.heading(2, "Words of the kit")
        index.say("What statements and definitions take from the kit, by its modules. Built in are `→`, `×`, `¬`, `Type`, `Unit`, `⊥` and, in contracts, "
                  "`result`; of what is lent there are the fields `now`, `old`, `new`, `entry`, `exit` and `ref_ptr`.")
        index.add("| Module | Words |", "|---|---|")
        for module in sorted(words):
            index.add(f"| {module} | {', '.join(f'`{name}`'.replace('|', chr(92) + '|') for name in sorted(words[module]))} |")

    def links(self, page, definitions):
        shown = []
        for where, name in definitions:
            crate, _, file = where.split("/", 2)
            path, anchor = self.anchors[crate, file, name]
            shown.append(page.link([f"`{name}`", f"`{crate}.{name}`", f"`{crate}/{file}.{name}`", f"`{crate}/{file}: {name}`"], page.to(path, anchor)))
        return ", ".join(shown)

    def type_link(self, page, crate, name):
        path, anchor = self.anchors[crate, "", name]
        return page.link([f"`{name}`", f"`{crate}.{name}`"], page.to(path, anchor))
