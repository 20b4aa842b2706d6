"""Makes docs/BELIEVED.md: the definitions that have to be read, and the clauses that no law settles."""
from itertools import groupby

from citations import CITATIONS
from defining import BELIEVED, DEFINITIONS
from pages import Page
from pinning import MOST, PINS, READ

# the marks of a clause, and what the count says of them
CLAUSES = {"pinned": "clauses of the specification that laws pin", "primitive": "clauses that say what a definition or a type says, which has to be read",
           "program": "clauses about code, tests and the way of working, of which no law can speak"}
PARTS = {
    "primitive": ("Primitive definitions", "To be read, in this order. Above each stands why no law pins it, below it which of its words are pinned."),
    "text": ("Texts and tables", "Fixed texts, tables of numbers and the table of the examples, to be compared with the clauses that are named."),
    "theorem": ("The papers' theorem", "The claim of the papers about the rules, in their words. It is proved; what it says has to be read."),
}


def tally(model, believed="", definitions=""):
    """What the definitions of each sort are called, how many they are and how many lines they have. With pages, their names are links."""
    said = {"primitive": ("primitive definitions, to be read", believed), "text": ("texts and tables, to be compared with the specification", believed),
            "theorem": ("definitions of the papers' theorem, to be read", believed), "pinned": ("definitions that laws pin", definitions)}
    for sort, (name, page) in said.items():
        pins = [pin for pin in model.pins.values() if pin.sort == sort]
        if pins or sort in ("primitive", "pinned"):
            yield f"[{name}]({page})" if page else name, len(pins), sum(pin.lines for pin in pins)


class Believed:
    def __init__(self, model, definitions):
        self.model, self.definitions = model, definitions

    def page(self):
        page = Page(BELIEVED)
        page.heading(1, "What has to be believed")
        page.say("A proof is worth what its statement says, and a statement what its words mean. This page has the words that have to be taken as they are "
                 "defined. All others are pinned: laws that are proved of a definition say what it has to be, in words that are settled before it, so that one "
                 "which computes something else would fail a proof. [DEFINITIONS.md](DEFINITIONS.md) leads to every definition, with its laws, and to the types "
                 "that answers have. What there is to believe beside this page, and how to read a definition, is in [CERTIFICATE.md](CERTIFICATE.md).")
        page.note(CITATIONS, PINS)
        page.add("| | Definitions | Lines |", "|---|---|---|")
        counted = list(tally(self.model))
        page.add(*(f"| {said} | {number:,} | {lines:,} |" for said, number, lines in counted))
        page.add(f"| together | {sum(number for _, number, _ in counted):,} | {sum(lines for _, _, lines in counted):,} |", "")
        page.say(f"A line is one of a signature or an equation; comments are not counted. The gate fails if the primitive ones have more than {MOST}.")
        page.add("| Clauses | |", "|---|---|")
        marks = [mark.sort for mark in self.model.marks.values()]
        page.add(*(f"| {said} | {marks.count(sort):,} |" for sort, said in CLAUSES.items()), "")
        for sort in READ:
            self._part(page, sort)
        page.heading(2, "Clauses that no law pins")
        for sort, said in (("primitive", "Primitive: to be read"), ("program", "About the program")):
            page.heading(3, said)
            for clause in self.model.clauses:
                if self.model.marks[clause.name].sort == sort:
                    page.item(f"{page.clause(clause)} {page.reason(self.model.marks[clause.name].why, self.definitions.clauses)}")
        return page

    def _part(self, page, sort):
        """The definitions of a sort in their order of reading, each group with the reason to read it."""
        keys = [key for key in self.definitions.keys() if self.model.pins[key].sort == sort]
        if not keys:
            return
        title, said = PARTS[sort]
        page.heading(2, title)
        page.say(said)
        for (crate, file), inside in groupby(keys, key=lambda key: key[:2]):
            page.heading(3, f"{crate}: {file}")
            for _, group in groupby(inside, key=lambda key: self.model.pins[key].entry.line):
                self._group(page, list(group))

    def _group(self, page, keys):
        links = self.definitions.links(page, [(f"{crate}/specs/{file}", name) for crate, file, name in keys])
        page.say(f"{links}: {page.reason(self.model.pins[keys[0]].why, self.definitions.clauses)}")
        page.fence("agda", "\n\n".join(self.definitions.text(key) for key in keys))
        terms = []
        for key in keys:
            terms += [term for term in self.model.definitions[key][1] if term not in terms and term.kind == "definition"]
        pinned = [term for term in terms if self.model.pins[term.crate, term.file, term.name].sort == "pinned"]
        if pinned:
            page.say(self.definitions.terms(page, pinned, begin="Pinned words: ") + ".")
