"""Reads docs/definitions.txt, which says of each definition of specs/ which laws pin it or why it has to be read, and marks every definition and clause."""
import re
from dataclasses import dataclass, field

from antt import result_of
from citations import CITATIONS, EXCUSES, NAMED, cited, without_a_law

PINS = "docs/definitions.txt"
# the sorts of definitions without a law: one that has to be read, a text or a table, and the statement of the papers' theorem
READ = ("primitive", "text", "theorem")
# the lines that the primitive ones may have together, so that they can be read in an hour
MOST = 420
# what can show a clause that is about the program
SHOWS = ("tests", "gate", "file", "checker", "outside", "code")


@dataclass
class Entry:
    line: int
    keys: list  # of its definitions
    reasons: list = field(default_factory=list)  # (sort, sentence)
    citations: list = field(default_factory=list)

    @property
    def names(self):
        return ", ".join(name for _, _, name in self.keys)

    @property
    def laws(self):
        return [key_of(citation, name) for citation in self.citations for name in citation.names]


@dataclass
class Pin:
    sort: str  # one of READ, or pinned
    why: str
    entry: Entry
    lines: int
    laws: list = field(default_factory=list)  # those that pin it and speak of it, by their keys among the statements


@dataclass
class Mark:
    sort: str  # pinned, primitive or program
    why: str
    laws: list  # by their keys


def entries_of(source):
    """The entries of definitions.txt, and what is wrong with its form. Lines at the margin that follow each other are one entry."""
    entries, wrong, opened = [], [], False
    for number, text in enumerate(source.split("\n"), 1):
        if not text.strip() or text.startswith("#"):
            opened = False
            continue
        head = re.fullmatch(r"(\w+)/specs/([\w/]+): (.+)", text)
        reason = re.fullmatch(rf" +({'|'.join(READ)}): (.+)", text)
        citation = cited(text.strip(), number) if text.startswith(" ") and not reason else None
        if head:
            entries += [] if opened else [Entry(number, [])]
            entries[-1].keys += [(head.group(1), head.group(2), name.strip()) for name in head.group(3).split(",")]
        elif reason and entries:
            entries[-1].reasons.append(reason.groups())
        elif entries and citation and (citation.kind == "law" or citation.kind == "definition" and all("." in name for name in citation.names)):
            entries[-1].citations.append(citation)
        else:
            wrong.append(f"{PINS}:{number}: cannot read {text.strip()}")
        opened = bool(head)
    return entries, wrong


def key_of(citation, name):
    """What a cited law, contract or field of a record goes by among the statements."""
    return "field" if citation.kind == "definition" and "." in name else citation.kind, citation.where, name


class Pinning:
    """Marks the definitions and the clauses of a model that has been built."""

    def __init__(self, model):
        self.model, self.pins, self.wrong, self.without = model, model.pins, [], []

    def run(self):
        if not self.model.world.exists(PINS):
            self.model.wrong.append(f"{PINS} is missing")
            return
        entries, self.wrong = entries_of(self.model.world.read(PINS))
        for entry in entries:
            self._entry(entry)
        self.wrong += [f"{PINS}: {crate}/specs/{file}: {name} stands in no entry" for crate, file, name in self.model.definitions
                       if (crate, file, name) not in self.pins]
        self._laws([entry for entry in entries if not entry.reasons])
        if not self.wrong:
            self._circles(entries)
        lines = sum(pin.lines for pin in self.pins.values() if pin.sort == "primitive")
        if lines > MOST:
            self.wrong.append(f"{PINS}: the primitive definitions have {lines} lines, more than {MOST}")
        self.without, wrong = without_a_law(self.model.world.read(CITATIONS))
        self.wrong += wrong
        for clause in self.model.clauses:
            self._clause(clause)
        names = {clause.name for clause in self.model.clauses}
        self.wrong += [f"{CITATIONS}: the list of clauses without a law names {name}, which is no clause" for name in self.without if name not in names]
        self.model.wrong += self.wrong

    # -- definitions

    def _entry(self, entry):
        """What an entry says of each of its definitions."""
        said = f"{PINS}:{entry.line}"
        if len(entry.reasons) + bool(entry.citations) != 1:
            self.wrong.append(f"{said}: {entry.names}: there has to be one reason to read them, or the laws that pin them")
        sort, why = entry.reasons[0] if entry.reasons else ("pinned", "")
        self.wrong += [f"{said}: the reason {what}" for what in self._dangling(why)]
        for key in entry.keys:
            crate, file, name = key
            if key not in self.model.definitions:
                self.wrong.append(f"{said}: crates/{crate}/specs/{file}.antt has no definition {name}")
            elif key in self.pins:
                self.wrong.append(f"{said}: {crate}/specs/{file}: {name} stands twice")
            else:
                self.pins[key] = Pin(sort, why, entry, self._lines(key))

    def _lines(self, key):
        """The lines of a definition: its signature, its equations and its fixity, without comments."""
        crate, file, name = key
        body = self.model.definitions[key][0].body.split("\n")
        fixities = sum(name == one for one, _, _ in self.model.world.antt(f"crates/{crate}/specs/{file}.antt").fixities)
        return fixities + sum(bool(line.strip()) and not line.strip().startswith("--") for line in body)

    def _dangling(self, why):
        """Clauses that a reason names and that are not there."""
        names = {clause.name for clause in self.model.clauses}
        return [f"names {name}, which is no clause" for _, name in NAMED.findall(why) if name and name not in names]

    def _laws(self, entries):
        """A clause cites each law that pins definitions; the law speaks of one of them, and of each definition one of its laws speaks."""
        pinned = {}
        for entry in entries:
            for law in entry.laws:
                pinned.setdefault(law, set()).update(entry.keys)
        for entry in entries:
            said, spoken = f"{PINS}:{entry.line}", {}
            for law in entry.laws:
                if law not in self.model.statements:
                    self.wrong.append(f"{said}: no clause of {CITATIONS} cites a law {law[2]} of {law[1]}")
                    continue
                spoken[law] = self._spoken(law, pinned[law])
                if not spoken[law] & set(entry.keys):
                    self.wrong.append(f"{said}: {law[2]} does not speak of {entry.names}")
            for key in entry.keys:
                laws = [law for law in spoken if key in spoken[law]]
                if key in self.pins and self.pins[key].entry is entry:
                    self.pins[key].laws = laws
                if spoken and not laws:
                    self.wrong.append(f"{said}: no law there speaks of {key[2]}")

    def _words(self, law):
        """The definitions that a statement names; a field also its record."""
        kind, where, name = law
        own = {tuple(where.replace("/specs/", " ").split()) + (name.split(".")[0],)} if kind == "field" else set()
        return own | definitions_in(self.model.statements[law].terms)

    def _spoken(self, law, pinned):
        """The definitions that a law speaks of: its words, and what these are made of as far as the way leads over types, over definitions that are read and
        over those that the law pins as well."""
        found, new = set(), self._words(law)
        while new:
            found |= new
            made_of = [self.model.definitions[key][1] for key in new if key in pinned or self._is_read(key) or self._is_type(key)]
            new = {key for terms in made_of for key in definitions_in(terms)} - found
        return found

    def _is_read(self, key):
        return key in self.pins and self.pins[key].sort in READ

    def _is_type(self, key):
        declared = self.model.definitions[key][0]
        return declared.kind != "value" or result_of(declared.signature) == "Type"

    def _circles(self, entries):
        """Definitions are settled one entry after the other: by reading once the words of each are settled, by laws once each has a law whose other words
        are. So no two definitions are pinned by each other alone."""
        settled, left, ready = set(), entries, entries
        while ready:
            ready = [entry for entry in left if not self._waits(entry, settled)]
            settled.update(key for entry in ready for key in entry.keys)
            left = [entry for entry in left if entry not in ready]
        circle = None
        while circle != left:
            circle = left
            awaited = {key for entry in circle for key in self._waits(entry, settled)}
            left = [entry for entry in circle if awaited & set(entry.keys)]
        for entry in circle:
            waits = sorted(name for _, _, name in self._waits(entry, settled))
            self.wrong.append(f"{PINS}:{entry.line}: in a circle, {entry.names} can be settled only after {', '.join(waits)}")

    def _waits(self, entry, settled):
        """What has to be settled before an entry is: of each of its definitions the other words of its text, or of the law that has the fewest."""
        waits, known = set(), settled | set(entry.keys)
        for key in entry.keys:
            words = [definitions_in(self.model.definitions[key][1])] if self._is_read(key) else [self._words(law) for law in self.pins[key].laws]
            waits |= min((found - known for found in words), key=len)
        return waits

    # -- clauses

    def _clause(self, clause):
        """A clause with a law is pinned; one without stands in the list of these, is primitive or about the program, and says why."""
        citations = self.model.cited.get(clause.name, [])
        laws = list(dict.fromkeys(key_of(one, name) for one in citations if one.kind == "law" for name in one.names))
        excuses = [one for one in citations if one.kind in EXCUSES]
        said = f"{CITATIONS}: the clause {clause.name}"
        if bool(laws) == (clause.name in self.without):
            self.wrong.append(f"{said} {'has a law and stands' if laws else 'has no law and does not stand'} in the list of clauses without a law")
        self.model.marks[clause.name] = Mark(excuses[0].kind, excuses[0].names[0], []) if excuses else Mark("pinned", "", laws)
        if laws and excuses:
            self.wrong.append(f"{said} has a law and needs no line {excuses[0].kind}")
        elif not laws and not excuses:
            self.wrong.append(f"{said} has no law, and no line {' or '.join(EXCUSES)} that says why")
        elif len(excuses) > 1:
            self.wrong.append(f"{said} has more than one line {' or '.join(EXCUSES)}")
        elif excuses:
            self.wrong += [f"{said} {what}" for what in [*self._dangling(excuses[0].names[0]), *getattr(self, f"_{excuses[0].kind}")(citations)]]

    def _primitive(self, citations):
        """It rests on a definition that is read, or on a type or a contract."""
        cited_ones = [(one.where.split("/")[0], one.where.split("/", 2)[2], name) for one in citations if one.kind == "definition" for name in one.names
                      if "." not in name]
        if cited_ones and not any(self._is_read(key) for key in cited_ones):
            yield "is primitive, and each definition that it cites is pinned"
        if not cited_ones and not any(one.kind in ("type", "contract") for one in citations):
            yield "is primitive, and cites no definition, type or contract to read"

    @staticmethod
    def _program(citations):
        if not any(one.kind in SHOWS for one in citations):
            yield f"is about the program, and none of {', '.join(SHOWS)} shows it"


def definitions_in(terms):
    return {(term.crate, term.file, term.name) for term in terms if term.kind == "definition"}
