"""Makes docs/STATEMENTS.md with a page for each section of the specification and one for the wrong routers, and the picture and the count of docs/CERTIFICATE.md."""
import re
from itertools import groupby

from believing import BELIEVED, CLAUSES, DEFINITIONS, Believed, tally
from citations import CITATIONS, EXCUSES, SENTENCES, SPECIFICATION
from defining import Definitions, full
from pages import Page
from picture import PICTURE, drawn
from pinning import PINS, key_of
from statements import LISTS, RULED_OUT, TABLE, WRONG_ROUTERS, is_law, with_comment

STATEMENTS, ROUTERS, CERTIFICATE = "docs/STATEMENTS.md", "docs/statements/wrong-routers.md", "docs/CERTIFICATE.md"
OPENED, CLOSED = "<!-- counted by tools/statements -->", "<!-- end of the count -->"
NAMED_AT_MOST, NAMED_IN_A_ROW = 6, 3  # the laws that pin a clause are named on its page, or in its row, if they are no more than these

PRINTING = "public function"


def kind_of(statement):
    """The kind of a statement. A public function that returns and writes nothing has no `ensures`, nor a ghost member that says something: it is no contract."""
    return PRINTING if statement.kind == "contract" and not re.search(r"\bensures\b|^ +ghost ", statement.text, re.M) else statement.kind


class Writer:
    def __init__(self, model):
        self.model, self.world = model, model.world
        self.definitions = Definitions(model)

    def pages(self):
        pages = {**self.definitions.pages(), **self._statement_pages()}
        pages[BELIEVED] = Believed(self.model, self.definitions).page()
        return {PICTURE: drawn(self.model, self.counts()), **{path: page.text() for path, page in pages.items()}}

    # -- statements

    def _statement_pages(self):
        pages = {f"docs/statements/{section.name}.md": self._section_page(section) for section in self.model.sections}
        index = Page(STATEMENTS)
        index.heading(1, "Statements")
        index.say("Clause by clause of [SPECIFICATION.md](SPECIFICATION.md): the text of every contract and law that settles it, with the parameters of the "
                  "sections around it, and links to the definitions that it speaks of, which are on the pages of [DEFINITIONS.md](DEFINITIONS.md). "
                  "[CERTIFICATE.md](CERTIFICATE.md) says how to read a statement.")
        index.say("Each clause is marked. Of a *pinned* one laws, which are proved, settle all that a law can speak of. A *primitive* one says what a definition or a type says, which has "
                  "to be read. A *program* one is about code, tests or the way of working, of which no law can speak. [BELIEVED.md](BELIEVED.md) has the "
                  "definitions that have to be read.")
        index.note(CITATIONS, PINS)
        index.add("| Section | | Clauses | pinned | primitive | program | Contracts | Laws |", "|---|---|---|---|---|---|---|---|")
        for section in self.model.sections:
            kinds = [kind_of(one) for one in self._statements(section)]
            marks = [self.model.marks[clause.name].sort for clause in section.clauses]
            index.add(f"| [{section.name}](statements/{section.name}.md) | {section.title} | {len(section.clauses)} | "
                      + " | ".join(str(marks.count(sort)) for sort in CLAUSES) + f" | {kinds.count('contract')} | {kinds.count('law') + kinds.count('field')} |")
        count = self.counts()
        index.add("")
        index.say(f"{count['clauses']:,} clauses, {count['contracts']:,} contracts, {count['laws']:,} laws and {count['fields']:,} fields of records, each counted "
                  "once. A law cited for several clauses of a page stands at the first.")
        index.heading(2, "Every clause")
        for section in self.model.sections:
            index.heading(3, f"{section.name} {section.title}")
            index.add("| Clause | | By which law, or why by none |", "|---|---|---|")
            for clause in section.clauses:
                index.add(f"| {index.clause(clause)} | {self.model.marks[clause.name].sort} | {self._row(index, clause)} |")
        index.heading(2, "Where each public function is stated")
        index.add("| Function | Clauses |", "|---|---|")
        stated = {}
        for clause in self.model.clauses:
            for key in {(one.where, name) for one in self.model.cited[clause.name] if one.kind == "contract" for name in one.names}:
                stated.setdefault(key, []).append(clause)
        for (crate, name), clauses in sorted(stated.items()):
            index.add(f"| `{crate}: {name}` | " + " ".join(index.clause(clause) for clause in clauses) + " |")
        index.heading(2, "Wrong routers")
        index.say(f"The table of the wrong routers that the contracts rule out is on [a page of its own]({index.to(ROUTERS)}).")
        return {**pages, STATEMENTS: index, ROUTERS: self._wrong_routers()}

    def _row(self, page, clause):
        """The laws that pin a clause by their names, the first few of them, or why none does."""
        mark = self.model.marks[clause.name]
        names = [f"`{key[2]}`" for key in mark.laws]
        shown = names[:NAMED_IN_A_ROW] + ([f"and {len(names) - NAMED_IN_A_ROW} more"] if len(names) > NAMED_IN_A_ROW else [])
        return (", ".join(shown) or page.reason(mark.why, self.definitions.clauses)).replace("|", "\\|")

    def _statements(self, section):
        """The statements of a section, each once."""
        keys = {key_of(one, name) for clause in section.clauses for one in self.model.cited.get(clause.name, []) for name in one.names}
        return [self.model.statements[key] for key in sorted(keys) if key in self.model.statements]

    def _section_page(self, section):
        page = Page(f"docs/statements/{section.name}.md")
        page.heading(1, f"{section.name} {section.title}")
        page.add(f"[All sections](../STATEMENTS.md) · [the section in the specification](../{SPECIFICATION.split('/')[1]}#{self._slug(section)})", "")
        shown = {}
        for clause in section.clauses:
            page.heading(3, clause.name)
            page.say(f"{page.link([clause.name], page.to(SPECIFICATION, clause.name.lower()))} {clause.text}", "> ")
            if clause.block:
                page.lines[-1] = ">"
                page.add(*(f"> {text}" for text in clause.block), "")
            self._clause(page, clause, shown)
        return page

    @staticmethod
    def _slug(section):
        return re.sub(r"[^\w\- ]", "", f"{section.name} {section.title}".lower()).replace(" ", "-")

    def _mark(self, page, mark):
        if mark.sort != "pinned":
            return f"**{mark.sort.capitalize()}**: {page.reason(mark.why, self.definitions.clauses)}"
        if len(mark.laws) > NAMED_AT_MOST:
            return f"**Pinned** by {len(mark.laws)} laws."
        laws = [self.model.statements[key] for key in mark.laws]
        return "**Pinned** by " + ", ".join(page.source(law.name, law.path, law.line) for law in laws) + "."

    def _clause(self, page, clause, shown):
        cited = self.model.cited.get(clause.name, [])
        page.say(self._mark(page, self.model.marks[clause.name]))
        definitions = [(one.where, name) for one in cited if one.kind == "definition" for name in one.names if "." not in name]
        if definitions:
            page.say(f"Defined by {self.definitions.links(page, definitions)}.")
        types = [(one.where, name) for one in cited if one.kind == "type" for name in one.names]
        if types:
            page.say(f"Types of Rattle: {', '.join(self.definitions.type_link(page, *one) for one in types)}.")
        for one in cited:
            if one.kind in SENTENCES and one.kind not in EXCUSES:
                page.say(self._sentence(page, one))
        keys = [key_of(one, name) for one in cited for name in one.names]
        again = []
        for (path, before), group in groupby((key for key in keys if key in self.model.statements), key=self._block):
            group = list(dict.fromkeys(group))
            again += [key for key in group if key in shown]
            group = [key for key in group if key not in shown]
            if group:
                self._print(page, sorted((self.model.statements[key] for key in group), key=lambda one: one.line))
                shown.update((key, clause.name) for key in group)
        if again:
            page.say("Above: " + ", ".join(f"`{key[2]}` ([{shown[key]}](#{shown[key].lower()}))" for key in again) + ".")
        self._others(page, cited)

    def _block(self, key):
        """Laws of one file with the same sections around them stand in one block, each contract in its own."""
        statement = self.model.statements[key]
        return (statement.path, tuple(statement.before)) if statement.kind != "contract" else (statement.path, statement.name)

    def _print(self, page, statements):
        first = statements[0]
        kind = kind_of(first).capitalize() + ("s" if len(statements) > 1 else "")
        where = first.path.split("/")[1] if first.kind == "contract" else first.path.removeprefix("crates/").removesuffix(".antt")
        page.say(f"{kind} of {where}: " + ", ".join(page.source(one.name, one.path, one.line) for one in statements))
        page.fence("rust" if first.kind == "contract" else "agda", "\n".join(first.before + ["\n\n".join(one.text for one in statements)]))
        terms = []
        for one in statements:
            terms += [term for term in one.terms if term not in terms]
        said = self.definitions.terms(page, terms)
        if said:
            page.say(said)

    @staticmethod
    def _sentence(page, one):
        where = f"[{one.where}]({page.to(one.where)})" if one.where else ""
        begin = {"note": "", "outside": "", "checker": "Checked of every function: ", "tests": f"Tested by {where}: ",
                 "gate": f"Looked at in each run of the gate by {where}: ", "file": f"In {where}: "}[one.kind]
        return begin + one.names[0]

    def _others(self, page, cited):
        """Rows, vectors, edits and places in the code, each as a link."""
        def named(kind):
            return [(one.where, name) for one in cited if one.kind == kind for name in one.names]

        shown = (("Wrong routers that this rules out", self._routers(row for _, name in named("row") for row in self.model.rows if row.name == name)),
                 ("Worked inputs", [(name, f"crates/{where}.antt", self._vectors(where, name).line, self._entries(where, name)) for where, name in named("vectors")]),
                 ("In the code", [(name, f"crates/{where}.rt", self._code_line(where, name)) for where, name in named("code")]),
                 ("Edits that the prover refuses", [(name, f"crates/{crate}/must-fail/{name}.edit", 0) for crate, name in named("edit")]))
        for title, links in shown:
            if links:
                page.say(f"{title}: " + ", ".join(page.source(*link[:3]) + "".join(link[3:]) for link in links) + ".")

    def _routers(self, rows):
        """The wrong routers of rows, each once, with its first row and how many inputs it has if there are more."""
        inputs = {}
        for row in rows:
            inputs.setdefault(row.name, []).append(row.line)
        return [(name, TABLE, lines[0], *([f" ({len(lines)} inputs)"] if len(lines) > 1 else [])) for name, lines in inputs.items()]

    def _vectors(self, where, name):
        return self.world.antt(f"crates/{where}.antt").by_name[name]

    def _entries(self, where, name):
        """How many entries a table of worked inputs has."""
        depth = count = 0
        for word in (word for _, _, words in self._vectors(where, name).equations for word in words):
            depth += (word.text in "({") - (word.text in ")}")
            count += depth == 0 and word.text == "∷"
        return f" ({count})" if count else ""

    def _code_line(self, where, name):
        return next(one.line for file, one in self.world.function(where.split("/")[0], name) if file.path == f"crates/{where}.rt")

    def _wrong_routers(self):
        page = Page(ROUTERS)
        page.heading(1, "Wrong routers")
        page.add("[All sections](../STATEMENTS.md)", "")
        count = self.counts()
        page.say(f"Each of the {count['table']} rows of the table and each of the {count['further']} further rows is an input at which a call's definition says otherwise than a wrong "
                 "router in its place. Two laws say that all of them are ruled out: "
                 + ", and ".join(f"of {said} `{law}`, under {self._ruling(page, law)}" for (_, law), said in zip(LISTS.values(), ("the table", "the further rows"))) + ".")
        page.add("| Definition | Wrong routers |", "|---|---|")
        for call in dict.fromkeys(row.call for row in self.model.rows):
            links = self._routers(row for row in self.model.rows if row.call == call)
            page.add(f"| `{call}` | " + ", ".join(page.source(*link[:3]) + "".join(link[3:]) for link in links) + " |")
        page.heading(2, "The table")
        page.say("`differ call other at` is the row for the call, the wrong router in its place and the input, the same for both.")
        table, further = lists = [self.world.antt(TABLE).by_name[name] for name in LISTS]
        page.fence("agda", full(table))
        page.heading(2, "The further rows")
        page.fence("agda", full(further))
        for path in WRONG_ROUTERS:
            file = self.world.antt(path)
            defined = [one for one in file.declarations if not one.owner and one not in lists and path != RULED_OUT]
            if defined:
                page.heading(2, path.split("/")[-1].removesuffix(".antt"))
                page.say(file.header.split("\n\n")[0].replace("\n", " "))
                page.fence("agda", "\n\n".join(with_comment(one) if is_law(one) else full(one) for one in defined))
        return page

    def _ruling(self, page, law):
        """The clause where the law stands that rules the rows of a list out."""
        clause = next(clauses[0] for key, clauses in self.model.citing.items() if key[0] == "law" and key[2] == law)
        return page.link([clause.name], page.to(f"docs/statements/{clause.section.name}.md", clause.name.lower()))

    # -- the count

    def counts(self):
        kinds = [kind_of(one) for one in self.model.statements.values()]
        edits = self.world.glob("crates/*/must-fail/*.edit")
        return {"clauses": len(self.model.clauses), "contracts": kinds.count("contract"), "printing": kinds.count(PRINTING), "laws": kinds.count("law"), "fields": kinds.count("field"),
                "rows": len(self.model.rows), **{name: sum(row.list == name for row in self.model.rows) for name in LISTS}, "edits": len(edits), "definitions": len(self.model.definitions)}

    def certificate(self, text):
        """The introduction with its count made anew."""
        count, marks = self.counts(), [mark.sort for mark in self.model.marks.values()]
        table = ["| Counted in the sources | |", "|---|---|",
                 *(f"| {said} | {number:,} in {lines:,} lines |" for said, number, lines in tally(self.model, BELIEVED.split("/")[-1], DEFINITIONS.split("/")[-1])),
                 *(f"| {said} | {marks.count(sort):,} |" for sort, said in CLAUSES.items()),
                 f"| contracts of public functions, beside {count['printing']:,} functions that only print and state nothing | {count['contracts']:,} |",
                 f"| laws cited, and fields of records cited one by one | {count['laws']:,} and {count['fields']:,} |",
                 f"| rows of the table of wrong routers, all ruled out by one proof, and further rows beside it, by another | {count['table']:,} and {count['further']:,} |",
                 f"| edits of definitions and code that the prover has to refuse | {count['edits']:,} |"]
        begin, end = text.find(OPENED), text.find(CLOSED)
        if begin < 0 or end < begin:
            return text + f"\n{OPENED}\n{CLOSED}\n"
        return text[: begin + len(OPENED)] + "\n\n" + "\n".join(table) + "\n\n" + text[end:]
