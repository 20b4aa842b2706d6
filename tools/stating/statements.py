"""Finds each cited statement in the sources and reads its words."""
import re
from dataclasses import dataclass, field
from functools import cached_property

from antt import result_of
from citations import CITATIONS, NAMES_BLOCK, SENTENCES, SETTLES, SPECIFICATION, citations_of, sections_of
from crates import wrong_crates
from edits import edits_of
from forms import AWK, OF_FUNCTION
from pinning import Pinning, key_of
from reading import Reader
from scope import RESULT, Fields, Scope, covering, module_of
from specification import wrong_calls, wrong_table
from world import World

# what wrong routers and wrong definitions answer is declared in these files, and only their statements, which only section Q cites, may rest on it
WRONG = "crates/examples/proofs/Wrong"
WRONG_ROUTERS = tuple(f"{WRONG}{name}.antt" for name in (
    "Answers", "Books", "Checks", "Definitions", "DefinitionsAbove", "DefinitionsFurther", "Messages", "Rewrites", "Routers", "Shortest", "Splits", "Tables",
    "Traces", "Windows"))
TABLE, RULED_OUT = f"{WRONG}Answers.antt", f"{WRONG}Routers.antt"
# the clauses whose calls take a value that carries a fact, and so ask for it by their types
FACTS_TAKEN = ("K3", "I36")
# the lists of rows in the first of these, and of each the laws of the second that say how many rows it has and that it is ruled out
LISTS = {"table": ("table-length", "ruled_out"), "further": ("further-length", "further_ruled_out")}
CITING_WRONG = "Q"


@dataclass
class Statement:
    kind: str  # law, contract or field
    name: str
    path: str
    line: int
    before: list  # the texts of the sections around it, or the head of its record
    text: str
    terms: list


@dataclass
class Row:
    name: str
    call: str
    line: int
    list: str


@dataclass
class Model:
    world: World
    sections: list
    cited: dict
    wrong: list = field(default_factory=list)
    statements: dict = field(default_factory=dict)  # (kind, where, name) -> Statement
    definitions: dict = field(default_factory=dict)  # (crate, file, name) -> (declaration, terms)
    types: dict = field(default_factory=dict)  # (crate, name) -> the terms of the facts that a type of Rattle states
    rows: list = field(default_factory=list)
    pins: dict = field(default_factory=dict)  # (crate, file, name) -> what pins the definition, or why it is read
    marks: dict = field(default_factory=dict)  # the name of a clause -> whether it is pinned, and by which laws

    @property
    def clauses(self):
        return [clause for section in self.sections for clause in section.clauses]

    @cached_property
    def citing(self):
        """Of each statement, and of each definition, the clauses that cite it."""
        found = {}
        for clause in self.clauses:
            for key in (key_of(one, name) for one in self.cited.get(clause.name, []) for name in one.names):
                found.setdefault(key, []).append(clause)
        return found

    def terms(self):
        return [term for statement in self.statements.values() for term in statement.terms] + [
            term for _, terms in self.definitions.values() for term in terms] + [term for terms in self.types.values() for term in terms]


def with_comment(declared):
    """The text with the comment above it, at the same indentation."""
    indent = " " * (len(declared.text) - len(declared.text.lstrip()))
    return "\n".join([*(f"{indent}-- {said}".rstrip() for said in declared.comment.split("\n") if declared.comment), declared.text])


def is_law(declared):
    """Whether it is a value that nothing unfolds."""
    return declared.kind == "value" and not {"abbrev", "unfoldable"} & set(declared.marks)


def fields_before(declared, n):
    """The names of a record's fields that its n-th field can speak of."""
    return {one.name for one in declared.members[:n] if one.kind == "field"}


class Builder:
    def __init__(self, root):
        self.world = World(root)
        wrong = [f"{path} is missing" for path in (SPECIFICATION, CITATIONS) if not self.world.exists(path)]
        sections = [] if wrong else sections_of(self.world.read(SPECIFICATION))
        cited, form = ({}, []) if wrong else citations_of(self.world.read(CITATIONS))
        self.model = Model(self.world, sections, cited, wrong + form)
        self.model.wrong += [f"{path} is missing" for path in WRONG_ROUTERS if path not in self.world.sources]
        self.lenient = tuple(path for path in WRONG_ROUTERS if path in self.world.sources)
        self.fields = Fields(self.world, self.lenient)
        self.scopes, self.names = {}, set()

    def _scope(self, path, file):
        """What the words of a file mean; the first time it is also looked at as a whole."""
        if path not in self.scopes:
            self._plain(path, file)
            self.scopes[path] = Scope(self.world, path, file.uses, file.declarations, None, self.lenient if path in self.lenient else ())
        return self.scopes[path]

    def build(self):
        self.model.wrong += [*wrong_crates(self.world), *self.world.forms()]
        self._clauses()
        self._rows()
        self._definitions()
        self._types()
        for clause, citations in self.model.cited.items():
            for citation in citations:
                for name in citation.names:
                    if (citation.kind, citation.where, name) not in self.model.statements:
                        self.model.wrong += [f"{CITATIONS}:{citation.line}: {clause}: {what}" for what in self._cite(citation, name)]
        self._functions()
        self._edits()
        Pinning(self.model).run()
        return self.model

    # -- clauses

    def _clauses(self):
        names = [clause.name for clause in self.model.clauses]
        for clause in self.model.clauses:
            if names.count(clause.name) > 1:
                self.model.wrong.append(f"{SPECIFICATION}:{clause.line}: {clause.name} stands twice")
            if not clause.name.startswith(clause.section.name):
                self.model.wrong.append(f"{SPECIFICATION}:{clause.line}: {clause.name} stands in section {clause.section.name or clause.section.title}")
            if NAMES_BLOCK.search(clause.text) and not clause.block:
                self.model.wrong.append(f"{SPECIFICATION}:{clause.line}: {clause.name} names a table or a listing that is not there")
            for citation in self.model.cited.get(clause.name, []):
                if f"crates/{citation.where}.antt" in WRONG_ROUTERS and clause.section.name != CITING_WRONG:
                    self.model.wrong.append(f"{CITATIONS}:{citation.line}: {clause.name} cites {citation.where}, which only section {CITING_WRONG} may")
            kinds = [citation.kind for citation in self.model.cited.get(clause.name, [])]
            if not any(kind in SETTLES for kind in kinds):
                self.model.wrong.append(f"{SPECIFICATION}:{clause.line}: the clause {clause.name} has no statement in {CITATIONS}")
        for name in self.model.cited:
            if name not in names:
                self.model.wrong.append(f"{CITATIONS}: {SPECIFICATION} has no clause {name}")
        if not names:
            self.model.wrong.append(f"{SPECIFICATION} has no clause")
            return
        self.model.wrong += wrong_calls(self.world, self.model.clauses)
        self.model.wrong += wrong_table(self.world, self.model.clauses, self.world.read(SPECIFICATION))

    # -- what a citation names

    def _cite(self, citation, name):
        kind = citation.kind
        if kind == "definition" and "." in name:
            return self._field(citation, name)
        if kind in SENTENCES:
            missing = [f"no file {citation.where}"] if citation.where and not self.world.exists(citation.where) else []
            return [*missing, *self._spans(citation, name)]
        if kind in ("definition", "law", "vectors", "contract", "code", "type", "row", "edit"):
            return getattr(self, f"_{kind}")(citation, name)
        return []

    def _spans(self, citation, sentence):
        """Names in a sentence that are not there: a file, a function of a crate, or a word that no source has."""
        for span in re.findall(r"`([^`]+)`", sentence):
            of_crate = re.fullmatch(r"(\w+): ([\w, ]+)|(\w+)::(\w+)", span)
            if of_crate:
                crate = of_crate.group(1) or of_crate.group(3)
                for name in (of_crate.group(2) or of_crate.group(4)).split(","):
                    if not self.world.function(crate, name.strip()):
                        yield f"crates/{crate}/src has no function {name.strip()}"
            elif re.fullmatch(r"[\w.-]+(?:/[\w.-]+)+", span):
                if not self.world.exists(span):
                    yield f"no file {span}"
            elif re.fullmatch(r"[\w-]+", span) and span not in self._names() and not self.world.glob(f"{citation.where or 'docs'}/**/{span}*"):
                yield f"nothing is named {span}"

    def _names(self):
        """Every name of specs/ and of Rattle, of a cited law, and the words of other languages that sentences use."""
        if not self.names:
            files = [self.world.antt(path) for path in self.world.specs()]
            self.names |= {declared.name for file in files for declared in file.declarations} | {name for file in files for use in file.uses for name in use.names}
            self.names |= {one.name for crate in self.world.crates for file in self.world.rattle(crate) for one in [*file.functions, *file.types]}
            self.names |= {name for citations in self.model.cited.values() for one in citations if one.kind == "law" for name in one.names}
            self.names |= {*self.world.crates, "requires", "ensures", "stdin", "stdout", "u64", "uint64_t"}
        return self.names

    def _file(self, where):
        return f"crates/{where}.antt", self.world.antt(f"crates/{where}.antt")

    def _definition(self, citation, name):
        path, file = self._file(citation.where)
        if file is None:
            yield f"no file {path}"
        elif name not in file.by_name or file.by_name[name].owner:
            yield f"{path} has no definition {name}"

    def _field(self, citation, name):
        path, file = self._file(citation.where)
        owner, _, member = name.partition(".")
        record = file.by_name.get(owner) if file else None
        found = next((one for one in record.members if one.name == member), None) if record else None
        if found is None:
            yield f"{path} has no field {name}"
            return
        head = record.text.split("\n")[: 1 + next(n for n, line in enumerate(record.text.split("\n")) if "where" in line.split())]
        reader = Reader(self._scope(path, file), self.fields)
        bound = reader.statement(record.signature, self._sections(reader, record))
        reader.statement(found.signature, bound | fields_before(record, record.members.index(found)))
        self.model.wrong += reader.wrong
        self.model.statements["field", citation.where, name] = Statement("field", name, path, found.line, ["\n".join(head)], with_comment(found), reader.terms)

    @staticmethod
    def _sections(reader, declared):
        """What the sections around a declaration bind, and its own levels."""
        bound = set(declared.levels)
        for section in declared.sections:
            bound = reader.statement(section.parameters, bound)
        return bound

    def _law(self, citation, name):
        path, file = self._file(citation.where)
        if file is None:
            yield f"no file {path}"
            return
        found = [one for one in file.declarations if one.name == name and one.kind != "field"]
        if len(found) != 1 or not found[0].public or found[0].kind != "value":
            yield f"{path} has no public law {name}" if len(found) < 2 else f"{path} declares {name} {len(found)} times"
            return
        law = found[0]
        if not is_law(law):
            yield f"{name} of {path} is a definition and no law"
            return
        reader = Reader(self._scope(path, file), self.fields)
        reader.statement(law.signature, self._sections(reader, law))
        self.model.wrong += reader.wrong
        before = [with_comment(section) for section in law.sections]
        self.model.statements["law", citation.where, name] = Statement("law", name, path, law.line, before, with_comment(law), reader.terms)

    def _plain(self, path, file):
        """Nothing in the file may make a word of it mean something else than it seems."""
        own = {declared.name for declared in file.declarations}
        self.model.wrong += [f"{path}: a file of a function's proof has no statements"] if OF_FUNCTION.fullmatch(path) else []
        self.model.wrong += [f"{path}:{line}: cannot read {text}" for line, text in file.unread]
        self.model.wrong += [f"{path}:{line}: {said}" for line, said in covering(file.uses)]
        self.model.wrong += [f"{path}:{line}: a module {name} below a file of statements" for line, name in file.modules if file.declarations]
        self.model.wrong += [f"{path}:{line}: another fixity for {name}" for name, line, _ in file.fixities if name not in own]
        if path.split("/")[2] == "specs":
            self.model.wrong += [f"{path}:{use.line}: a file of specs/ imports {use.module}" for use in file.uses
                                 if "proofs" in use.module.split(".") and (module_of(use.module) or ("",))[0] != "kit"]

    def _vectors(self, citation, name):
        """A table of inputs with their answers, which a law of the same file says agree; or a law."""
        path, file = self._file(citation.where)
        found = file.by_name.get(name) if file else None
        if found is None or not found.public:
            yield f"{path} has no public table or law {name}"
            return
        if result_of(found.signature) == "List" and path != TABLE:
            if not any({"Agree", name} <= {word.name for word in one.signature} for one in file.declarations):
                yield f"no law of {path} says that the inputs of {name} agree"

    def _contract(self, citation, name):
        found = [(file, one) for file, one in self.world.function(citation.where, name) if one.public] if citation.where in self.world.crates else []
        if len(found) != 1:
            yield f"crates/{citation.where}/src has {len(found) or 'no'} public function {name}"
            return
        file, function = found[0]
        self.model.wrong += [f"{file.path}: {said}" for _, said in covering(file.ghosts)]
        scope = Scope(self.world, file.path, file.ghosts, [], file)
        reader = Reader(scope, self.fields)
        self.model.wrong += [f"{file.path}:{function.line}: the parameter {one} is spelled like an import" for one in function.parameters if one in scope]
        self.model.wrong += [f"{file.path}:{function.line}: {RESULT} is spelled like an import"] if RESULT in scope else []
        for kind, clause in function.clauses:
            reader.statement(clause, [*function.parameters, RESULT] if kind == "ensures" else function.parameters)
        self.model.wrong += reader.wrong
        comment = "".join(f"// {said}".rstrip() + "\n" for said in function.comment.split("\n") if function.comment)
        self.model.statements["contract", citation.where, name] = Statement("contract", name, file.path, function.line, [], comment + function.text, reader.terms)

    def _code(self, citation, name):
        path = f"crates/{citation.where}.rt"
        crate = citation.where.split("/")[0]
        if not any(file.path == path for file, _ in self.world.function(crate, name)):
            yield f"{path} has no function {name}"

    def _type(self, citation, name):
        if self.world.type(citation.where, name) is None:
            yield f"crates/{citation.where}/src has no type {name}"

    def _row(self, citation, name):
        if not any(row.name == name for row in self.model.rows):
            yield f"the table of {TABLE} has no row {name}"

    def _edit(self, citation, name):
        if not self.world.exists(f"crates/{citation.where}/must-fail/{name}.edit"):
            yield f"no edit crates/{citation.where}/must-fail/{name}.edit"

    # -- what is there without a citation

    def _rows(self):
        """The rows of the table of wrong routers and of the list beside it: `differ CALL OTHER INPUT`."""
        file, laws = self.world.antt(TABLE), self.world.antt(RULED_OUT)
        for name, (length, _) in LISTS.items():
            declared = file.by_name.get(name) if file else None
            if declared is None:
                self.model.wrong.append(f"{TABLE} has no {name}")
                continue
            rows = [row for _, _, words in declared.equations for row in self._rows_of(name, words)]
            stated = laws.by_name.get(length) if laws else None
            if stated is None or [word.text for word in stated.signature[-4:]] != ["length", name, "≡", str(len(rows))]:
                self.model.wrong.append(f"{name} of {TABLE} has {len(rows)} rows, which is not what {length} of WrongRouters states")
            self.model.rows += rows
        of_rows = [one.name for one in file.declarations if result_of(one.signature) == "List" and one.name not in LISTS and not one.owner
                   and any(word.text == "differ" for _, _, words in one.equations for word in words)] if file else []
        self.model.wrong += [f"{TABLE} has rows in {name} too, which no law counts" for name in of_rows]

    @staticmethod
    def _rows_of(name, words):
        depth = 0
        for n, word in enumerate(words):
            depth += (word.text in "({") - (word.text in ")}")
            if depth == 0 and word.text == "differ":
                yield Row(words[n + 2].name, words[n + 1].name, word.line, name)

    def _definitions(self):
        for path in self.world.specs():
            file = self.world.antt(path)
            scope = self._scope(path, file)
            _, crate, _, name = path.split("/", 3)
            for declared in file.declarations:
                if declared.owner:
                    continue
                reader = Reader(scope, self.fields)
                bound = reader.statement(declared.signature, self._sections(reader, declared))
                for n, member in enumerate(declared.members):
                    reader.statement(member.signature, bound | fields_before(declared, n))
                for _, _, words in declared.equations:
                    reader.equation(words, declared.name)
                self.model.wrong += [said.replace("the statement rests", f"{declared.name} rests") for said in reader.wrong]
                self.model.definitions[crate, name.removesuffix(".antt"), declared.name] = (declared, reader.terms)

    def _types(self):
        """What is true of every value of a type, as its ghost fields state it of the others."""
        for crate in self.world.crates:
            for file in self.world.rattle(crate):
                for made in (one for one in file.types if one.public and one.ghosts):
                    reader = Reader(Scope(self.world, file.path, file.ghosts, [], file), self.fields)
                    for fact in made.ghosts:
                        reader.statement(fact, made.fields)
                    self.model.wrong += reader.wrong
                    self.model.types[crate, made.name] = reader.terms

    def _functions(self):
        """Every public function has a clause that cites its contract; it asks nothing of its caller, and says what it returns and writes."""
        for crate in self.world.crates:
            for file in self.world.rattle(crate):
                for function in (one for one in file.functions if one.public):
                    said = f"{file.path}:{function.line}: the public function {function.name}"
                    kinds = [kind for kind, _ in function.clauses]
                    if ("contract", crate, function.name) not in self.model.statements:
                        self.model.wrong.append(f"{said} has no clause in {CITATIONS}")
                    if "requires" in kinds:
                        self.model.wrong.append(f"{said} has a requires")
                    taken = self._facts_taken(crate, function)
                    allowed = {name for clause in FACTS_TAKEN for one in self.model.cited.get(clause, []) if one.kind == "contract" and one.where == crate
                               for name in one.names}
                    if taken and function.name not in allowed:
                        self.model.wrong.append(f"{said} asks something of its caller by the type {taken}")
                    if re.search(r"->|&(?:'\w+ )?mut ", function.text) and "ensures" not in kinds:
                        self.model.wrong.append(f"{said} has no ensures")
        stated = sum(kind == "contract" for kind, _, _ in self.model.statements)
        counted = self.world.public_functions()
        if counted != stated:
            self.model.wrong.append(f"the pages state {stated} public functions, {AWK} counts: {counted}")

    def _facts_taken(self, crate, function):
        """The first type of a parameter, or of a field of one, that carries a fact: who calls the function owes it."""
        types = {made.name: made for one in self.world.crates for file in self.world.rattle(one) for made in file.types if made.public}
        parameters = re.sub(r"(?s)->.*|\b(?:requires|ensures)\b.*", "", function.text)
        if "self" in function.parameters:
            parameters += " " + function.name.split("::")[0]
        waiting, seen = [name for name in re.findall(r"\w+", parameters.partition("(")[2]) if name in types], set()
        while waiting:
            name = waiting.pop(0)
            if types[name].ghosts:
                return name
            if name not in seen:
                seen.add(name)
                waiting += [other for other in re.findall(r"\w+", types[name].text.partition("{")[2]) if other in types]
        return ""

    def _edits(self):
        cited = {f"crates/{one.where}/must-fail/{name}.edit" for citations in self.model.cited.values() for one in citations if one.kind == "edit"
                 for name in one.names}
        self.model.wrong += [f"{edit.path} is named by no clause in {CITATIONS}" for edit in edits_of(self.world) if edit.path not in cited]
        self.model.wrong += [f"{edit.path}:{said}" for edit in edits_of(self.world) for said in edit.wrong]
