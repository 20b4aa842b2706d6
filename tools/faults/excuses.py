"""Faults of clauses that a sentence would settle in place of a law."""
CITED = "docs/statements.txt"
O2 = r"~(\nO2\n)(?:  .*\n)+"
LIST = "~without a law, ([0-9]+): (.*)"
WITH_O2 = (CITED, LIST, lambda found: f"without a law, {int(found.group(1)) + 1}: {found.group(2)} O2")

FAULTS = (
    ("a clause with a test in place of its law", CITED, O2, r"\1  tests tests/compare: every word.\n", r"O2 has no law and does not stand in the list"),
    ("a clause with a look of the gate in place of its law", CITED, O2, r"\1  gate .ci/run: all of it.\n", r"O2 has no law and does not stand in the list"),
    ("a clause with an outside sentence in place of its law", CITED, O2, r"\1  outside: Nothing settles it.\n", r"O2 has no law and does not stand in the list"),
    ("a clause with a reason in place of its law", CITED, O2, r"\1  program: It is about order.\n  tests tests/compare: every word.\n",
     r"O2 has no law and does not stand in the list"),
    ("a clause that only the list excuses", (CITED, O2, r"\1  tests tests/compare: every word.\n"), WITH_O2, r"O2 has no law, and no line primitive or program"),
    ("a clause with a law in the list of those without", *WITH_O2, r"O2 has a law and stands in the list"),
    ("a list that is longer than it says", CITED, LIST, r"without a law, \1: \2 O2", r"\d+ clauses without a law, and the list says \d+"),
    ("a clause lost from the list", CITED, LIST, lambda found: f"without a law, {int(found.group(1)) - 1}: {found.group(2).replace(' D10', '')}",
     r"D10 has no law and does not stand in the list"),
    ("a list with a missing clause", CITED, LIST, lambda found: f"without a law, {int(found.group(1)) + 1}: {found.group(2)} O99",
     r"the list of clauses without a law names O99, which is no clause"),
    ("no list of clauses without a law", CITED, LIST, "", r"has no lists of the clauses without a law"),
    ("one more excuse, with its line in the list", (CITED, O2, r"\1  program: It is about order.\n  tests tests/compare: every word.\n"), WITH_O2,
     r"\+\| clauses about code, tests and the way of working, of which no law can speak \| \d+ \|"),
)
