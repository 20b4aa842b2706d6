"""Faults of the edits that the prover has to refuse: an edit that does not say at which input it makes another answer."""
LENGTHS, IDENTITY = "crates/coxeter/must-fail/negatives_counted_in_d.edit", "crates/window/must-fail/identity_for_all_words.edit"

FAULTS = (
    ("an answer that only brackets tell apart", LENGTHS, "with: 2", "with: (0)", r"the answers with and without it are the same"),
    ("an answer that only blanks tell apart", LENGTHS, "with: 2", "with:  0", r"the answers with and without it are the same"),
    ("an answer in other digits", LENGTHS, "with: 2", "with: 0x0", r"0x0 belongs to no value that is written out"),
    ("an edit that names no input", LENGTHS, "~input: .*\\n", "", r"negatives_counted_in_d\.edit:1: there is no line input:"),
    ("an edit with one answer", LENGTHS, "~with: .*\\n", "", r"there is no line with:"),
    ("an edit that changes nothing", LENGTHS, "~with: .*", "with: 0", r"the answers with and without it are the same"),
    ("an edit whose answer is not written out", LENGTHS, "~with: .*", "with: 0 + 0", r"with: \+ belongs to no value that is written out"),
    ("an edit of code that was not tried", IDENTITY, "~tried: .*\\n", "", r"it edits no definition, and no line tried: says how"),
    ("an edit of code that was tried somehow", IDENTITY, "~tried: .*", "tried: ", r"edit:\d+: cannot read tried:"),
    ("an edit with two inputs", LENGTHS, "~(input: .*\\n)", r"\1\1", r"input stands twice"),
    ("an edit with a line of no form", LENGTHS, "~input: ", "inputs: ", r"cannot read inputs:"),
)
