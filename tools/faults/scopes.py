"""Faults of scope: words that seem bound, or numerals, and are declared in proofs/."""
THEOREMS, CITED, FOLLOWS = "crates/coxeter/proofs/Theorems.antt", "docs/statements.txt", "crates/rules/specs/Demand3.antt"
PASSES = "~pub window_passes : .*"
LAW = "pub window_passes : (k : Kind) (n : ℕ) (u : List ℕ) → "
WRONG = "crates/examples/proofs/Wrong"
EMPTY = "-- No demand.\npub Demand3Holds : Type 0\nDemand3Holds = Unit {0}\n\npub demand3_always : Demand3Holds\ndemand3_always = tt\n"

FAULTS = (
    # numerals
    ("a name that begins with a digit", THEOREMS, PASSES, "8b : Type 0\n8b = Unit {0}\n\n" + LAW + "8b", r"rests on 8b, which .* declares"),
    ("a name of hexadecimal digits", THEOREMS, PASSES, "0b2 : Type 0\n0b2 = Unit {0}\n\n" + LAW + "0b2", r"rests on 0b2, which .* declares"),
    ("a name with two strokes between its digits", THEOREMS, PASSES, LAW + "n ≡ 1__0", r"cannot resolve the word 1__0"),
    # let
    ("a let whose value has its own name", THEOREMS, PASSES, LAW + "let bound = bound in n < bound", r"cannot resolve the word bound"),
    ("a let whose value has the name of a definition of proofs/", THEOREMS, PASSES,
     "bound : Type 0\nbound = Unit {0}\n\n" + LAW + "let bound = bound in bound", r"rests on bound, which .* declares"),
    ("a let in the value of a let", THEOREMS, PASSES, LAW + "let a = let b = a in b in n < a", r"cannot resolve the word a\n"),
    ("a let that leaves its value's binder", THEOREMS, PASSES, LAW + "let a = (λ b. b) in n < b", r"cannot resolve the word b\n"),
    ("a definition's let with its own name", "crates/listing_text/specs/Calls.antt", "let text = lines ed b t i in", "let text = lines ed b t text in",
     r"cannot resolve the word text"),
    # pairs
    ("a pair's binder before an arrow", THEOREMS, PASSES, LAW + "(w : ℕ) × n < w → w < n", r"a binder of × ends before →"),
    ("a pair's binder before an arrow, in a definition", FOLLOWS, "Demand3Holds s = (k n : ℕ) (u : List ℕ) →",
     "Demand3Holds s = (k n : ℕ) (u : List ℕ) → (w : ℕ) × w ≡ n →", r"a binder of × ends before →"),
    ("a pair's binder before an arrow, in brackets", THEOREMS, PASSES, LAW + "((w : ℕ) × n < w → w < n) → n ≡ n", r"a binder of × ends before →"),
    # fields
    ("a field that speaks of a later one", FOLLOWS, "  pub uses-at_most : uses s cs ≤ most\n", "  pub uses-at_most : normal_once ≡ normal_once → uses s cs ≤ most\n",
     r"cannot resolve the word normal_once"),
    ("a field that speaks of itself", FOLLOWS, "  pub uses-at_most : uses s cs ≤ most\n", "  pub uses-at_most : uses-at_most ≡ uses-at_most → uses s cs ≤ most\n",
     r"cannot resolve the word uses-at_most"),
    # imports and binders
    ("an import of proofs/ in specs/", "crates/coxeter/specs/NormalForm.antt", "use Rattle.coxeter.specs.Dictionary.{shortlex}",
     "use Rattle.coxeter.specs.Dictionary.{shortlex}\nuse Rattle.coxeter.proofs.Order as order", r"a file of specs/ imports Rattle\.coxeter\.proofs\.Order"),
    ("an import of another crate's proofs/ in specs/", FOLLOWS, "~\nuse ", "\nuse Rattle.coxeter.proofs.Order as order\nuse ",
     r"a file of specs/ imports Rattle\.coxeter\.proofs\.Order"),
    ("a binder spelled like an import", THEOREMS, PASSES, LAW + "(length : ℕ) → length ≡ length", r"a binder is spelled like length, which the file declares or imports"),
    ("a binder spelled like a declaration", THEOREMS, PASSES, LAW + "(window-normal_form : ℕ) → n ≡ window-normal_form",
     r"a binder is spelled like window-normal_form"),
    ("a binder of a λ spelled like an import", THEOREMS, PASSES, LAW + "map (λ length. length) u ≡ u", r"a binder is spelled like length"),
    ("a binder of a let spelled like an import", THEOREMS, PASSES, LAW + "let length = n in length ≡ n", r"a binder is spelled like length"),
    ("a variable of an equation spelled like an import", "crates/coxeter/specs/NormalForm.antt", "~(\\nuse [^\\n]*Dictionary[^\\n]*\\n)((?s:.*?))(\\nrise )(\\w+)",
     r"\1\2\3shortlex", r"a binder is spelled like shortlex"),
    ("a section's parameter spelled like an import", THEOREMS, "(h : WindowOf k n w) where", "(length : ℕ) (h : WindowOf k n w) where",
     r"a binder is spelled like length"),
    ("a parameter spelled like an import of its contract", "crates/window/src/lib.rt", "pub fn window_of_word(kind: u8, rank: u8, word: &[u8],",
     "pub fn window_of_word(kind: u8, shortlex: u8, word: &[u8],", r"the parameter shortlex is spelled like an import"),
    # wrong routers
    ("a file of wrong routers that is not in the list", (f"{WRONG}Demand.antt", None, EMPTY),
     (CITED, "  rules/proofs/Demand3: demand3\n", "  examples/proofs/WrongDemand: demand3_always\n"), r"rests on Demand3Holds, which .*WrongDemand\.antt"),
    ("a wrong router's law for a clause of demand 3", (f"{WRONG}Routers.antt", "~\\Z", "\n" + EMPTY),
     (CITED, "  rules/proofs/Demand3: demand3\n", "  examples/proofs/WrongRouters: demand3_always\n"), r"D9 cites examples/proofs/WrongRouters, which only section Q may"),
    ("a law over a wrong router's definition", (f"{WRONG}Routers.antt", "~\\Z", "\n" + EMPTY),
     (THEOREMS, "use lib.ListN.{length}", "use lib.ListN.{length}\nuse Rattle.examples.proofs.WrongRouters.{Demand3Holds}"),
     (THEOREMS, PASSES, LAW + "Demand3Holds"), r"rests on Demand3Holds, which .*WrongRouters\.antt"),
    ("a file of wrong routers that is lost", f"{WRONG}Tables.antt", "~(?s).*", None, r"WrongTables\.antt is missing"),
)
