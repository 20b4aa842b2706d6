"""Refuses what antt and Rattle allow and the sources do without, so that the reader of the statements takes for code and for comment what the prover does:
comments that are no whole lines, texts over several lines, two items on one line, attributes, macros, and letters and signs other than those below."""
import re
import subprocess

AWK = ".ci/no-public-requires.awk"

# what a name may have beside ASCII: at its end, anywhere, and as its first letter, before nothing, the s of a plural, a prime or what joins a further name
ENDS, INSIDE, FIRST = "₀₁₂₃₄₅₆₇₈₉‵", "◌ℕℤᴰˢ⁻¹→↔≡≢≤⊎⊢∗", "ΓΛαβγκλμτℓ𝓔𝓖𝓛𝓜𝓡𝓣𝓤"
# signs that stand beside no letter, and what comments and sentences have beside all these
ALONE, PROSE = "×∙∵∷⊛⊥⋆←↦⌜⌝⟦⟧«»", "·éⁿ²−≥…"
STRANGE = re.compile(rf"[^\n -~{ENDS}{INSIDE}{FIRST}{ALONE}{PROSE}]")
BREAKS = r"""\s(){}.;,@"«»⌜⌝⟦⟧\[\]"""
WORD = re.compile(rf"[^{BREAKS}]*[^{BREAKS}\x00-\x7f][^{BREAKS}]*")
NAME = re.compile(rf"(?:[!-~{INSIDE}]*|[{FIRST}](?:s|'|[-_][!-~]*)?)[{ENDS}]*|[{ALONE}{INSIDE}_]+")

BLOCK = re.compile(r"\{-|-\}|/\*|\*/")
# of antt: a comment is a whole line, a text ends on its line
COMMENT, TEXT = re.compile(r"(?m)^ *--(?: .*)?$"), re.compile(r'"(?:[^"\\\n]|\\.)*"')
UNUSED_ANTT = re.compile(r"""--.*|["«].*|\b(?:mutual|axiom|package|deriving|pattern)\b(?![-\w])""")
# an open brings names, and a list of rules for a search has one: they stand in no file of statements, nor in one that could be; the proofs of a module, in a
# folder of its own, may have them
OPENED, OF_FUNCTION = re.compile(r"(?<![\w.-])(?:open|using|renaming|hiding|ruleset)(?![\w.-])"), re.compile(r"crates/\w+/proofs/.+/\w+\.antt")
# of Rattle: a comment, a text, which may go on behind a backslash at the end of a line, and a character
BLANKED = re.compile(r"""(?s)//[^\n]*|"(?:[^"\\\n]|\\.)*"|'(?:[^'\\\n]|\\[^'\n]+|\\')'""")
# attributes have lines of their own: for C, what the language derives, and where and how a proof is sought
ATTRIBUTE = re.compile(r"""(?mx)^[ ]*(?:\#\[unsafe\(no_mangle\)\] | \#\[derive\((?:DERIVED)(?:,[ ](?:DERIVED))*\)\] | \#\[cycle\(\w+\)\] | \#!?\[tactic\([^\n"]*\)\])$"""
                       .replace("DERIVED", "Clone|Copy|Debug|Default|Drop|Eq|Hash|Ord|PartialEq|PartialOrd"))
# the kit's macros, under whose names no other can stand: they write code within a function
MACRO = re.compile(r"\b(?:e?print(?:ln)?|format|vec|write(?:ln)?|prove(?:_eq|_ne)?|assert(?:_eq|_ne)?|matches|unreachable)!(?=[(\[])")
UNUSED = re.compile(r"""(?<!&')\b(?:trait|unsafe|static|async|union|dyn|macro_rules)\b|\w!(?!=)|--|#.*|(?<!"C)"(?!C")""")
# every item begins its line and has one of these forms, and their words stand nowhere else
# a parameter of a type may be an impl of a trait, or a number
PARAMETER = re.compile(r"&impl\b|(?<=[<,] )const \w+: usize(?=[,>])|(?<=<)const \w+: usize(?=[,>])")
# an impl, and within one a type and a ghost member, or the ghost field of a struct. Of traits there is one, whose member says what its function returns: others'
# members ask something of callers, or change what a clause means
OF_TYPES = r"impl(?:<[^{};]*?>)? (?:TryFrom<\w+> for )?\w+(?:<[^{};]*>)? \{$| +type \w+ = [\w:<>]+;$| +ghost try_from_gives = \{| +(?:pub(?:\(crate\))? )?ghost \w+: \{"
ITEM = re.compile(rf"""(?m)^(?:{OF_TYPES})|""" + r"""^ *(?:(?:pub(?:\(crate\))? )?(?:(?:fn|extern "C" fn|enum|struct) \w|const \w+:|mod \w+;$|use [\w:]+(?:::\{\s*[\w:]+(?:,\s*[\w:]+)*,?\s*\})?;$)|ghost use \S|pub(?:\(crate\))? \w+: )""")
BEGINS = re.compile(r"\b(?:fn|enum|struct|impl|type|const|mod|use|ghost|pub|extern)\b")


def spaces(found):
    return re.sub(r"[^\n]", " ", found.group())


def blank(source):
    """Code of Rattle with comments, texts and characters blanked out, at the same places."""
    return BLANKED.sub(lambda found: found.group() if found.group() == '"C"' else spaces(found), source)


def wrong_forms(path, source):
    """What is wrong with the form of a source or a list: (line, sentence)."""
    faults = [(found.start(), f"{found.group()} is no mark of a comment here") for found in BLOCK.finditer(source)]
    faults += [(found.start(), f"the sign {ascii(found.group())} is not in use") for found in STRANGE.finditer(source)]
    code = ""
    if path.endswith(".antt"):
        code = TEXT.sub(spaces, COMMENT.sub(spaces, source))
        unused = [UNUSED_ANTT] if OF_FUNCTION.fullmatch(path) else [UNUSED_ANTT, OPENED]
        faults += [(found.start(), f"{found.group()}: a form that is not in use") for form in unused for found in form.finditer(code)]
    elif path.endswith(".rt"):
        code = blank(source)
        faults += _rattle(source, code)
    faults += [(found.start(), f"the name {found.group()} has a sign where it may have none") for found in WORD.finditer(code)
               if not NAME.fullmatch(found.group())]
    return [(source.count("\n", 0, place) + 1, said) for place, said in sorted(faults)]


def _rattle(source, code):
    """What is wrong with the form of a file of Rattle: (place, sentence)."""
    for found in BLANKED.finditer(source):
        line = source.rfind("\n", 0, found.start()) + 1
        text = found.group()
        if text.startswith("//") and (source[line:found.start()].strip() or not re.match("//(?: |$)", text)):
            yield found.start(), "a comment has lines of its own, which begin with // and a space"
        if not text.startswith("//") and (re.search(r"\n *//", text) or re.search(r"[\w#]*$", source[line:found.start()]).group() not in ("", "b")):
            yield found.start(), f"{text}: a text of a form that is not in use"
    for found in UNUSED.finditer(MACRO.sub(spaces, ATTRIBUTE.sub(spaces, code))):
        yield found.start(), f"{found.group()}: a form that is not in use"
    items = [found.span() for form in (ITEM, PARAMETER) for found in form.finditer(code)]
    within = {place for start, end in items for place in range(start, end)}
    for found in BEGINS.finditer(code):
        if found.start() not in within:
            yield found.start(), f"{found.group()} begins no item that the reader knows"


def counted_by_awk(root, *files):
    """How many public functions the gate's own count finds in these files, given with their texts, or what it says."""
    said = subprocess.run(["awk", "-f", AWK, *(path for path, _ in files)], cwd=root, capture_output=True, text=True, check=False).stdout
    number = re.fullmatch(r"no requires: (\d+) public functions\n", said)
    return int(number.group(1)) if number else said.strip()
