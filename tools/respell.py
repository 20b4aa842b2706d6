#!/usr/bin/env python3
"""Spells the definitions and lemmas of crates/ as today's Rattle does, after its own scripts have run.

    python3 tools/respell.py            rewrites crates/*/{specs,proofs,src,must-fail} in place
    python3 tools/respell.py --table    prints each old name and its new one, with a tab between them, and writes nothing

A word in camel case becomes snake case, 'normalForm' normal_form. A dash stays where it joins two names, each of a definition or a type
of this repository or of the library's functions on numbers and lists, as in 'window-normal_form'; any other dash becomes an underscore,
'none-begins' none_begins. Names of types and modules, functions of src/ and names that the library has keep their spelling, and so do
the names that Rattle makes for a walk. Two names that would fall together in a file keep their dashes.
"""

import collections
import glob
import os
import re
import sys

WORD = re.compile(r'[^\s(){}.;,@"«»\[\]`]+')
CODE = re.compile(r'--[^\n]*|\{-.*?-\}|"(?:[^"\\\n]|\\.)*"', re.S)
SPAN = re.compile(r"`[^`\n]+`")
HEAD = re.compile(r"(?m)^([ ]*)((?:(?:pub|unfoldable|abbrev|record|data|mutual|instance)[ ]+)*)([^\s(){}.;,@\"«»:=]+)((?:[ ]+[({][^\n]*?[)}])*)[ ]+:[ ]")
BOUND = re.compile(r"\blet ([^\s(){}.;,@\"«»:=]+)")
# Parts of names that the library spells so now.
PARTS = {"getD": "get_or", "natAbs": "nat_abs", "negℤ": "neg_ℤ", "bitXor": "bit_xor", "bitAnd": "bit_and", "bitOr": "bit_or", "concatMap": "concat_map", "nxt": "nxt"}
# The library's functions that a lemma's name joins.
KIT = set("length take drop map reverse append concat_map get_or sets suc nat_abs neg_ℤ eqb leb ltb replicate bit_xor bit_and bit_or".split())
LIBRARY = "mathlib native lib Prim borrow base contract denote mir prog seplogic sound types logic".split()
CLAUSE = re.compile(r"\b(?:requires|ensures|ghost|invariant)\*?[ \n]*(?:\w+[ \n]*(?::[ \n]*)?)?\{")


def camel(word):
    return bool(re.match(r"[a-z]", word)) and bool(re.search(r"[a-z0-9₀-₉][A-Z]", word))


def snake(part):
    if part in PARTS:
        return PARTS[part]
    if not camel(part):
        return part
    out = re.sub(r"(?<=[a-z0-9₀-₉])([A-Z])(?=[a-z])", lambda m: "_" + m[1].lower(), part)
    out = re.sub(r"(?<=[a-z0-9₀-₉])([A-Z]+)", lambda m: "_" + m[1], out)
    return out


def files(root, pattern):
    return sorted(glob.glob(os.path.join(root, pattern), recursive=True))


def uncommented(text):
    return CODE.sub(lambda m: " " * len(m[0]), text)


class Names:
    """The names that the repository declares, and what each becomes."""

    def __init__(self, root):
        self.antt = files(root, "crates/*/specs/**/*.antt") + files(root, "crates/*/proofs/**/*.antt")
        self.rt = files(root, "crates/*/src/**/*.rt")
        self.edits = files(root, "crates/*/must-fail/*.edit")
        self.text = {p: open(p, encoding="utf-8").read() for p in self.antt + self.rt + self.edits}
        declared, self.defined = collections.Counter(), set()
        for p in self.antt:
            t = uncommented(self.text[p])
            walk = p.endswith("/Proof.antt")
            for m in HEAD.finditer(t):
                if walk and (t.startswith("tie.", m.end()) or m[3].endswith("-spec")):
                    continue
                declared[m[3]] += 1
                if not m[1] and re.search(r"\b(unfoldable|abbrev|record|data)\b", m[2]) and "-" not in m[3] and not walk:
                    self.defined.add(snake(m[3]))
            for m in BOUND.finditer(t):
                declared[m[1]] += 1
        # Binders and variables in camel case or with dashes count as declared too, if no library has the name.
        self.library = set()
        for p in self.antt + self.rt:
            for m in re.finditer(r"\buse ([A-Za-z]+)\.([^\s;{]*)\{([^}]*)\}", self.text[p]):
                kit = m[1] in LIBRARY or (m[1] == "Rattle" and m[2].split(".")[0] in ("std", "core"))
                if kit:
                    self.library |= set(re.split(r"[,\s]+| as ", m[3]))
        for p in self.antt:
            for m in WORD.finditer(uncommented(self.text[p])):
                if camel(m[0].split("-")[0]) and "-" not in m[0] and m[0] not in declared:
                    declared[m[0]] += 1
        # The walks' own names for needs are Rattle's: only what other files declare too is turned there.
        self.table = {}
        for n in declared:
            if n in self.library and declared[n] <= 0:
                continue
            new = self.spelled(n)
            if new != n:
                self.table[n] = new
        self.apart()

    def is_name(self, part):
        return part in self.defined or part in KIT or bool(re.match(r"[A-Z◌⊥⊤≡≤<+∷ℕℤ]", part))

    def spelled(self, name):
        if re.match(r"[A-Z]", name) and "-" not in name:
            return name
        parts = [snake(p) for p in name.split("-")]
        if len(parts) == 1:
            return parts[0]
        if not all(parts):
            return name
        out = parts[0]
        for a, b in zip(parts, parts[1:]):
            out += ("-" if self.is_name(a) and self.is_name(b) else "_") + b
        return out

    def apart(self):
        """Names that would fall together in a file, with another or with one that stays, keep their dashes."""
        words = {}
        for p in self.antt:
            t = uncommented(self.text[p])
            words[p] = {m[0] for m in WORD.finditer(t) if not m.start() or t[m.start() - 1] != "."}
        self.fallen = set()
        for _ in range(4):
            new = collections.defaultdict(set)
            for a, b in self.table.items():
                new[b].add(a)
            clash = set()
            for p, here in words.items():
                for w in here:
                    b = self.table.get(w)
                    if b is None:
                        continue
                    others = (new[b] | {b}) - {w}
                    if others & here:
                        clash.add(w)
            changed = False
            for w in clash:
                kept = "-".join(snake(p) for p in w.split("-"))
                if self.table[w] != kept or w not in self.fallen:
                    changed = changed or self.table[w] != kept
                    self.fallen.add(w)
                    if kept == w:
                        del self.table[w]
                    else:
                        self.table[w] = kept
            if not changed:
                break
        self.clashes = sorted(clash)

    # ---- turning
    def imported(self, text):
        """The names that a file takes from a library."""
        found = set()
        for m in re.finditer(r"\buse ([A-Za-z]+)\.?([^\s;{]*)\{([^}]*)\}", text):
            if m[1] in LIBRARY or (m[1] == "Rattle" and m[2].split(".")[0] in ("std", "core")):
                found |= set(re.split(r"[,\s]+", m[3]))
        return found

    def turned(self, text, kept, walk=False):
        def one(m):
            w = m[0]
            if w in kept or w not in self.table:
                return w
            if walk and m.start() and text[m.start() - 1] == "." and "-" in w and w not in self.fields:
                return w
            return self.table[w]

        return WORD.sub(one, text)

    def antt_file(self, p):
        t, out, at = self.text[p], [], 0
        kept, walk = self.imported(t), p.endswith("/Proof.antt")
        for m in CODE.finditer(t):
            out.append(self.turned(t[at : m.start()], kept, walk))
            said = m[0]
            if said.startswith("--") or said.startswith("{-"):
                said = SPAN.sub(lambda s: self.turned(s[0][:-1], kept) + "`", said)
            out.append(said)
            at = m.end()
        return "".join(out) + self.turned(t[at:], kept, walk)

    def rt_file(self, p):
        t = self.text[p]
        kept = self.imported(t)
        spans = []
        for m in re.finditer(r"ghost use [^;]*;", t):
            spans.append((m.start(), m.end()))
        for m in CLAUSE.finditer(t):
            i, deep = m.end() - 1, 0
            while i < len(t):
                deep += (t[i] == "{") - (t[i] == "}")
                i += 1
                if deep == 0:
                    break
            spans.append((m.start(), i))
        for m in re.finditer(r"//[^\n]*", t):
            for s in SPAN.finditer(m[0]):
                spans.append((m.start() + s.start(), m.start() + s.end() - 1))
        out, at = [], 0
        for a, b in sorted(spans):
            if a < at:
                continue
            out += [t[at:a], self.turned(t[a:b], kept)]
            at = b
        return "".join(out) + t[at:]

    def all(self):
        self.fields = set()
        for p in self.antt:
            t = uncommented(self.text[p])
            for m in re.finditer(r"(?m)^pub record|^record", t):
                body = t[m.start() : t.find("\n\n", m.start()) if "\n\n" in t[m.start() :] else len(t)]
                self.fields |= {h[3] for h in HEAD.finditer(body) if h[1]}
        for p in self.antt:
            yield p, self.antt_file(p)
        for p in self.rt:
            yield p, self.rt_file(p)
        for p in self.edits:
            yield p, re.sub(r"(?m)^(?:old|new):.*$", lambda m: self.turned(m[0], set()), self.text[p])


def main(argv):
    if argv and argv != ["--table"]:
        print(__doc__)
        return 0 if argv == ["--help"] else 2
    names = Names(os.getcwd())
    if argv:
        for a, b in sorted(names.table.items()):
            print(f"{a}\t{b}")
        for w in names.clashes:
            print(f"# falls together: {w}", file=sys.stderr)
        return 0
    n = 0
    for p, new in names.all():
        if new != names.text[p]:
            n += 1
            with open(p, "w", encoding="utf-8") as f:
                f.write(new)
    print(f"{len(names.table)} names, {n} files")
    return 0


if __name__ == "__main__":
    raise SystemExit(main(sys.argv[1:]))
