"""Walks through a statement and says of each word that the statement and its section do not bind what it is. What binds a word is spelled like nothing that the
file declares or imports, so that no word can seem to be bound and be something else."""
from scope import NUMERAL, Refused, Unresolved, parts

OPEN, CLOSE = "({[", ")}]"


class Reader:
    """Walks through the tokens of a statement with the variables bound so far, and gathers the terms."""

    def __init__(self, scope, fields):
        self.scope, self.fields = scope, fields
        self.terms, self.wrong = [], []

    def _bind(self, env, token):
        """The name is bound from here on."""
        if token.name in self.scope:
            self.wrong.append(f"{self.scope.path}:{token.line}: a binder is spelled like {token.name}, which the file declares or imports")
        env.add(token.name)

    def _take(self, token, resolve):
        try:
            terms = resolve()
        except Unresolved as word:
            self.wrong.append(f"{self.scope.path}:{token.line}: cannot resolve the word {word}")
        except Refused as word:
            self.wrong.append(f"{self.scope.path}:{token.line}: the statement rests on {word}")
        else:
            self.terms += [term for term in terms if term not in self.terms]

    def _tree(self, tokens):
        """Tokens with each bracketed part as a list that begins with its opening bracket."""
        stack = [[]]
        for token in tokens:
            if token.text in OPEN:
                stack.append([token])
            elif token.text in CLOSE and len(stack) > 1:
                group = stack.pop()
                stack[-1].append(group)
            else:
                stack[-1].append(token)
        while len(stack) > 1:
            group = stack.pop()
            stack[-1].append(group)
        return stack[0]

    def statement(self, tokens, bound=()):
        """Reads a type or a term; what it binds outside all brackets comes back."""
        return self._walk(self._tree(tokens), set(bound))

    def equation(self, tokens, defined, bound=()):
        """Reads a defining equation of the word `defined`: the names before its '=' that are no constructors are bound in what follows."""
        tree = self._tree(tokens)
        at = next((n for n, item in enumerate(tree) if not isinstance(item, list) and item.text == "="), len(tree))
        env = self._pattern(tree[:at], set(bound), parts(defined))
        self._walk(tree[at + 1:], env)

    def _pattern(self, items, env, defined=()):
        n = 0
        while n < len(items):
            item = items[n]
            if isinstance(item, list):
                env = self._pattern(item[1:], env, defined)
            elif item.text not in (",", ";", "="):
                following = items[n + 1: n + 3]
                if len(following) == 2 and not isinstance(following[0], list) and following[0].text == "." and not isinstance(following[1], list):
                    self._take(item, lambda: self.scope.qualified(item.name, following[1].name))
                    n += 3
                    continue
                if item.name in defined or self.scope.is_constructor(item.name):
                    self._take(item, lambda: self.scope.word(item.name))
                else:
                    self._bind(env, item)
            n += 1
        return env

    @staticmethod
    def _names_before(items, mark):
        """The words of a group `(x y : T)` before its ':' and the place behind it, or None."""
        names = []
        for n, item in enumerate(items):
            if isinstance(item, list) or item.text in ("let", "λ", ".", ",", ";", "elim", "record"):
                return None
            if item.text == mark:
                return (names, n + 1) if names else None
            names.append(item)
        return None

    def _walk(self, items, env):
        start, pair = set(env), False
        n = 0
        while n < len(items):
            item = items[n]
            if isinstance(item, list):
                grown = self._group(item, env)
                pair = pair or grown is not env and n + 1 < len(items) and not isinstance(items[n + 1], list) and items[n + 1].text == "×"
                env = grown
                n += 1
                continue
            text = item.text
            if pair and text in ("→", "↔"):
                self.wrong.append(f"{self.scope.path}:{item.line}: a binder of × ends before {text}: it needs brackets around all that it binds")
            if text in (",", ";"):
                env, pair = set(start), False
            elif text == "λ":
                n, env = self._binders(items, n + 1, env)
                continue
            elif text == "let":
                n, env = self._let(items, n + 1, env)
                continue
            elif text == "record" and n + 1 < len(items) and isinstance(items[n + 1], list):
                self._record(items[n + 1], env)
                n += 2
                continue
            elif text == "elim":
                pass
            elif text == ".":
                n = self._projection(items, n)
                continue
            elif n + 2 < len(items) and self._is_dot(items, n) and item.name not in env and self.scope.is_module(item.name):
                other = items[n + 2]
                self._take(item, lambda: self.scope.qualified(item.name, other.name))
                n += 3
                continue
            elif item.name not in env:
                self._take(item, lambda: self.scope.word(item.name))
            n += 1
        return env

    @staticmethod
    def _is_dot(items, n):
        dot, other = items[n + 1], items[n + 2]
        return not isinstance(dot, list) and dot.text == "." and not dot.spaced and not isinstance(other, list) and not other.spaced

    def _projection(self, items, n):
        following = items[n + 1] if n + 1 < len(items) else None
        if following is None or isinstance(following, list):
            return n + 1
        if not NUMERAL.fullmatch(following.text):
            self._take(following, lambda: self.fields.of(following.name, self.scope))
        return n + 2

    def _group(self, group, env):
        """A bracketed part; names that it binds by `(x : T)` are bound in what follows."""
        inside = group[1:]
        if group[0].text == "[":
            self._cases(inside, env)
            return env
        found = self._names_before(inside, ":")
        if found:
            names, at = found
            self._walk(inside[at:], set(env))
            env = set(env)
            for name in names:
                self._bind(env, name)
            return env
        if group[0].text == "{":
            named = self._names_before(inside, "=")
            self._walk(inside[named[1]:] if named else inside, set(env))
            return env
        self._walk(inside, set(env))
        return env

    def _binders(self, items, n, env):
        env = set(env)
        while n < len(items) and (isinstance(items[n], list) or items[n].text != "."):
            env = self._binder(items[n], env)
            n += 1
        return n + 1, env

    def _binder(self, item, env):
        """A word, a group `(x : T)` or a pattern that a λ or a let binds."""
        if not isinstance(item, list):
            self._bind(env, item)
        elif self._names_before(item[1:], ":"):
            env = self._group(item, env)
        else:
            env = self._pattern(item[1:], env)
        return env

    def _let(self, items, n, env):
        """`let x : T = e in ..`: x is bound behind the `in` alone."""
        texts = [None if isinstance(item, list) else item.text for item in items]
        depth, end = 1, n
        while end < len(items) and depth:
            depth += (texts[end] == "let") - (texts[end] == "in")
            end += 1
        sign = next((at for at in range(n, end) if texts[at] in (":", "=")), n)
        if sign != n + 1 or depth:
            line = next((item.line for item in items[n:] if not isinstance(item, list)), 0)
            self.wrong.append(f"{self.scope.path}:{line}: cannot read the let")
        self._walk(items[sign + 1:end - 1], set(env))
        return end, self._binder(items[n], set(env))

    def _record(self, group, env):
        part = []
        for item in [*group[1:], None]:
            if item is not None and (isinstance(item, list) or item.text != ";"):
                part.append(item)
                continue
            if part:
                name = part[0]
                self._take(name, lambda: self.fields.of(name.name, self.scope))
                self._walk(part[2:], set(env))
            part = []

    def _cases(self, items, env):
        part = []
        for item in [*items, None]:
            if item is not None and (isinstance(item, list) or item.text != "|"):
                part.append(item)
                continue
            at = next((n for n, one in enumerate(part) if not isinstance(one, list) and one.text == "↦"), None)
            if at is not None:
                self._walk(part[at + 1:], self._pattern(part[:at], set(env)))
            elif part:
                self._walk(part, set(env))
            part = []
