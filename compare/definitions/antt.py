"""Reads definitions of crates/*/specs and evaluates them: floats are trees, naturals and truth values Python's, lists and records too.

Expressions are read into functions from the variables' values to the value. A file is read when a name of it is first asked for, a
definition when it is first used, so that forms which no compared definition uses need not be known."""
import os
import re
from fractions import Fraction
from trees import Tree, choose, is_nan, literal
from words import Words, split

TOKEN = re.compile(r"""\s+
    | «(?P<quoted>[^»]+)»
    | (?<=[\w'»)}])\.(?P<field>\w+|«[^»]+»)
    | (?P<number>\d+)
    | (?P<name>[^\W\d][\w'·-]*)
    | (?P<sign>[(){}\[\];,.]|[^\s\w(){}\[\];,.«»]+)""", re.X)

# the library's operators: how tightly they bind, and whether they associate to the left. A file's infix lines add its own
OPERATORS = {"||": (30, True), "&&": (35, True), "==": (40, True), "++": (65, True), "∷": (67, False), "+": (80, True), "-": (80, True),
             "*": (81, True), "/": (81, True), "%": (81, True), "^": (82, False)}


def stored(items, at, values):
    """A list with values stored from a place on; a value past its end is dropped."""
    out = list(items)
    for i, value in enumerate(values):
        if at + i < len(out):
            out[at + i] = value
    return out


# the library's names that the definitions use, each with its number of arguments
LIBRARY = {
    "add": (3, lambda f, a, b: Tree("add", a, b)), "sub": (3, lambda f, a, b: Tree("sub", a, b)),
    "mul": (3, lambda f, a, b: Tree("mul", a, b)), "div": (3, lambda f, a, b: Tree("div", a, b)),
    "neg": (1, lambda a: Tree("neg", a)), "lt": (2, lambda a, b: Tree("lt", a, b)), "is_nan": (1, is_nan),
    "round": (4, lambda f, negative, n, d: literal(Fraction(n, d))), "binary32": (0, None),
    "get_or": (3, lambda items, i, other: items[i] if i < len(items) else other), "length": (1, len),
    "set": (3, lambda items, i, value: stored(items, i, [value])), "sets": (3, stored),
    "take": (2, lambda n, items: items[:n]), "drop": (2, lambda n, items: items[n:]),
    "replicate": (2, lambda n, item: [item] * n), "min": (2, min), "max": (2, max),
    "true": (0, True), "false": (0, False), "not": (1, lambda a: not a), "◌&&◌": (2, lambda a, b: a and b), "◌||◌": (2, lambda a, b: a or b),
    "◌∷◌": (2, lambda a, items: [a] + items), "◌++◌": (2, lambda a, b: a + b),
    "◌+◌": (2, lambda a, b: a + b), "◌-◌": (2, lambda a, b: max(a - b, 0)), "◌*◌": (2, lambda a, b: a * b),
    "◌/◌": (2, lambda a, b: a // b), "◌%◌": (2, lambda a, b: a % b), "◌^◌": (2, lambda a, b: a ** b),
    "zero": (0, 0), "suc": (1, lambda n: n + 1),
}
LIBRARY.update((name, (2, lambda a, b: a == b)) for name in ("eqb", "nat_eq", "◌==◌"))
LIBRARY.update((name, (2, lambda a, b: a <= b)) for name in ("leb", "nat_le"))
LIBRARY.update((name, (2, lambda a, b: a < b)) for name in ("ltb", "nat_lt"))
CASES = ("none", "some", "nan", "inf", "fin")


class Function:
    """A function of so many arguments, given some of them."""

    def __init__(self, arity, run, names=(), given=()):
        self.arity, self.run, self.names, self.given = arity, run, names, given

    def __call__(self, *arguments):
        """Its value at further arguments, or the function that waits for the rest."""
        have = (*self.given, *arguments)
        if len(have) < self.arity:
            return Function(self.arity, self.run, self.names, have)
        value = self.run(*have[:self.arity])
        return value(*have[self.arity:]) if len(have) > self.arity else value


def chunks(text):
    """A file's items: each from an unindented line to the next (a closing bracket goes on), comments blanked."""
    lines = re.sub(r"--[^\n]*", "", text).split("\n")
    out = []
    for line in lines:
        if line[:1].strip(" )]}") or not out:
            out.append(line)
        else:
            out[-1] += "\n" + line
    return out


class Reader(Words):
    """Reads one clause; `module` says what a name means."""

    def __init__(self, module, text):
        words = []
        for kind, word in split(TOKEN, text):
            if kind == "field" and words and words[-1][0] == "name" and words[-1][1] in module.aliases:
                words[-1] = ("name", words[-1][1] + "." + word)  # a name of a file that is called so here
            else:
                words.append(("name" if kind == "quoted" else kind, word.strip("«»")))
        super().__init__(words)
        self.module = module

    def skip_past(self, word):
        """Passes over a type, and the word after it."""
        while not self.took(word):
            self.next()

    def expression(self):
        """let, λ, or operators between applications."""
        if self.peek() == "let":
            return self.let()
        if self.peek() == "λ":
            return self.function()
        return self.operators(0)

    def let(self):
        """let NAME [: TYPE] = VALUE in BODY."""
        self.next("let")
        name = self.next()
        self.skip_past("=")
        value = self.expression()
        self.next("in")
        body = self.expression()
        return lambda env: body({**env, name: value(env)})

    def function(self):
        """λ NAMES. BODY, where a name may stand with its type."""
        self.next("λ")
        names = []
        while not self.took("."):
            typed = self.took("(")
            names.append(self.next())
            if typed:
                self.skip_past(")")
        body = self.expression()
        return lambda env: Function(len(names), lambda *values: body({**env, **dict(zip(names, values))}))

    def operators(self, least):
        """Applications joined by operators that bind at least so tightly."""
        left = self.application()
        while self.peek() in OPERATORS:
            binds, leftwards = OPERATORS[self.peek()]
            if binds < least:
                break
            left = self.joined(self.next(), left, self.operators(binds + 0.5 if leftwards else binds))
        return left

    def joined(self, operator, left, right):
        """An operator's value at both sides."""
        return lambda env: self.module.value("◌%s◌" % operator)(left(env), right(env))

    def application(self):
        """A function at its arguments."""
        head, arguments = self.part(), []
        while self.kind() in ("name", "number") and self.peek() not in ("in", "let") or self.peek() in ("(", "["):
            arguments.append(self.part())
        return self.applied(head, arguments)

    def part(self):
        """An atom, and the projections that stand right behind it."""
        value = self.atom()
        while self.kind() == "field":
            value = self.projected(value, self.next())
        return value

    def applied(self, head, arguments):
        """A head at arguments; `cond` evaluates only the branch it takes."""
        if not arguments:
            return head
        if getattr(head, "word", "") == "cond":
            condition, yes, no = arguments
            return lambda env: choose(condition(env), lambda: yes(env), lambda: no(env))
        return lambda env: head(env)(*[a(env) for a in arguments])

    def projected(self, value, field):
        """A record's field, or a pair's part. An argument that is a record of one float (Pitch, Ratio) is given as that float."""
        def run(env):
            whole = value(env)
            if isinstance(whole, Tree):
                return whole
            return whole[int(field)] if isinstance(whole, tuple) else whole[field]
        return run

    def atom(self):
        """A number, a name, a record, brackets, or a λ as last argument."""
        if self.peek() == "λ":
            return self.function()
        kind, word = self.kind(), self.next()
        if kind == "number":
            return lambda env: int(word)
        if word == "record":
            return self.record()
        if word == "(":
            return self.brackets()
        if word == "[":
            self.next("]")
            return lambda env: []
        assert kind == "name", "%s: %r begins no expression" % (self.module.path, word)
        return self.variable(word)

    def variable(self, word):
        """What is bound to a name here, or what the file means by it."""
        def run(env):
            return env[word] if word in env else self.module.value(word)
        run.word = word
        return run

    def brackets(self):
        """An expression, or a pair."""
        parts = [self.expression()]
        while self.took(","):
            parts.append(self.expression())
        self.next(")")
        return parts[0] if len(parts) == 1 else lambda env: tuple(p(env) for p in parts)

    def record(self):
        """record { FIELD = VALUE; .. }"""
        self.next("{")
        fields = {}
        while not self.took("}"):
            name = self.next()
            self.next("=")
            fields[name] = self.expression()
            self.took(";")
        return lambda env: {name: value(env) for name, value in fields.items()}

    def patterns(self, close):
        """Patterns up to a word: functions that give what a value's parts are bound to, or None if it does not fit."""
        out = []
        while not self.took(close):
            out.append(self.pattern())
        return out

    def pattern(self):
        """A name or a case; in brackets a case with what it carries, a pair, or a list's first and rest."""
        word = self.next()
        if word == "[":
            self.next("]")
            return lambda value: {} if value == [] else None
        if word != "(":
            return self.module.case(word, [])
        if self.peek(1) not in (",", "∷"):
            return self.module.case(self.next(), self.patterns(")"))
        first, sign, second = self.pattern(), self.next(), self.pattern()
        self.next(")")
        if sign == ",":
            return lambda value: fitted((first, second), value)
        return lambda value: fitted((first, second), (value[0], value[1:])) if value else None


def fitted(patterns, values):
    """What patterns bind in values, or None if one does not fit."""
    bound = {}
    for pattern, value in zip(patterns, values):
        found = pattern(value)
        if found is None:
            return None
        bound.update(found)
    return bound


class Module:
    """One file: its definitions' clauses, and where its other names come from."""

    def __init__(self, definitions, path):
        self.definitions, self.path, self.uses, self.clauses, self.values = definitions, path, {}, {}, {}
        self.cases, self.aliases = set(CASES), {}
        crate, file = path.split(".")
        with open(os.path.join(definitions.crates, crate, "specs", file + ".antt"), encoding="utf-8") as text:
            for chunk in chunks(text.read()):
                self.take(chunk)

    def take(self, chunk):
        """Sorts one item of the file."""
        use = re.match(r"(?:pub\s+)?use\s+(\S+?)\.\{([^}]*)\}", chunk)
        alias = re.match(r"use\s+Rattle\.(\w+)\.specs\.(\w+)\s+as\s+(\w+)\s*$", chunk)
        infix = re.match(r"infix([lr]?)\s+(\d+)\s+(.*)", chunk)
        signature = re.match(r"(?:abbrev|unfoldable)\s+(?:pub\s+)?(\S+)", chunk)
        if use:
            self.take_use(use[1], [name.strip().strip("«»") for name in use[2].split(",")])
        elif alias:
            self.aliases[alias[3]] = "%s.%s" % alias.groups()[:2]
        elif infix:
            OPERATORS.update((word.strip("◌"), (int(infix[2]), infix[1] != "r")) for word in infix[3].split())
        elif signature:
            self.clauses[signature[1].strip("«»")] = []
        elif re.match(r"(?:pub\s+)?data\s", chunk):
            self.cases.update(re.findall(r"^\s+(\S+) :", chunk, re.M))
        elif "=" in chunk:
            self.take_clause(chunk)

    def take_use(self, source, names):
        """Notes where names come from: another file or a variant's cases; all others are the library's."""
        ours = re.match(r"Rattle\.(?!std\.)(\w+)\.specs\.(\w+)$", source)
        if source.endswith(".TheVariants"):
            self.cases.update(names)
        elif ours:
            self.uses.update((name, "%s.%s" % ours.groups()) for name in names)
            if any(name.startswith("◌") for name in names):
                self.definitions.module("%s.%s" % ours.groups())  # its infix lines say how to read this file

    def take_clause(self, chunk):
        """Keeps a clause under its definition's name; a lemma's name is not among them."""
        words = chunk.split("=")[0].split()
        name = words[0].strip("«»") if words else ""
        if name not in self.clauses and len(words) == 3:
            name = "◌%s◌" % words[1]
        if name in self.clauses:
            self.clauses[name].append(chunk)

    def case(self, word, inner):
        """A pattern: a case with patterns for what it carries, or a name for anything."""
        if word == "suc":
            return lambda value: fitted(inner, [value - 1]) if value > 0 else None
        if word == "zero" and word not in self.uses:
            return lambda value: {} if value == 0 else None
        if word in ("true", "false"):
            return lambda value: {} if value is (word == "true") else None
        if word in self.cases or word in self.uses and word in self.definitions.module(self.uses[word]).cases:
            return lambda value: fitted(inner, value.parts) if value.name == word else None
        assert not inner, "%s: no case %s is known" % (self.path, word)
        bind = lambda value: {word: value}
        bind.word = word
        return bind

    def value(self, name):
        """What a name means in this file: its own definition, another file's, a case, or the library's."""
        if name in self.values:
            return self.values[name]
        if name in self.clauses:
            value = self.defined(name)
        elif name in self.uses:
            value = self.definitions.module(self.uses[name]).value(name)
        elif name.partition(".")[0] in self.aliases:
            file, _, own = name.partition(".")
            value = self.definitions.module(self.aliases[file]).value(own)
        elif name in self.cases:
            value = Tree(name)
        else:
            assert name in LIBRARY, "%s: nothing is known of %s" % (self.path, name)
            arity, value = LIBRARY[name]
            value = Function(arity, value) if arity else value
        self.values[name] = value
        return value

    def clause(self, name, chunk):
        """A clause's patterns and its body."""
        reader = Reader(self, chunk)
        if name.startswith("◌"):
            left = reader.pattern()
            reader.next(name.strip("◌"))
            patterns = [left, *reader.patterns("=")]
        else:
            reader.next(name)
            patterns = reader.patterns("=")
        body = reader.expression()
        assert reader.kind() == "end", "%s: %s ends before %r" % (self.path, name, reader.peek())
        return patterns, body

    def defined(self, name):
        """A definition's value: the first clause whose patterns fit; or an operation by name, if it is to be opaque."""
        clauses = [self.clause(name, chunk) for chunk in self.clauses[name]]
        names = [getattr(pattern, "word", None) for pattern in clauses[0][0]]

        def run(*values):
            for patterns, body in clauses:
                bound = fitted(patterns, values)
                if bound is not None:
                    return body(bound)
            raise AssertionError("%s.%s has no clause for %s" % (self.path, name, values))

        run = self.definitions.opaque.get("%s.%s" % (self.path, name), run)
        return Function(len(names), run, names) if names else run()


class Definitions:
    """The definitions below a folder of crates. `opaque` gives a Python function in place of a definition, by its full name."""

    def __init__(self, crates, opaque):
        self.crates, self.opaque, self.modules = crates, opaque, {}

    def module(self, path):
        """The file CRATE.FILE."""
        if path not in self.modules:
            self.modules[path] = Module(self, path)
        return self.modules[path]

    def value(self, name):
        """The definition CRATE.FILE.NAME."""
        path, _, name = name.rpartition(".")
        module = self.module(path)
        assert name in module.clauses, "no definition %s in %s" % (name, path)
        return module.value(name)

    def unreached(self):
        """The definitions of the files read that were never asked for."""
        return ["%s.%s" % (path, name) for path, module in self.modules.items() for name in module.clauses if name not in module.values]

    def call(self, name, arguments, others):
        """A definition at arguments chosen by its parameters' names, or by what `others` has for such a name."""
        function = self.value(name)
        words = [others.get(word, word) for word in function.names]
        missing = [word for word in words if word not in arguments]
        assert not missing, "%s: no argument is given for %s" % (name, ", ".join(missing))
        return function(*[arguments[word] for word in words])
