"""Reads functions and constants of the published Rust out of its text and evaluates them: floats are trees, whole numbers, truth values
and arrays Python's, tuples are lists, a struct is a dictionary with its type under the key "".

A function is read when it is first called, so that forms which no compared function uses need not be known."""
import os
import re
from collections import ChainMap
from fractions import Fraction
from functools import partial
from trees import Tree, choose, is_finite, is_nan, literal
from words import Words, split

FILES = ("lane.rs", "lines.rs", "pole_zero.rs", "mod.rs", "extended.rs")  # a later file's names hide an earlier one's

# hand patches of the text, each of which must fit exactly once: file, text, what is read in its place, why
PATCHES = (
    ("extended.rs", "let [s0, s1, s2, ..] = state;", "let (s0, s1, s2) = (&mut state[0], &mut state[1], &mut state[2]);",
     "a pattern over a lent array binds lent elements"),
    ("extended.rs", "let [s0, s1, ..] = state;", "let (s0, s1) = (&mut state[0], &mut state[1]);", "the same"),
    ("pole_zero.rs", "points: std::array::from_fn(|i| {", "points: (0..POINTS).map(|i| {",
     "the array's length stands only in the struct's declaration"),
)

TOKEN = re.compile(r"""\s+ | //[^\n]* | '\w+(?!') | '[^']*' | "(?:[^"\\]|\\.)*"
    | (?P<float>\d[\d_]*\.\d[\d_]*(?:f32)? | \d+e\d+ | \d[\d_]*f32)
    | (?P<whole>\d[\d_]*)
    | (?P<name>[A-Za-z_]\w*)
    | (?P<sign>:: | -> | => | \.\. | << | \+= | == | .)""", re.X)
CLOSING = {"(": ")", "[": "]", "{": "}"}
BINDS = {"==": 1, "<<": 2, "+": 3, "-": 3, "*": 4, "/": 4}
FLOAT_OPERATORS = {"+": "add", "-": "sub", "*": "mul", "/": "div"}
OTHER_OPERATORS = {"+": lambda a, b: a + b, "-": lambda a, b: a - b, "*": lambda a, b: a * b, "<<": lambda a, b: a << b}

# core's constants
NAMED = {name: literal(Fraction(digits)) for name, digits in {
    "PI": "3.14159265358979323846264338327950288", "LN_2": "0.693147180559945309417232121458176568",
    "LOG2_10": "3.32192809488736234787031942948939018", "LOG2_E": "1.44269504088896340735992468100189214",
    "SQRT_2": "1.41421356237309504880168872420969808", "FRAC_1_SQRT_2": "0.707106781186547524400844362104849039"}.items()}
NAMED.update({"true": True, "false": False, "NEG_INFINITY": Tree("inf", True),
              "from_fn": lambda rule: rule})  # std::array::from_fn: `let` makes the array, whose type has its length

# methods of arrays and ranges
LISTS = {
    "iter": lambda items: items, "take": lambda items, n: items[:n], "enumerate": lambda items: list(enumerate(items)),
    "iter_mut": lambda items: [Place(items, i) for i in range(len(items))], "zip": lambda items, others: list(zip(items, others)),
    "map": lambda items, rule: [rule(item) for item in items], "all": lambda items, test: all(test(item) for item in items),
}

# methods that are not in the text: of floats, by document 01's stand-ins, and of whole numbers; the first argument is the Rust
NUMBERS = {
    "max": lambda rust, a, b: Tree("max", a, b), "min": lambda rust, a, b: Tree("min", a, b),
    "clamp": lambda rust, a, low, high: Tree("clamp", a, low, high), "sqrt": lambda rust, a: Tree("root", a),
    "log2": lambda rust, a: Tree("log2", a), "is_nan": lambda rust, a: is_nan(a), "is_finite": lambda rust, a: is_finite(a),
    "exp2": lambda rust, a: rust.call("exp2", a), "exp": lambda rust, a: rust.call("exp2", Tree("mul", a, NAMED["LOG2_E"])),
    "powf": lambda rust, ten, a: rust.power_of_ten(ten, a),
    "wrapping_add": lambda rust, a, b: Tree("wrapping_add", a, b), "div_ceil": lambda rust, a, b: -(-a // b),
}


class Skip(Exception):
    """`continue`."""


def skip(scope):
    """Goes on to the loop's next turn."""
    raise Skip


class Place:
    """A dictionary or list, and the key in it: of a variable, of `&mut x`, of what iter_mut gives; or where `xs[a..]` begins."""

    def __init__(self, holder, key):
        self.holder, self.key = holder, key

    def get(self):
        """What stands there."""
        return Place(self.holder, self.key.start) if isinstance(self.key, slice) else self.holder[self.key]

    def __getitem__(self, index):
        return self.holder[self.key + index]

    def __setitem__(self, index, value):
        self.holder[self.key + index] = value


class Type:
    """A type by its name, with the values of its parameters."""

    def __init__(self, name, **parameters):
        self.name, self.parameters = name, parameters


class Expression:
    """An expression: its value in a scope; its place, if it can be assigned to; its parts, if it is a tuple."""

    def __init__(self, value=None, place=None, parts=None):
        self.value, self.place, self.parts = value or (lambda scope: place(scope).get()), place, parts

    def assign(self, scope, value):
        """Stores a value; into a tuple part by part."""
        if self.parts is None:
            place = self.place(scope)
            place.holder[place.key] = value
        else:
            for part, item in zip(self.parts, value):
                part.assign(scope, item)


def followed(value):
    """What a reference refers to, or the value itself."""
    return value.get() if isinstance(value, Place) else value


def values(expressions, scope):
    """Their values in order."""
    return [expression.value(scope) for expression in expressions]


def copied(value):
    """A value of its own for each element of [value; n]."""
    return [copied(item) for item in value] if isinstance(value, list) else value


def after(words, at):
    """The place after the bracket that closes the one at a place, or after the word there."""
    depth = 0
    while True:
        depth += (words[at][1] in CLOSING) - (words[at][1] in CLOSING.values())
        at += 1
        if depth == 0:
            return at


def find(words, at, signs):
    """The first place from one on where one of some signs stands outside brackets."""
    while words[at][1] not in signs:
        at = after(words, at)
    return at


class Reader(Words):
    """Reads statements, patterns and expressions."""

    def __init__(self, rust, words):
        super().__init__(words)
        self.rust = rust

    def many(self, close, read):
        """A list with commas, to its closing bracket."""
        out = []
        while not self.took(close):
            out.append(read())
            self.took(",")
        return out

    def block(self, close="}"):
        """Statements, the last of which may be the block's value; run in a scope of their own, or within one."""
        steps = []
        while not self.took(close):
            if self.kind() == "end":
                break
            steps.append(self.statement())

        def within(scope):
            result = None
            for step in steps:
                result = step(scope)
            return result
        block = Expression(lambda scope: within(scope.new_child()))
        block.within = within
        return block

    def statement(self):
        """let, for, continue, an assignment, or an expression."""
        if self.took("let"):
            return self.let()
        if self.took("for"):
            return self.loop()
        if self.took("continue"):
            self.next(";")
            return skip
        blocks = self.peek() in ("if", "match")
        left = self.atom(True) if blocks else self.expression()
        sign = self.peek()
        if sign in ("=", "+="):
            self.next()
            right = self.expression()
            self.next(";")
            return lambda scope: left.assign(scope, right.value(scope) if sign == "=" else left.value(scope) + right.value(scope))
        assert self.took(";") or blocks or sign in ("}", ""), "a statement ends before %r" % sign
        return left.value

    def let(self):
        """let PATTERN [: TYPE] = VALUE; an array type makes the array of a rule."""
        pattern = self.pattern()
        typed = self.words[self.at + 1:find(self.words, self.at, ("=",))]
        length = find(typed, 1, (";", "]")) if typed[:1] == [("sign", "[")] else None
        count = Reader(self.rust, typed[length + 1:-1]).expression() if length else None
        self.at = find(self.words, self.at, ("=",)) + 1
        right = self.expression()
        self.next(";")

        def run(scope):
            value = right.value(scope)
            pattern(scope, [value(i) for i in range(count.value(scope))] if count and callable(value) else value)
        return run

    def loop(self):
        """for PATTERN in ITEMS { .. }"""
        pattern = self.pattern()
        self.next("in")
        items = self.expression(False)
        self.next("{")
        body = self.block()

        def run(scope):
            for item in items.value(scope):
                inner = scope.new_child()
                pattern(inner, item)
                try:
                    body.value(inner)
                except Skip:
                    pass
        return run

    def pattern(self):
        """A pattern, as a function that binds in a scope and says whether the value fits: a name, _, a number, a case, brackets."""
        kind, word = self.kind(), self.next()
        if word in ("mut", "&"):
            return self.pattern()
        if word in CLOSING:
            parts = self.many(CLOSING[word], self.pattern)
            return lambda scope, value: all([part(scope, item) for part, item in zip(parts, value)])
        if kind == "whole":
            return lambda scope, value: value == int(word)
        if self.took("("):
            inner = self.pattern()
            self.next(")")
            return lambda scope, value: value is not None and inner(scope, value)  # Some(..)
        if self.took("::"):
            case = Tree(self.next())
            return lambda scope, value: value is case

        def bind(scope, value):
            scope[word] = value
            return True
        return bind

    def expression(self, structs=True):
        """A range, or operators. `structs`: whether a brace after a name is a struct's, as it is not in the head of if, for and match."""
        left = self.operators(1, structs)
        if not self.took(".."):
            return left
        if self.peek() == "]":
            return Expression(lambda scope: slice(left.value(scope), None))
        right = self.operators(1, structs)
        return Expression(lambda scope: range(left.value(scope), right.value(scope)))

    def operators(self, least, structs):
        """Operands joined by operators that bind at least so tightly, to the left."""
        left = self.unary(structs)
        while BINDS.get(self.peek(), 0) >= least:
            sign = self.next()
            left = self.joined(sign, left, self.operators(BINDS[sign] + 1, structs))
        return left

    def joined(self, sign, left, right):
        """An operator between two operands: an operation of floats, or a number."""
        def value(scope):
            a, b = left.value(scope), right.value(scope)
            if sign == "==":
                return a == b
            return Tree(FLOAT_OPERATORS[sign], a, b) if isinstance(a, Tree) else OTHER_OPERATORS[sign](a, b)
        return Expression(value)

    def unary(self, structs):
        """-x, !x, *x, &x, &mut x (an array or a struct is lent as it is), or none of these."""
        if self.peek() not in ("-", "!", "*", "&"):
            return self.suffixes(self.atom(structs))
        sign = self.next()
        lent = self.took("mut")
        inner = self.unary(structs)
        if sign == "-":
            return Expression(lambda scope: Tree("neg", inner.value(scope)))
        if sign == "!":
            return Expression(lambda scope: not inner.value(scope))
        if sign == "*":
            return Expression(lambda scope: followed(inner.value(scope)), inner.value)
        if not lent:
            return inner
        return Expression(lambda scope: inner.place(scope) if isinstance(inner.value(scope), Tree) else inner.value(scope))

    def suffixes(self, left):
        """What stands after an expression."""
        while self.peek() in (".", "(", "[", "as"):
            left = self.suffix(left, self.next())
        return left

    def suffix(self, left, sign):
        """One field, method, call, index or `as f32`."""
        if sign == "[":
            index = self.expression()
            self.next("]")
            return Expression(place=lambda scope: Place(left.value(scope), index.value(scope)))
        if sign == "as":
            self.next("f32")
            return Expression(lambda scope: literal(left.value(scope)))
        name = self.next() if sign == "." else None
        if sign == "." and not self.took("("):
            return Expression(place=lambda scope: Place(left.value(scope), int(name) if name.isdigit() else name))
        arguments = self.many(")", self.expression)
        if name:
            return Expression(lambda scope: self.rust.method(left.value(scope), name, values(arguments, scope)))
        return Expression(lambda scope: left.value(scope)(*values(arguments, scope)))

    def atom(self, structs):
        """A number, brackets, a block, a closure, if, match, a path or a struct."""
        kind, word = self.kind(), self.next()
        if kind in ("float", "whole"):
            digits = word.replace("f32", "").replace("_", "")
            number = literal(Fraction(digits)) if kind == "float" else int(digits)
            return Expression(lambda scope: number)
        forms = {"(": self.tuple, "[": self.array, "{": self.block, "|": self.closure, "if": self.choice, "match": self.match}
        return forms[word]() if word in forms else self.path(word, structs)

    def tuple(self):
        """(A), which is A, or (A, B, ..)"""
        first = self.expression()
        if self.took(")"):
            return first
        self.next(",")
        parts = [first] + self.many(")", self.expression)
        return Expression(lambda scope: values(parts, scope), parts=parts)

    def array(self):
        """[A, B, ..] or [VALUE; COUNT]"""
        first = self.expression()
        if self.took(";"):
            count = self.expression()
            self.next("]")
            return Expression(lambda scope: [copied(first.value(scope)) for _ in range(count.value(scope))])
        self.took(",")
        parts = [first] + self.many("]", self.expression)
        return Expression(lambda scope: values(parts, scope))

    def closure(self):
        """|PARAMETERS| BODY"""
        parameters = []
        while not self.took("|"):
            parameters.append(self.pattern())
            self.at = find(self.words, self.at, (",", "|"))
            self.took(",")
        body = self.expression()

        def run(scope, *arguments):
            inner = scope.new_child()
            for parameter, argument in zip(parameters, arguments):
                parameter(inner, argument)
            return body.value(inner)
        return Expression(lambda scope: partial(run, scope))

    def choice(self):
        """if CONDITION { } else { }, or if let PATTERN = VALUE { }"""
        pattern = self.pattern() if self.took("let") else None
        self.took("=")
        condition = self.expression(False)
        self.next("{")
        yes, no = self.block(), Expression(lambda scope: None)
        if self.took("else"):
            self.next("{")
            no = self.block()

        def value(scope):
            inner, held = scope.new_child(), condition.value(scope)
            return choose(pattern(inner, held) if pattern else held, lambda: yes.value(inner), lambda: no.value(scope))
        return Expression(value)

    def match(self):
        """match VALUE { PATTERN => VALUE, .. }"""
        subject = self.expression(False)
        self.next("{")
        arms = self.many("}", lambda: (self.pattern(), self.next("=>"), self.expression()))

        def value(scope):
            held = subject.value(scope)
            for pattern, _, body in arms:
                inner = scope.new_child()
                if pattern(inner, held):
                    return body.value(inner)
            raise AssertionError("no arm of a match fits")
        return Expression(value)

    def path(self, word, structs):
        """A::B::C, or a struct after it."""
        assert word[0].isalpha() or word[0] == "_", "%r begins no expression" % word
        segments = [word]
        while self.took("::"):
            segments.append(self.next())
        if structs and word[0].isupper() and self.took("{"):
            return self.struct(segments[-1])
        return Expression(lambda scope: self.rust.named(segments, scope),
                          lambda scope: Place(next(part for part in scope.maps if word in part), word))

    def struct(self, name):
        """NAME { FIELD: VALUE, FIELD, .. }"""
        fields = self.many("}", self.field)
        return Expression(lambda scope: {**{field: item.value(scope) for field, item in fields},
                                         "": scope["Self"].name if name == "Self" else name})

    def field(self):
        """A field's name and its expression."""
        name = self.peek()
        self.at += 2 if self.peek(1) == ":" else 0
        return name, self.expression()


class Item:
    """A function, or a constant (which has no parameters): its body's words, read at its first use."""

    def __init__(self, rust, parameters, words):
        self.rust, self.parameters, self.words, self.body = rust, parameters, words, None

    def run(self, owner, arguments=(), variables=None):
        """Its value for a type, at arguments; its own variables are left in `variables`."""
        self.body = self.body or Reader(self.rust, self.words).block()
        scope = ChainMap({} if variables is None else variables)
        scope.update({"L": Type("f32"), "Self": owner, **owner.parameters}, **dict(zip(self.parameters or (), arguments)))
        return self.body.within(scope)


def parameter_names(words):
    """The names of a function's parameters: the first name after each comma outside brackets."""
    names, depth, fresh = [], 0, True
    for kind, word in words:
        if fresh and kind == "name" and word != "mut":
            names.append(word)
            fresh = False
        depth += (word in ("(", "[", "<")) - (word in (")", "]", ">"))
        fresh = fresh or word == "," and depth == 0
    return names


def patched(name, text):
    """A file's text with its hand patches."""
    for file, old, new, _ in PATCHES:
        if file == name:
            assert text.count(old) == 1, "%s: a patch's text stands %d times: %s" % (name, text.count(old), old)
            text = text.replace(old, new)
    return text


class Rust:
    """The published text: its functions and constants by the type or trait they belong to and their name."""

    def __init__(self, folder):
        self.items, self.traits = {}, {}
        for name in FILES:
            with open(os.path.join(folder, name), encoding="utf-8") as file:
                words = split(TOKEN, patched(name, file.read()))
            self.take(words, 0, len(words), None)

    def take(self, words, at, end, owner):
        """Notes the functions and constants between two places."""
        while at < end:
            word, following = words[at][1], words[at + 1] if at + 1 < end else ("end", "")
            if word in ("impl", "trait"):
                at = self.take_owner(words, at)
            elif word == "fn" and following[0] == "name":
                at = self.take_function(words, at, (owner, following[1]))
            elif word == "const" and following[1] != "fn" and words[at - 1][1] not in ("<", ","):
                at = self.take_constant(words, at, (owner, following[1]))
            else:
                at += 1

    def take_owner(self, words, at):
        """impl [TRAIT for] TYPE { .. } or trait TRAIT { .. }"""
        start = find(words, at, ("{",))
        head = re.sub(r"^\w+ (<.*?> (?=[A-Z]))?", "", " ".join(word for _, word in words[at:start]))
        trait, _, owner = head.rpartition(" for ")
        owner = owner.split()[0]
        self.traits.setdefault(owner, []).append(trait)
        self.take(words, start + 1, after(words, start), owner)
        return after(words, start)

    def take_function(self, words, at, key):
        """fn NAME(PARAMETERS) -> TYPE { BODY }"""
        start = find(words, at, ("(",))
        parameters = parameter_names(words[start + 1:after(words, start) - 1])
        start = find(words, after(words, start), ("{", ";"))
        end = after(words, start)
        self.items[key] = Item(self, parameters, words[start + 1:end - 1])
        return end

    def take_constant(self, words, at, key):
        """const NAME: TYPE = VALUE;"""
        start = find(words, at, ("=", ";"))
        end = find(words, start, (";",))
        self.items[key] = Item(self, None, words[start + 1:end])
        return end

    def named(self, segments, scope):
        """What a path means: a variable, an item of a type or of the files, a name of core, or a case."""
        name, owner = segments[-1], Type("")
        if len(segments) == 1 and name in scope:
            return scope[name]
        places = [None]
        if len(segments) > 1:
            owner = scope.get(segments[-2])
            owner = owner if isinstance(owner, Type) else Type(segments[-2])
            places = [owner.name, *self.traits.get(owner.name, ()), None]
        for item in (self.items[place, name] for place in places if (place, name) in self.items):
            return item.run(owner) if item.parameters is None else lambda *arguments: item.run(owner, arguments)
        if name in NAMED:
            return NAMED[name]
        assert len(segments) == 2 and name[0].isupper(), "nothing is known of " + "::".join(segments)
        return Tree(name)

    def method(self, value, name, arguments):
        """A method's value: the text's for a struct or a float, else that of the tables above."""
        if isinstance(value, dict):
            stand_in = {("Lines", "read"): self.ring_read, ("Lines", "write"): self.ring_write}.get((value[""], name))
            return stand_in(value, *arguments) if stand_in else self.items[value[""], name].run(Type(value[""]), (value, *arguments))
        if isinstance(value, Tree) and ("f32", name) in self.items:
            return self.items["f32", name].run(Type("f32"), (value, *arguments))
        return NUMBERS[name](self, value, *arguments) if name in NUMBERS else LISTS[name](value, *arguments)

    def call(self, name, *arguments):
        """A free function at arguments."""
        return self.items[None, name].run(Type(""), arguments)

    def evaluate(self, text, variables):
        """The value of statements in Rust, over variables."""
        return Reader(self, split(TOKEN, text)).block().within(ChainMap(variables, {"L": Type("f32")}))

    def power_of_ten(self, ten, exponent):
        """The stand-in for 10 to a power."""
        assert ten is literal(10)
        return self.call("exp2", Tree("mul", exponent, NAMED["LOG2_10"]))

    def ring_read(self, lines, line, count, io, delay):
        """Lines::read of a whole ring, as an operation by name; lines.buf is one ring a slot here."""
        assert (line, count) == (0, 1)
        back = delay(self.call("ratio_of", io["pitch"], io["ref_over_rate"]), io["character"])
        return Tree("ring_read", lines["len"], lines["cursor"], back, lines["buf"][lines["slot"]])

    def ring_write(self, lines, line, count, value):
        """Lines::write of a whole ring, as an operation by name."""
        assert (line, count) == (0, 1)
        ring = lines["buf"][lines["slot"]]
        lines["buf"][lines["slot"]] = Tree("ring_write", lines["len"], lines["cursor"], value, ring)
