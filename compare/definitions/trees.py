"""Floats as trees of operations, the same for the definitions and for the Rust. Equal trees are one object."""
from fractions import Fraction


class Tree:
    """An operation by name, and what it works on: trees, names, numbers. Also a case of a variant type, with what it carries."""

    known = {}
    __slots__ = ("name", "parts")

    def __new__(cls, name, *parts):
        key = (name, *parts)
        if key not in cls.known:
            tree = super().__new__(cls)
            tree.name, tree.parts = name, parts
            cls.known[key] = tree
        return cls.known[key]

    def __call__(self, *parts):
        """A case of a variant type, given what it carries."""
        return Tree(self.name, *self.parts, *parts)

    def shown(self, depth=4):
        """The tree as text, to a depth."""
        if self.name == "literal":
            return "%.9g" % float(Fraction(self.parts[0], 2**149))
        if not self.parts:
            return self.name
        if depth == 0:
            return self.name + "(..)"
        return "%s(%s)" % (self.name, ", ".join(p.shown(depth - 1) if isinstance(p, Tree) else str(p) for p in self.parts))


def literal(value):
    """The f32 nearest a number from 0 up, a tie to the even one, by its count of units of 2^-149."""
    units = Fraction(value) * 2**149
    shift = max(int(units).bit_length() - 24, 0)
    return Tree("literal", round(units / 2**shift) * 2**shift)


def is_nan(a):
    """Whether a float is NaN: known of the three forms of a float, else a condition to compare."""
    return a.name == "nan" if a.name in ("nan", "inf", "fin") else Tree("is_nan", a)


def is_finite(a):
    """Whether a float is finite; only asked of the three forms of a float."""
    assert a.name in ("nan", "inf", "fin"), "is_finite of " + a.shown()
    return a.name == "fin"


def choose(condition, yes, no):
    """One of two (functions that give it), or, where the condition is a tree, both floats with it."""
    if not isinstance(condition, Tree):
        return yes() if condition else no()
    parts = yes(), no()
    assert all(isinstance(part, Tree) for part in parts), "a choice of no floats"
    return Tree("choose", condition, *parts)
