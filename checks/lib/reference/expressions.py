"""Expressions: their sorts, the rules that they obey, and what they stand for.

A sort is None (nothing is known), "untyped" (a number with a broken part), "truth", ("literal", n) or ("typed", bits).
A core expression is a record with `kind`, `type` (its bits; 1 for a truth value), `at`, and its parts.
"""

from typing import Any

from .scopes import bits_of
from .tokens import NUMBER_TYPES
from .values import Core

COMPARED = set("== != < <= > >=".split())


def narrowest(number: int) -> int:
    return next(bits for bits in (8, 16, 32, 64) if number < 2**bits)


def is_number(sort: Any) -> bool:
    return sort == "untyped" or type(sort) is tuple


def type_alone(sort: Any) -> int | None:
    if type(sort) is not tuple:
        return None
    return narrowest(sort[1]) if sort[0] == "literal" else sort[1]


def type_beside(sort: Any, other: Any) -> int | None:
    """A literal has the other side's type where it fits, else the narrowest that holds it; two have the wider of theirs."""
    if type(sort) is not tuple or sort[0] != "literal" or type(other) is not tuple:
        return type_alone(sort)
    if other[0] == "literal":
        return max(narrowest(sort[1]), narrowest(other[1]))
    return other[1] if sort[1] < 2 ** other[1] else narrowest(sort[1])


def number_core(value: int, bits: int, at: int | None) -> Core:
    return Core(kind="number", value=value, type=bits, at=at, parts=[])


def settled(core: Core, bits: int | None) -> Core:
    """A literal in the type that it has here."""
    return number_core(core.value, bits, core.at) if core.kind == "number" and core.type != 1 and bits else core


class Typing:
    """Walks one expression; `sizes` gives the constant size of a type by its number, None where it has none."""

    def __init__(self, known, scope, breaches, sizes):
        self.known, self.scope, self.breaches, self.sizes = known, scope, breaches, sizes

    def size_of(self, tree):
        kind, name, at = tree.operand
        if kind == "INT":
            return NUMBER_TYPES[name][0]
        if kind == "this":
            self.breaches.note_if(self.scope.this is None, "Y3", tree.at)
            return self.scope.this
        found = self.known.find(self.scope, name)
        if found is None:
            self.breaches.note("N1", at)
            return None
        if found.kind in ("number", "enum"):
            return bits_of(found.base) // 8
        if found.kind == "type":
            size = self.sizes(found.number)
            self.breaches.note_if(size is None, "Y3", tree.at)
            return size
        self.breaches.note("Y1", at)
        return None

    def name(self, tree):
        found = self.known.find(self.scope, tree.value)
        if found is None:
            self.breaches.note("N1", tree.at)
        elif found.kind in ("constant", "member"):
            return ("literal", found.value), number_core(found.value, narrowest(found.value), tree.at)
        elif found.kind == "value":
            core = Core(kind="name", level=found.level, type=found.bits, most=found.most, at=tree.at, parts=[])
            return ("typed", found.bits), core
        else:
            self.breaches.note("N3" if found.kind == "none" else "Y1", tree.at)
        return None, None

    def leaf(self, tree):
        if tree.kind == "NUM":
            return ("literal", tree.value), number_core(tree.value, narrowest(tree.value), tree.at)
        if tree.kind in ("true", "false"):
            return "truth", Core(kind="number", value=int(tree.kind == "true"), type=1, at=tree.at, parts=[])
        if tree.kind == "NAME":
            return self.name(tree)
        if tree.kind == "field_pos":
            if self.scope.start is None:
                self.breaches.note("Y4", tree.at)
                return "untyped", None
            core = Core(kind="name", level=self.scope.start, type=32, most=2**32 - 1, at=tree.at, parts=[])
            return ("typed", 32), core
        size = self.size_of(tree)
        if size is None:
            return "untyped", None
        return ("literal", size), number_core(size, narrowest(size), tree.at)

    def wanted(self, tree, sort, truth):
        """A whole expression stands where a truth value is wanted, or where a number is."""
        wrong = is_number(sort) if truth else sort == "truth"
        self.breaches.note_if(wrong, "Y1", tree.first)

    def range_okay(self, tree):
        sorts, cores = zip(*(self.walk(part) for part in tree.parts))
        for part, sort in zip(tree.parts, sorts):
            self.wanted(part, sort, False)
        if None in cores:
            return "truth", None
        size, offset, access = cores
        size = settled(size, type_beside(sorts[0], sorts[2]) if sorts[0][0] == "literal" else None)
        access = settled(access, type_beside(sorts[2], sorts[0]) if sorts[2][0] == "literal" else None)
        wide = max(size.type, access.type)
        if sorts[1][0] == "literal":
            offset = settled(offset, type_beside(sorts[1], ("typed", wide)))
        return "truth", Core(kind="range", type=1, at=tree.at, parts=[size, offset, access])

    def walk(self, tree):
        """The sort and the core expression of a tree; no core where a part is broken."""
        if not tree.parts:
            return self.leaf(tree)
        if tree.kind == "is_range_okay":
            return self.range_okay(tree)
        sorts, cores = zip(*(self.walk(part) for part in tree.parts))
        whole = None not in cores
        note_if = self.breaches.note_if
        if tree.kind == "!":
            note_if(is_number(sorts[0]), "Y1", tree.at)
            return "truth", Core(kind="!", type=1, at=tree.at, parts=list(cores)) if whole else None
        if tree.kind == "~":
            note_if(sorts[0] == "truth", "Y1", tree.at)
            bits = type_alone(sorts[0])
            if bits is None:
                return "untyped", None
            return ("typed", bits), Core(kind="~", type=bits, at=tree.at, parts=list(cores)) if whole else None
        if tree.kind in ("&&", "||"):
            note_if(is_number(sorts[0]) or is_number(sorts[1]), "Y1", tree.at)
            return "truth", Core(kind=tree.kind, type=1, at=tree.at, parts=list(cores)) if whole else None
        if tree.kind == "choice":
            return self.choice(tree, sorts, cores)
        note_if("truth" in sorts, "Y1", tree.at)
        types = type_beside(sorts[0], sorts[1]), type_beside(sorts[1], sorts[0])
        typed = None not in types
        parts = [settled(core, bits if sort[0] == "literal" else None) for core, bits, sort in zip(cores, types, sorts)] if whole and typed else None
        if tree.kind in COMPARED:
            return "truth", Core(kind=tree.kind, type=1, at=tree.at, parts=parts) if parts else None
        if not typed:
            return "untyped", None
        bits = types[0] if tree.kind in ("<<", ">>") else max(types)
        return ("typed", bits), Core(kind=tree.kind, type=bits, at=tree.at, parts=parts) if parts else None

    def choice(self, tree, sorts, cores):
        one, other = sorts[1:]
        mixed = (one == "truth" and is_number(other)) or (is_number(one) and other == "truth")
        self.breaches.note_if(is_number(sorts[0]) or mixed, "Y1", tree.at)
        if mixed:
            return None, None
        if one == "truth" or (one is None and other == "truth"):
            return "truth", self.chosen(tree, cores, 1, (None, None))
        if one is None:
            return other if other is None else "untyped", None
        types = type_beside(one, other), type_beside(other, one)
        if None in types:
            return "untyped", None
        literal = tuple(bits if sort[0] == "literal" else None for bits, sort in zip(types, (one, other)))
        return ("typed", max(types)), self.chosen(tree, cores, max(types), literal)

    def chosen(self, tree, cores, bits, types):
        if None in cores:
            return None
        parts = [cores[0], settled(cores[1], types[0]), settled(cores[2], types[1])]
        return Core(kind="choice", type=bits, at=tree.at, parts=parts)
