"""The safety rule: facts, ranges, and the first operator that isn't safe, or copy that may find no room.

A fact is a comparison that is known true: (relation, left, right), its sides core expressions.
"""

import dataclasses
from typing import Any

from .errors import ModuleError
from .scopes import bits_of
from .sizes import field_lists
from .values import Core, constant_of

TURNED = {"==": "!=", "!=": "==", "<": ">=", ">=": "<", ">": "<=", "<=": ">"}
SWAPPED = {"==": "==", "!=": "!=", "<": ">", ">": "<", "<=": ">=", ">=": "<="}


# What `key` gives: equal for two expressions that are the same.
Key = tuple[Any, ...]


@dataclasses.dataclass(frozen=True)
class Fact:
    """A comparison that is known true, with the keys of its sides."""

    relation: str
    left: Core
    right: Core
    left_key: Key
    right_key: Key


def key(core: Core) -> Key:
    """Equal for two expressions that are the same: constant parts by their values, each part with its type."""
    value = constant_of(core)
    if value is not None:
        return ("number", core.type, value)
    own = core.level if core.kind == "name" else None
    return (core.kind, core.type, own, *(key(part) for part in core.parts))


def keyed(relation: str, left: Core, right: Core) -> Fact:
    return Fact(relation, left, right, key(left), key(right))


def facts_of(core: Core, holds: bool) -> list[Fact]:
    """The conjuncts that are known where a truth value holds, or where it doesn't."""
    if core.kind == "!":
        return facts_of(core.parts[0], not holds)
    if core.kind == ("&&" if holds else "||"):
        return facts_of(core.parts[0], holds) + facts_of(core.parts[1], holds)
    if core.kind == "range" and holds:
        size, offset, access = core.parts
        rest = Core(kind="-", type=max(size.type, access.type), at=core.at, parts=[size, access])
        return [keyed("<=", access, size), keyed("<=", offset, rest)]
    if core.kind in TURNED:
        return [keyed(core.kind if holds else TURNED[core.kind], *core.parts)]
    return []


def cut(core: Core, low: int, high: int, facts: list[Fact]) -> tuple[int, int]:
    mine = key(core)
    for fact in facts:
        for relation, side, other in ((fact.relation, fact.left_key, fact.right), (SWAPPED[fact.relation], fact.right_key, fact.left)):
            bound = constant_of(other)
            if side != mine or bound is None:
                continue
            if relation in ("<", "<=", "=="):
                high = min(high, bound - (relation == "<"))
            if relation in (">", ">=", "=="):
                low = max(low, bound + (relation == ">"))
    return low, high


def plain_range(core, facts):
    value = constant_of(core)
    if value is not None:
        return value, value
    if core.kind == "name":
        return 0, core.most
    most = 2**core.type - 1
    if core.kind == "choice":
        test, one, other = core.parts
        low, high = range_of(one, facts + facts_of(test, True))
        least, greatest = range_of(other, facts + facts_of(test, False))
        return min(low, least), max(high, greatest)
    if core.kind not in ("+", "-", "*", "/", "%", "&", ">>"):
        return 0, most
    low, high = range_of(core.parts[0], facts)
    least, greatest = range_of(core.parts[1], facts)
    return {
        "+": (low + least, high + greatest),
        "-": (max(0, low - greatest), high - least),
        "*": (low * least, high * greatest),
        "/": (0, high),
        "%": (0, min(high, greatest - 1)),
        "&": (0, min(high, greatest)),
        ">>": (0, high),
    }[core.kind]


def range_of(core, facts):
    low, high = plain_range(core, facts)
    return cut(core, low, high, facts)


def says(facts, relations, left, right):
    """A fact has this form, from either side."""
    left, right = key(left), key(right)
    for fact in facts:
        if fact.relation in relations and (fact.left_key, fact.right_key) == (left, right):
            return True
        if SWAPPED[fact.relation] in relations and (fact.right_key, fact.left_key) == (left, right):
            return True
    return False


def bounds_sum(facts, a, b, bits):
    """A fact is `a <= c - b`, with c no wider than the sum's type."""
    for fact in facts:
        if fact.relation == "<=" and fact.left_key == key(a) and fact.right.kind == "-" and constant_of(fact.right) is None:
            c, taken = fact.right.parts
            if key(taken) == key(b) and c.type <= bits:
                return True
    return False


def is_safe(core, facts):
    a, b = core.parts
    low, high = range_of(a, facts)
    least, greatest = range_of(b, facts)
    if core.kind == "-":
        return low >= greatest or says(facts, ("<=", "<", "=="), b, a)
    if core.kind == "+":
        fits = high + greatest < 2**core.type
        return fits or bounds_sum(facts, a, b, core.type) or bounds_sum(facts, b, a, core.type)
    if core.kind == "*":
        return high * greatest < 2**core.type
    if core.kind in ("/", "%"):
        zero = Core(kind="number", type=b.type, value=0, parts=[])
        return least >= 1 or any(says(facts, ("!=",), b, dataclasses.replace(zero, type=bits)) for bits in (8, 16, 32, 64))
    return greatest < a.type


def unsafe(core, facts):
    """The operators of an expression that aren't safe: (place, words of the rule)."""
    if core is None:
        return
    if core.kind in ("+", "-", "*", "/", "%", "<<", ">>") and not is_safe(core, facts):
        yield core.at, "unsafe " + core.kind
    more = [facts] * len(core.parts)
    if core.kind in ("&&", "||"):
        more[1] = facts + facts_of(core.parts[0], core.kind == "&&")
    if core.kind == "choice":
        more[1], more[2] = facts + facts_of(core.parts[0], True), facts + facts_of(core.parts[0], False)
    for part, known in zip(core.parts, more):
        yield from unsafe(part, known)


def block_unsafe(statements, facts):
    for statement in statements:
        if statement[0] == "set":
            yield from unsafe(statement[2], facts)
        elif statement[0] == "return":
            yield from unsafe(statement[1], facts)
        elif statement[0] == "if":
            yield from unsafe(statement[1], facts)
            yield from block_unsafe(statement[2], facts + facts_of(statement[1], True))
            yield from block_unsafe(statement[3], facts + facts_of(statement[1], False))


def has_room(field, facts):
    """Whether a copied field's greatest size fits its buffer."""
    return range_of(field.extent[1], facts)[1] <= field.copy.room


def value_range(element, facts):
    """Between which numbers the value of a field without bytes lies: in its expression's range, and in that one's type."""
    low, high = range_of(element.core, facts)
    return low, min(high, 2**element.core.type - 1)


def given_unsafe(element, facts):
    """A value that comes of an expression is safe, and fits its field: nothing is cut."""
    yield from unsafe(element.core, facts)
    if value_range(element, facts)[1] >= 2 ** bits_of(element.base):
        yield element.first, "unsafe ="


def facts_of_value(element, facts):
    """What is known of a field without bytes: both ends of its value's range, where they are numbers of its type."""
    bits = bits_of(element.base)
    low, high = value_range(element, facts)
    name = Core(kind="name", level=element.level, type=bits, most=2**bits - 1, parts=[], at=element.at)
    ends = ((">=", low), ("<=", high))
    return [keyed(relation, name, Core(kind="number", value=end, type=bits, parts=[])) for relation, end in ends if 0 <= end < 2**bits]


def fields_unsafe(fields, facts):
    for field in fields:
        for core in getattr(field.element, "arguments", []):
            yield from unsafe(core, facts)
        yield from unsafe(field.extent[1], facts)
        if field.element.kind == "given" and field.element.core is not None:
            yield from given_unsafe(field.element, facts)
            facts = facts + facts_of_value(field.element, facts)
        if field.copy is not None and not has_room(field, facts):
            yield field.copy.at, "room"
        for part in field.parts:
            if part.refinement is not None:
                yield from unsafe(part.refinement, facts)
                facts = facts + facts_of(part.refinement, True)
            if part.action is not None:
                yield from block_unsafe(part.action, facts)


def type_unsafe(made):
    facts = []
    if made.guard is not None:
        yield from unsafe(made.guard, [])
        facts = facts_of(made.guard, True)
    yield from unsafe(made.switch, facts)
    for fields in field_lists(made):
        yield from fields_unsafe(fields, facts)


def module_unsafe(types):
    """Type by type, each by places."""
    for made in types:
        yield from sorted(type_unsafe(made))


def safety_breaches(types):
    for at, words in module_unsafe(types):
        yield ModuleError("A2" if words == "room" else "A1", at, words)


def check_safety(types):
    for breach in safety_breaches(types):
        raise breach
