"""The value of a core expression in whole numbers, and its constant parts."""

from collections.abc import Sequence
from dataclasses import dataclass
from typing import Any


@dataclass(frozen=True)
class Core:
    """A core expression: an operator or `number`, `name`, `choice`, `range`; its type in bits, 1 for a truth value; its parts, and where
    it is in the text. A number has a value; a name has the level of what it names, and the most that this may be."""

    kind: str
    type: int
    parts: list["Core"]
    at: int | None = None
    value: int = 0
    level: int = 0
    most: int = 0


def wrapped(number: int, bits: int) -> int:
    return number % 2**bits


def compare(kind: str, a: int, b: int) -> bool:
    return {"==": a == b, "!=": a != b, "<": a < b, "<=": a <= b, ">": a > b, ">=": a >= b}[kind]


def compute(kind: str, a: int, b: int, core: Core) -> int:
    """Sums, differences and products are those of whole numbers; a divisor of 0 or less gives 0; bits are taken modulo."""
    wide, narrow = core.parts[0].type, core.parts[1].type
    if kind in "+-*":
        return a + b if kind == "+" else a - b if kind == "-" else a * b
    if kind == "/":
        return a // b if b > 0 else 0
    if kind == "%":
        return a % b if b > 0 else 0
    if kind == "<<":
        return wrapped(wrapped(a, wide) << min(wrapped(b, narrow), 64), wide)
    if kind == ">>":
        return wrapped(a, wide) >> min(wrapped(b, narrow), 64)
    a, b = wrapped(a, core.type), wrapped(b, core.type)
    return a & b if kind == "&" else a ^ b if kind == "^" else a | b


def value_of(core: Core, values: Sequence[Any]) -> int:
    """`&&`, `||` and `?:` look at what is needed alone. A truth value is 0 or 1."""
    if core.kind == "number":
        return core.value
    if core.kind == "name":
        return values[core.level]
    if core.kind == "&&":
        return value_of(core.parts[1], values) if value_of(core.parts[0], values) else 0
    if core.kind == "||":
        return 1 if value_of(core.parts[0], values) else value_of(core.parts[1], values)
    if core.kind == "choice":
        return value_of(core.parts[1 if value_of(core.parts[0], values) else 2], values)
    parts = [value_of(part, values) for part in core.parts]
    if core.kind == "!":
        return 1 - parts[0]
    if core.kind == "~":
        return 2**core.type - 1 - wrapped(parts[0], core.type)
    if core.kind == "range":
        size, offset, access = parts
        return int(access <= size and offset <= size - access)
    if core.type == 1:
        return int(compare(core.kind, parts[0], parts[1]))
    return compute(core.kind, parts[0], parts[1], core)


def constant_of(core: Core | None) -> int | None:
    """The value of a part that has literals alone, where each value in it fits its type; None for any other."""
    if core is None or core.kind == "name":
        return None
    if any(constant_of(part) is None for part in core.parts):
        return None
    value = value_of(core, [])
    return value if 0 <= value < 2**core.type else None
