"""What names stand for, and the breaches of rules."""

from collections.abc import Mapping
from types import SimpleNamespace as Record
from typing import Any

from .errors import ModuleError
from .tokens import NUMBER_TYPES

RULES = {
    "N1": "unknown name",
    "N2": "name twice",
    "N3": "not readable",
    "N4": "wrong arguments",
    "Y1": "type mismatch",
    "Y2": "does not fit",
    "Y3": "not constant",
    "Y4": "bad action",
}


class Breaches:
    """The rules that are broken. Of the part that is taken first the earliest place is named, and of several rules there the first."""

    def __init__(self) -> None:
        self.found: list[tuple[int, int, str]] = []
        self.turn = 0

    def note(self, rule: str, at: int) -> None:
        self.found.append((self.turn, at, rule))

    def note_if(self, test: object, rule: str, at: int) -> None:
        if test:
            self.note(rule, at)

    def in_order(self) -> list[ModuleError]:
        """A refusal for each, the first that is named first. Of one rule at one place there is one."""
        return [ModuleError(rule, at, RULES[rule]) for _, at, rule in sorted(set(self.found))]

    def refuse_first(self) -> None:
        for refusal in self.in_order()[:1]:
            raise refusal


# What the name of a definition, a constant or a member stands for: `kind` is constant, member, number, enum, type, record.
# `definition` is the number in the text of the definition that it names; a member names none.
def meaning(kind: str, definition: int | None, **parts: Any) -> Record:
    return Record(kind=kind, definition=definition, **parts)


# What a parameter, a field or a `var` stands for: `kind` is value (a number at a level of the scope), none (a field that
# is no number), cell (an out-parameter that is one cell), row (an output record's cells) or buffer (a copy buffer of a room).
def local(kind: str, **parts: Any) -> Record:
    return Record(kind=kind, **parts)


class Scope:
    """The local names, and how many values stand in scope. A block's scope is a copy."""

    def __init__(self, names: Mapping[str, Record] | None = None, levels: int = 0, start: int | None = None, this: int | None = None) -> None:
        self.names, self.levels, self.start, self.this = dict(names or {}), levels, start, this

    def copy(self) -> "Scope":
        return Scope(self.names, self.levels, self.start, self.this)

    def add_value(self, name: str, bits: int, most: int) -> None:
        self.names[name] = local("value", level=self.levels, bits=bits, most=most)
        self.levels += 1

    def add_none(self, name: str) -> None:
        self.names[name] = local("none")
        self.levels += 1


def full_name(part: str | None, name: str) -> str:
    """The name of a definition, as it is known in all parts: a qualified name already says its part."""
    return name if part is None or "." in name else part + "." + name


class Known:
    """What is known after the definitions so far, each by its full name; and the part that is looked at, None in a module without."""

    def __init__(self) -> None:
        self.globals: dict[str, Record] = {}
        self.used: set[str] = set()
        self.count = 0
        self.part: str | None = None
        self.types: list[Record] = []
        self.entries: list[int] = []

    def full(self, name: str) -> str:
        return full_name(self.part, name)

    def own(self, name: str) -> Record | None:
        """What a name stands for where no local has it."""
        return self.globals.get(self.full(name))

    def find(self, scope: Scope, name: str) -> Record | None:
        """A local hides a definition."""
        return scope.names.get(name) or self.own(name)


def bits_of(type_name: str) -> int:
    return 8 * NUMBER_TYPES[type_name][0]
