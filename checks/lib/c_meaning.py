"""Written C, run by C's rules (C11): what is undefined ends the run, and so does what such a text has no use for.

Numbers have C's types: an int has 32 bits and is signed, operands are promoted and converted as 6.3.1 says, and an int that overflows is undefined.
A word of a message is read by TD_LOAD alone.
"""

from collections.abc import Callable
from dataclasses import dataclass
from typing import Any, NoReturn, Union

import c_syntax as c

# A loop of more turns is taken for one without an end.
MOST_TURNS = 1 << 20
COMPARISONS: dict[str, Callable[[int, int], bool]] = {
    "==": lambda m, n: m == n,
    "!=": lambda m, n: m != n,
    "<": lambda m, n: m < n,
    "<=": lambda m, n: m <= n,
    ">": lambda m, n: m > n,
    ">=": lambda m, n: m >= n,
}
SUMS: dict[str, Callable[[int, int], int]] = {
    "+": lambda m, n: m + n,
    "-": lambda m, n: m - n,
    "*": lambda m, n: m * n,
    "&": lambda m, n: m & n,
    "|": lambda m, n: m | n,
    "^": lambda m, n: m ^ n,
}


class Undefined(Exception):
    """What the standard leaves undefined, or what such a text has no use for."""


def undefined(what: str) -> NoReturn:
    raise Undefined(what)


class Message:
    """A message's words, which nothing but a load reads."""

    def __init__(self, count: int, load: Callable[[int], int]) -> None:
        self.count, self.load = count, load


@dataclass(frozen=True)
class Place:
    """Where an object lies: in an array by its index, in a struct or a function by its name; or in a message."""

    within: Any
    key: Any
    type: c.Type

    def read(self) -> Any:
        """What lies here; an array is kept as its elements, a struct as its members."""
        if isinstance(self.within, Message):
            undefined("a word that is read without TD_LOAD")
        if isinstance(self.within, list) and not 0 <= self.key < len(self.within):
            undefined("an element behind an array")
        found = self.within[self.key]
        return found if found is not None else undefined("%s is read before it is written" % (self.key,))

    def write(self, value: Any) -> None:
        if isinstance(self.within, Message):
            undefined("a word that is written")
        if isinstance(self.within, list) and not 0 <= self.key < len(self.within):
            undefined("an element behind an array")
        self.within[self.key] = value


@dataclass(frozen=True)
class Value:
    """A number, a text, or a place that a pointer leads to."""

    type: c.Type
    of: Any


def promoted(value: Value) -> Value:
    """6.3.1.1: what has fewer bits than an int becomes an int."""
    if not isinstance(value.type, c.Number):
        undefined("an operand that is no number")
    return Value(c.INT, value.of) if value.type.bits < 32 else value


def converted(value: int, kind: c.Number) -> int:
    """6.3.1.3; a negative number becomes no other one here."""
    if value < 0:
        undefined("a negative number is converted")
    return int(value != 0) if kind == c.BOOL else value % 2**kind.bits


def usual(left: Value, right: Value) -> c.Number:
    """6.3.1.8, of operands that are promoted."""
    for kind in (c.U64, c.U32):
        if kind in (left.type, right.type):
            return kind
    return c.INT


def fitted(kind: c.Number, number: int) -> Value:
    if not kind.is_signed:
        return Value(kind, number % 2**kind.bits)
    return Value(kind, number) if -(2 ** (kind.bits - 1)) <= number < 2 ** (kind.bits - 1) else undefined("an int overflows")


def shifted(sign: str, left: Value, right: Value) -> Value:
    """6.5.7: the type is that of the left operand."""
    assert isinstance(left.type, c.Number)
    if not 0 <= right.of < left.type.bits or left.of < 0:
        undefined("a shift by %d" % right.of)
    return fitted(left.type, left.of << right.of if sign == "<<" else left.of >> right.of)


def combined(sign: str, left: Value, right: Value) -> Value:
    left, right = promoted(left), promoted(right)
    if sign in ("<<", ">>"):
        return shifted(sign, left, right)
    kind = usual(left, right)
    m, n = (converted(it.of, kind) if not kind.is_signed else it.of for it in (left, right))
    if sign in COMPARISONS:
        return Value(c.INT, int(COMPARISONS[sign](m, n)))
    if sign in ("/", "%"):
        if n == 0 or m < 0 or n < 0:
            undefined("a division of %d by %d" % (m, n))
        return fitted(kind, m // n if sign == "/" else m % n)
    return fitted(kind, SUMS[sign](m, n))


def is_taken(kind: c.Type, value: Value, is_numeral: bool) -> bool:
    """Whether a value may be assigned without a cast: a number that isn't narrowed, or a pointer of the same type."""
    if isinstance(kind, c.Number) and isinstance(value.type, c.Number):
        return is_numeral or kind == c.BOOL or value.type.bits <= kind.bits
    return kind == value.type


@dataclass(frozen=True)
class Left:
    """A function is left with this value, or nothing is said where it ends."""

    value: Value


@dataclass(frozen=True)
class Gone:
    label: str


Way = Union[None, Left, Gone]
Scope = dict[str, Any]


class Run:
    """Calls functions of a file."""

    def __init__(self, unit: c.Unit) -> None:
        self.unit = unit

    def call(self, name: str, values: list[Value]) -> Value:
        function = self.unit.functions.get(name) or undefined("no function " + name)
        if len(values) != len(function.parameters):
            undefined("%d arguments of %s" % (len(values), name))
        own = Frame(self, {})
        for (kind, parameter), value in zip(function.parameters, values):
            own.declare(kind, parameter, own.taken(kind, value, False))
        way = own.block(function.body)
        if not isinstance(way, Left):
            undefined("the end of %s without a value" % name)
        return Value(function.result, own.taken(function.result, way.value, False))


class Frame:
    """A call's variables and their types."""

    def __init__(self, run: Run, scope: Scope) -> None:
        self.run, self.scope = run, scope
        self.types: dict[str, c.Type] = {}

    def declare(self, kind: c.Type, name: str, value: Any) -> None:
        if name in self.types:
            undefined("%s is declared twice" % name)
        self.types[name], self.scope[name] = kind, value

    def taken(self, kind: c.Type, value: Value, is_numeral: bool) -> Any:
        """A value as an object of this type keeps it."""
        if not is_taken(kind, value, is_numeral):
            undefined("%s in the place of %s" % (value.type, kind))
        return converted(value.of, kind) if isinstance(kind, c.Number) else value.of

    # ---- Statements

    def block(self, block: c.Block) -> Way:
        sought = None
        for it in block:
            if sought is not None:
                if it == c.Label(sought):
                    sought = None
                continue
            way = self.statement(it)
            if isinstance(way, Gone) and c.Label(way.label) in block:
                sought = way.label
            elif way is not None:
                return way
        return None

    def statement(self, it: c.Statement) -> Way:
        if isinstance(it, c.Assign):
            place = self.place(it.left)
            place.write(self.taken(place.type, self.value(it.right), isinstance(it.right, c.Numeral)))
        elif isinstance(it, c.If):
            return self.block(it.body) if self.is_true(it.test) else None
        elif isinstance(it, c.While):
            return self.turns(it)
        elif isinstance(it, c.Goto):
            return Gone(it.label)
        elif isinstance(it, c.Return):
            return Left(self.value(it.value))
        elif isinstance(it, c.Switch):
            number = promoted(self.value(it.number))
            return self.block(it.body if number.of in it.values else it.other)
        elif isinstance(it, c.Increment):
            place = self.place(it.of)
            place.write(self.taken(place.type, combined("+", Value(place.type, place.read()), Value(c.INT, 1)), False))
        elif isinstance(it, c.Declare):
            self.declared(it)
        return None

    def turns(self, it: c.While) -> Way:
        for _ in range(MOST_TURNS):
            if not self.is_true(it.test):
                return None
            way = self.block(it.body)
            if way is not None:
                return way
        return undefined("a loop without an end")

    def declared(self, it: c.Declare) -> None:
        if isinstance(it.type, c.Array):
            of = it.type.of
            self.declare(it.type, it.name, [self.taken(of, self.value(e), isinstance(e, c.Numeral)) for e in it.values])
            if len(it.values) != it.type.count:
                undefined("%d values for an array of %d" % (len(it.values), it.type.count))
        elif isinstance(it.type, c.Record):
            members = self.run.unit.records[it.type.name]
            if len(it.values) != len(members):
                undefined("%d values for a struct of %d" % (len(it.values), len(members)))
            pairs = zip(members.items(), it.values)
            self.declare(it.type, it.name, {name: self.taken(kind, self.value(e), isinstance(e, c.Numeral)) for (name, kind), e in pairs})
        else:
            self.declare(it.type, it.name, self.taken(it.type, self.value(it.values[0]), True) if it.values else None)

    # ---- Expressions

    def is_true(self, e: c.Expression) -> bool:
        return bool(promoted(self.value(e)).of != 0)

    def place(self, e: c.Expression) -> Place:
        """The object that an expression names (6.3.2.1)."""
        if isinstance(e, c.Name):
            return Place(self.scope, e.name, self.types.get(e.name) or undefined("no variable " + e.name))
        if isinstance(e, c.Unary) and e.sign == "*":
            return self.led(e.of)
        if isinstance(e, c.Index):
            first = self.led(e.of)
            at = promoted(self.value(e.at)).of
            if not isinstance(first.within, (list, Message)):
                undefined("an index into what is no array")
            return Place(first.within, first.key + at, first.type)
        if isinstance(e, c.Member):
            of = self.led(e.of) if e.is_led else self.place(e.of)
            if not isinstance(of.type, c.Record):
                undefined("a member of what is no struct")
            members = self.run.unit.records[of.type.name]
            return Place(of.read(), e.name, members.get(e.name) or undefined("no member " + e.name))
        return undefined("no object")

    def led(self, e: c.Expression) -> Place:
        """Where a pointer leads."""
        value = self.value(e)
        if not isinstance(value.type, c.Pointer) or not isinstance(value.of, Place):
            undefined("no pointer")
        assert isinstance(value.of, Place)
        return value.of

    def value(self, e: c.Expression) -> Value:
        if isinstance(e, c.Numeral):
            return Value(e.type, e.value)
        if isinstance(e, c.Binary):
            return combined(e.sign, self.value(e.left), self.value(e.right))
        if isinstance(e, c.Name) and e.name in self.run.unit.constants:
            return Value(c.INT, self.run.unit.constants[e.name])
        if isinstance(e, c.Cast):
            return Value(e.type, converted(promoted(self.value(e.of)).of, e.type))
        if isinstance(e, c.Choice):
            return self.chosen(e, self.is_true(e.test))
        if isinstance(e, c.Call):
            return self.called(e)
        if isinstance(e, c.Text):
            return Value(c.Pointer(c.CHAR), e.words)
        if isinstance(e, c.Unary) and e.sign == "&":
            place = self.place(e.of)
            return Value(c.Pointer(place.type), place)
        place = self.place(e)
        if isinstance(place.type, c.Array):
            # (an array stands for the place of its first element, 6.3.2.1)
            return Value(c.Pointer(place.type.of), Place(place.read(), 0, place.type.of))
        return Value(place.type, place.read())

    def chosen(self, e: c.Choice, yes: bool) -> Value:
        """6.5.15: one of the two is computed, and has the type that both come to."""
        kind = usual(*(promoted(Value(self.type_of(it), 0)) for it in (e.yes, e.no)))
        value = promoted(self.value(e.yes if yes else e.no))
        return Value(kind, value.of if kind.is_signed else converted(value.of, kind))

    def type_of(self, e: c.Expression) -> c.Type:
        """A number's type, without that it is computed."""
        if isinstance(e, (c.Numeral, c.Cast)):
            return e.type
        if isinstance(e, c.Choice):
            return usual(*(promoted(Value(self.type_of(it), 0)) for it in (e.yes, e.no)))
        if isinstance(e, c.Binary):
            left, right = (promoted(Value(self.type_of(it), 0)) for it in (e.left, e.right))
            return c.INT if e.sign in COMPARISONS else left.type if e.sign in ("<<", ">>") else usual(left, right)
        if isinstance(e, c.Call) and e.function == "TD_SWAP":
            return c.U64
        if isinstance(e, c.Name) and e.name in self.run.unit.constants:
            return c.INT
        return self.place(e).type

    def called(self, e: c.Call) -> Value:
        if e.function == "TD_LOAD":
            [place] = [self.led(argument) for argument in e.arguments]
            if not isinstance(place.within, Message) or not 0 <= place.key < place.within.count:
                undefined("a load of what is no word of the message")
            return Value(c.U64, place.within.load(place.key))
        if e.function == "TD_SWAP":
            [number] = [converted(promoted(self.value(argument)).of, c.U64) for argument in e.arguments]
            return Value(c.U64, int.from_bytes(number.to_bytes(8, "little"), "big"))
        return self.run.call(e.function, [self.value(argument) for argument in e.arguments])
