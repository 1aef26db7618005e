"""What the C that is written may say: types, expressions, statements, and what a file declares."""

from dataclasses import dataclass
from typing import Union

# ---- Types


@dataclass(frozen=True)
class Number:
    name: str
    bits: int
    is_signed: bool = False


@dataclass(frozen=True)
class Pointer:
    to: "Type"


@dataclass(frozen=True)
class Array:
    of: "Type"
    count: int


@dataclass(frozen=True)
class Record:
    name: str


Type = Union[Number, Pointer, Array, Record]
INT, BOOL, CHAR = Number("int", 32, True), Number("bool", 1), Number("char", 8, True)
U8, U16, U32, U64 = (Number("uint%d_t" % bits, bits) for bits in (8, 16, 32, 64))
NUMBERS = {number.name: number for number in (INT, BOOL, CHAR, U8, U16, U32, U64)}

# ---- Expressions


@dataclass(frozen=True)
class Numeral:
    value: int
    type: Number


@dataclass(frozen=True)
class Text:
    words: str


@dataclass(frozen=True)
class Name:
    name: str


@dataclass(frozen=True)
class Unary:
    """`*a` or `&a`."""

    sign: str
    of: "Expression"


@dataclass(frozen=True)
class Binary:
    sign: str
    left: "Expression"
    right: "Expression"


@dataclass(frozen=True)
class Choice:
    test: "Expression"
    yes: "Expression"
    no: "Expression"


@dataclass(frozen=True)
class Cast:
    type: Number
    of: "Expression"


@dataclass(frozen=True)
class Call:
    function: str
    arguments: tuple["Expression", ...]


@dataclass(frozen=True)
class Index:
    of: "Expression"
    at: "Expression"


@dataclass(frozen=True)
class Member:
    """`a->name`, or `a.name`."""

    of: "Expression"
    name: str
    is_led: bool


Expression = Union[Numeral, Text, Name, Unary, Binary, Choice, Cast, Call, Index, Member]

# ---- Statements


@dataclass(frozen=True)
class Declare:
    """A variable, with its value, with values in braces, or with none."""

    type: Type
    name: str
    values: tuple[Expression, ...]


@dataclass(frozen=True)
class Assign:
    left: Expression
    right: Expression


@dataclass(frozen=True)
class Increment:
    of: Expression


@dataclass(frozen=True)
class If:
    test: Expression
    body: "Block"


@dataclass(frozen=True)
class While:
    test: Expression
    body: "Block"


@dataclass(frozen=True)
class Switch:
    """A number's values with what is done at them, and what is done else."""

    number: Expression
    values: frozenset[int]
    body: "Block"
    other: "Block"


@dataclass(frozen=True)
class Label:
    name: str


@dataclass(frozen=True)
class Goto:
    label: str


@dataclass(frozen=True)
class Return:
    value: Expression


Statement = Union[Declare, Assign, Increment, If, While, Switch, Label, Goto, Return]
Block = tuple[Statement, ...]


@dataclass(frozen=True)
class Function:
    name: str
    result: Type
    parameters: tuple[tuple[Type, str], ...]
    body: Block


class Unit:
    """What a file declares: structs with their members, constants of enums, functions."""

    def __init__(self) -> None:
        self.records: dict[str, dict[str, Type]] = {}
        self.constants: dict[str, int] = {}
        self.functions: dict[str, Function] = {}
        self.prototypes: dict[str, tuple[tuple[Type, str], ...]] = {}
