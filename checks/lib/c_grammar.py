"""The C that is written, read by C's own grammar (C11, 6.5 to 6.9), as far as that text uses it. Nothing here comes of what writes it.

What such a text has no use for is refused: a loop that isn't `while`, a declaration behind a statement, a label or a case twice, a `goto` that
leads backward.
"""

from collections.abc import Iterable

from c_syntax import (
    INT,
    NUMBERS,
    U32,
    U64,
    Array,
    Assign,
    Binary,
    Block,
    Call,
    Cast,
    Choice,
    Declare,
    Expression,
    Function,
    Goto,
    If,
    Increment,
    Index,
    Label,
    Member,
    Name,
    Number,
    Numeral,
    Pointer,
    Record,
    Return,
    Statement,
    Switch,
    Text,
    Type,
    Unary,
    Unit,
    While,
)
from c_tokens import Directives, Refused

# From the weakest to the strongest (6.5.5 to 6.5.12).
LEVELS = (("|",), ("^",), ("&",), ("==", "!="), ("<", "<=", ">", ">="), ("<<", ">>"), ("+", "-"), ("*", "/", "%"))
# Words that change no value.
NO_MEANING = {"static", "inline", "const", "TD_LOOK_AT_ANSWER"}


class Parser:
    def __init__(self, tokens: Iterable[str]) -> None:
        self.tokens, self.at, self.unit = list(tokens), 0, Unit()
        self.typedefs: dict[str, Number] = {}

    def peek(self, ahead: int = 0) -> str:
        return self.tokens[self.at + ahead] if self.at + ahead < len(self.tokens) else ""

    def take(self, *wanted: str) -> str:
        """The next token; one of these, if any are named."""
        token = self.peek()
        if not token or (wanted and token not in wanted):
            raise Refused("%r in place of %s" % (" ".join(self.tokens[self.at : self.at + 8]), " or ".join(wanted)))
        self.at += 1
        return token

    def is_next(self, token: str) -> bool:
        if self.peek() == token:
            self.at += 1
            return True
        return False

    def word(self) -> str:
        token = self.take()
        if not (token[0].isalpha() or token[0] == "_"):
            raise Refused("%r is no name" % token)
        return token

    # ---- Types and declarations

    def number_type(self, name: str) -> Number | None:
        return NUMBERS.get(name) or self.typedefs.get(name)

    def begins_type(self) -> bool:
        return self.peek() in NO_MEANING or self.peek() == "struct" or self.number_type(self.peek()) is not None

    def type(self) -> Type:
        while self.peek() in NO_MEANING:
            self.take()
        if self.is_next("struct"):
            found: Type = Record(self.word())
        else:
            number = self.number_type(self.peek())
            if number is None:
                raise Refused("%r is no type" % self.peek())
            found = number
            self.take()
        while self.is_next("*"):
            found = Pointer(found)
        return found

    def declarator(self, of: Type) -> tuple[Type, str]:
        name = self.word()
        if self.is_next("["):
            of = Array(of, int(self.take()))
            self.take("]")
        return of, name

    def attributes(self) -> None:
        while self.is_next("__attribute__"):
            depth = 0
            while True:
                depth += {"(": 1, ")": -1}.get(self.take(), 0)
                if depth == 0:
                    break

    def parse(self) -> Unit:
        while self.peek():
            self.external()
        return self.unit

    def external(self) -> None:
        """A struct, a typedef of an enum, a prototype or a function (6.9)."""
        self.attributes()
        if self.peek() == "struct" and self.peek(2) == "{":
            return self.record()
        if self.is_next("typedef"):
            return self.enum()
        result = self.type()
        self.attributes()
        name = self.word()
        parameters = self.parameters()
        if name in self.unit.functions or self.unit.prototypes.setdefault(name, parameters) != parameters:
            raise Refused("declared twice: " + name)
        if not self.is_next(";"):
            body = self.block()
            check_labels(body)
            self.unit.functions[name] = Function(name, result, parameters, body)
        return None

    def record(self) -> None:
        self.take("struct")
        name, members = self.word(), dict[str, Type]()
        self.take("{")
        while not self.is_next("}"):
            kind, member = self.declarator(self.type())
            self.take(";")
            if member in members:
                raise Refused("a member twice: " + member)
            members[member] = kind
        self.take(";")
        if name in self.unit.records:
            raise Refused("a struct twice: " + name)
        self.unit.records[name] = members

    def enum(self) -> None:
        for word in ("enum", "{"):
            self.take(word)
        while not self.is_next("}"):
            constant = self.word()
            self.take("=")
            self.unit.constants[constant] = int(self.take())
            self.is_next(",")
        self.typedefs[self.word()] = U32
        self.take(";")

    def parameters(self) -> tuple[tuple[Type, str], ...]:
        self.take("(")
        found = [self.declarator(self.type())]
        while self.is_next(","):
            found.append(self.declarator(self.type()))
        self.take(")")
        if len({name for _, name in found}) != len(found):
            raise Refused("two parameters of one name")
        return tuple(found)

    # ---- Expressions (6.5)

    def expression(self) -> Expression:
        test = self.binary(0)
        if not self.is_next("?"):
            return test
        yes = self.expression()
        self.take(":")
        return Choice(test, yes, self.expression())

    def binary(self, level: int) -> Expression:
        if level == len(LEVELS):
            return self.unary()
        left = self.binary(level + 1)
        while self.peek() in LEVELS[level]:
            left = Binary(self.take(), left, self.binary(level + 1))
        return left

    def unary(self) -> Expression:
        if self.peek() in ("*", "&"):
            return Unary(self.take(), self.unary())
        number = self.number_type(self.peek(1))
        if self.peek() == "(" and number is not None and self.peek(2) == ")":
            self.at += 3
            return Cast(number, self.unary())
        return self.postfix(self.primary())

    def postfix(self, found: Expression) -> Expression:
        while self.peek() in ("[", "->", "."):
            sign = self.take()
            if sign == "[":
                found = Index(found, self.expression())
                self.take("]")
            else:
                found = Member(found, self.word(), sign == "->")
        return found

    def primary(self) -> Expression:
        if self.is_next("("):
            found = self.expression()
            self.take(")")
            return found
        token = self.take()
        if token.startswith('"'):
            return Text(token[1:-1])
        if token.isdigit():
            return decimal(token)
        if token in ("true", "false"):
            return Numeral(int(token == "true"), INT)
        if token == "UINT64_MAX":
            return Numeral(2**64 - 1, U64)
        if token == "UINT64_C":
            self.take("(")
            value = int(self.take())
            self.take(")")
            return Numeral(fitting(value, U64), U64)
        return Call(token, self.arguments()) if self.is_next("(") else Name(token)

    def arguments(self) -> tuple[Expression, ...]:
        found: list[Expression] = []
        while not self.is_next(")"):
            if found:
                self.take(",")
            found.append(self.expression())
        return tuple(found)

    # ---- Statements (6.8)

    def block(self) -> Block:
        self.take("{")
        found: list[Statement] = []
        while not self.is_next("}"):
            found.append(self.statement())
            if isinstance(found[-1], Declare) and not all(isinstance(it, Declare) for it in found):
                raise Refused("a declaration behind a statement")
        return tuple(found)

    def statement(self) -> Statement:
        token = self.peek()
        if token in ("if", "while"):
            return self.condition()
        if token == "switch":
            return self.switch()
        if self.begins_type():
            return self.declare()
        if self.peek(1) == ":":
            label = self.word()
            self.take(":")
            self.take(";")
            return Label(label)
        found: Statement
        if self.is_next("goto"):
            found = Goto(self.word())
        elif self.is_next("return"):
            found = Return(self.expression())
        else:
            left = self.unary()
            found = Assign(left, self.expression()) if self.take("=", "++") == "=" else Increment(left)
        self.take(";")
        return found

    def condition(self) -> Statement:
        word = self.take("if", "while")
        self.take("(")
        test = self.expression()
        self.take(")")
        return If(test, self.block()) if word == "if" else While(test, self.block())

    def switch(self) -> Switch:
        for word in ("switch", "("):
            self.take(word)
        number = self.expression()
        for word in (")", "{"):
            self.take(word)
        values: list[int] = []
        while self.is_next("case"):
            value = self.primary()
            if not isinstance(value, Numeral):
                raise Refused("a case that is no numeral")
            values.append(value.value)
            self.take(":")
        if len(set(values)) != len(values):
            raise Refused("two cases of one value")
        body = self.broken() if values else ()
        self.take("default")
        self.take(":")
        other = self.broken()
        self.take("}")
        return Switch(number, frozenset(values), body, other)

    def broken(self) -> Block:
        """Statements up to a `break`."""
        found = []
        while not self.is_next("break"):
            found.append(self.statement())
        self.take(";")
        return tuple(found)

    def declare(self) -> Declare:
        kind, name = self.declarator(self.type())
        values: list[Expression] = []
        if self.is_next("="):
            if isinstance(kind, Number):
                values.append(self.expression())
            else:
                self.take("{")
                values.append(self.expression())
                while self.is_next(","):
                    values.append(self.expression())
                self.take("}")
        self.take(";")
        return Declare(kind, name, tuple(values))


def decimal(token: str) -> Numeral:
    """A decimal numeral that is an int (6.4.4.1); a larger one would be a long, of which such a text has none."""
    if token != "0" and token.startswith("0"):
        raise Refused("an octal numeral: " + token)
    return Numeral(fitting(int(token), INT), INT)


def fitting(value: int, kind: Number) -> int:
    if value >= 2 ** (kind.bits - kind.is_signed):
        raise Refused("a numeral of more bits than %s has: %d" % (kind.name, value))
    return value


def parts_of(block: Block) -> list[Block]:
    """The blocks that stand in a block."""
    found: list[Block] = []
    for it in block:
        if isinstance(it, (If, While)):
            found.append(it.body)
        elif isinstance(it, Switch):
            found += [it.body, it.other]
    return found


def all_labels(block: Block) -> list[str]:
    return [it.name for it in block if isinstance(it, Label)] + [label for part in parts_of(block) for label in all_labels(part)]


def check_labels(body: Block) -> None:
    """Each label is in its function once, and each `goto` leads to one behind it, in its block or in one around it."""
    labels = all_labels(body)
    if len(set(labels)) != len(labels):
        raise Refused("a label twice")
    check_ways(body, frozenset())


def check_ways(block: Block, outside: frozenset[str]) -> None:
    """`outside`: labels that stand behind, in blocks around it."""
    behind = outside
    for it in reversed(block):
        if isinstance(it, Label):
            behind |= {it.name}
        elif isinstance(it, Goto) and it.label not in behind:
            raise Refused("a way to %s, which isn't behind it" % it.label)
        for part in parts_of((it,)):
            # (no way leads out of a loop)
            check_ways(part, frozenset() if isinstance(it, While) else behind)


def unit_of(text: str, headers: dict[str, str]) -> Unit:
    """What a file of written C declares."""
    return Parser(Directives(headers).tokens(text)).parse()
