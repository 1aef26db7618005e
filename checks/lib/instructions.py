"""The table of instructions: of each kind, by its number, its name and its operands in the order of the listing, each by what it says; and
of each operand the field of an image in which it stands. All scripts read this one. checks/instructions compares it with the program's
(crates/td_ir/src/opcodes.rt, which is proved to be that of crates/td_ir/specs/Opcodes.antt) and with the pages of docs/language."""

KINDS = (
    ("Const", "into value"),
    ("Member", "into source set"),
    ("Op", "into operator left right"),
    ("Bits", "into source low count"),
    ("Pos", "into"),
    ("Jump", "target"),
    ("JumpIf", "test target"),
    ("JumpUnless", "test target"),
    ("Call", "first routine map site"),
    ("Return", ""),
    ("Fetch", "into order width site"),
    ("SkipK", "bytes site"),
    ("Skip", "size site"),
    ("Rest", ""),
    ("Zeros", "site"),
    ("Zeroterm", "bound width site"),
    ("NarrowK", "bytes site"),
    ("Narrow", "size site"),
    ("Divides", "size step site"),
    ("While", "target"),
    ("Again", "target"),
    ("Widen", "site"),
    ("Fail", "reason site"),
    ("Get", "into cell"),
    ("Set", "source cell"),
    ("Mark", ""),
    ("Copy", "size buffer site"),
    ("Left", "into"),
)
# The fields of an instruction in an image, in their order, with the bytes of each; and the operands that stand in each.
FIELDS = (("x", 1), ("a", 2), ("b", 2), ("c", 2), ("t", 4), ("site", 4), ("k", 8))
HOLDS = {
    "x": "operator low order reason",
    "a": "into first",
    "b": "source left test size bound",
    "c": "right count width cell buffer",
    "t": "set target routine",
    "site": "site",
    "k": "value map bytes step",
}
# Operands that are one register; `first` is that of a call's first argument.
REGISTERS = frozenset("into source left right test size bound".split())
# The operators of `Op`, and the reasons of `Fail`, by their numbers.
SIGNS = ("+", "-", "*", "/", "%", "&", "|", "^", "<<", ">>", "==", "!=", "<", "<=")
REASONS = ("notenough", "impossible", "listsize", "action", "constraint", "padding")

NAMES = tuple(kind for kind, _ in KINDS)
NUMBERS = {kind: number for number, kind in enumerate(NAMES)}
OPERANDS = {kind: tuple(operands.split()) for kind, operands in KINDS}
FIELD_OF = {operand: field for field, operands in HOLDS.items() for operand in operands.split()}
FIELDS_OF = {kind: tuple(FIELD_OF[operand] for operand in operands) for kind, operands in OPERANDS.items()}


def places_of(*wanted: str) -> dict[str, int]:
    """Of each kind that has one of these operands, the place of the first among its own."""
    found = {kind: [k for k, operand in enumerate(operands) if operand in wanted] for kind, operands in OPERANDS.items()}
    return {kind: places[0] for kind, places in found.items() if places}
