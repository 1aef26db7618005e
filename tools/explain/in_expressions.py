"""What is written instead of expressions and statements that the grammar doesn't have. A rule gives None where it doesn't fit."""

from types import SimpleNamespace as Advice

from . import cells

COMPARISONS = ("==", "!=", "<", "<=", ">", ">=")


def advise(said, *edits):
    return Advice(said=said, edits=edits)


def in_expression(here):
    return here.innermost() == "whole"


def chained(here):
    if not in_expression(here) or here.kind not in COMPARISONS or "&&" not in here.asked:
        return None
    middle, begin = here.word(-1), here.begin()
    if here.kind_at(1) in ("true", "false"):
        return advise("A truth value isn't compared: write it alone, or behind `!`.", (begin, here.end(1), ""))
    said = "Comparisons don't chain: write `%s && %s %s %s`." % (here.source(here.first_of("whole"), -1), middle, here.kind, here.word(1))
    return advise(said, (begin, begin, "&& %s " % middle))


def assignment_for_comparison(here):
    if here.kind != "=" or not in_expression(here):
        return None
    said = "A single `=` stands in actions alone, where it stores: to compare, write `%s == %s`." % (here.word(-1), here.word(1))
    return advise(said, (here.begin(), here.end(), "=="))


def member_of_list(here):
    if here.word() != "in" or not in_expression(here) or here.kind_at(1) not in ("(", "{", "["):
        return None
    name, at, values = here.word(-1), 2, []
    while here.kind_at(at) in ("NUM", "NAME"):
        values.append(here.word(at))
        at += 2 if here.kind_at(at + 1) == "," else 1
    if not values:
        return advise("There is no `in`: compare with each value, joined by `||`, or give the field an enum's type.")
    tests = " || ".join("%s == %s" % (name, value) for value in values)
    said = "There is no `in`: write `%s`, or list the values in an enum and give `%s` its type." % (tests, name)
    return advise(said, (here.begin(-1), here.end(at), tests))


def cell_read(here):
    """`*v` where a value stands."""
    if here.kind != "*" or here.kind_at(1) != "NAME" or "NUM" not in here.asked or not in_expression(here):
        return None
    module, cell, opening = here.module, here.word(1), here.first_of("whole") - 1
    if here.inside("statement"):
        begin = here.begin(here.first_of("statement"))
        said = cells.read_before(module, cell, begin, lambda name: (here.begin(), here.end(1), name))
    elif here.kind_at(opening) == "{" and here.matching(opening) is not None:
        said = cells.tested_in_action(module, cell, here.index + opening, here.index + here.matching(opening))
    else:
        said = ["mend: %s." % cells.ELSEWHERE]
    return advise("A cell is read in an action alone: " + said[0].removeprefix("mend: "))


def cast(here):
    """`(UINT8) n`."""
    if here.kind != "INT" or here.kind_at(-1) != "(" or not in_expression(here) or here.kind_at(1) != ")":
        return None
    said = "There are no casts. The narrower side is widened by itself; to work a sum or a product out in more bits, `n & 0xffff` has 16, and"
    said += " `n & 0xffffffff` has 32. Nothing makes a value narrower: let the cell or the parameter be as wide as what it takes."
    return advise(said)


def c_sizeof(here):
    if here.word(-2) == "sizeof" and here.kind_at(-1) == "(":
        return advise("`sizeof` is of a type by its name, or of `this`: write `sizeof(T)`.")
    if here.word(-1) == "sizeof" and here.kind in ("INT", "NAME"):
        return advise("Write `sizeof(%s)`." % here.word(), (here.begin(), here.end(), "(%s)" % here.word()))
    return None


def element(here):
    """`data[0]`."""
    if here.kind != "[" or not in_expression(here) or here.kind_at(-1) != "NAME":
        return None
    said = "The bytes of an array have no names: give the one that is tested a field of its own, as `UINT8 %s0; UINT8 %s[5];`," % (here.word(-1), here.word(-1))
    return advise(said + " and name that; to test every element, give them a struct type with a refinement.")


def call(here):
    if here.kind != "(" or not in_expression(here) or here.kind_at(-1) != "NAME":
        return None
    if here.word(-1) == "field_ptr_after":
        return advise("There is no `field_ptr_after`: let a `unit end {:act *p = field_ptr;};` follow, whose place that is.")
    return advise("There are no functions: write the expression out where it is used.")


def record_field(here):
    if here.kind != "->":
        return None
    if here.inside("statement") or in_expression(here):
        return advise("A record's field isn't read, and is written by `%s->%s = ..;` alone: keep a cell beside the record." % (here.word(-1), here.word(1)))
    return None


def step(here):
    """`x++`, `x += 1`, `-1`."""
    if here.kind in ("+", "-") and here.kind_at(1) == here.kind:
        return advise("There is no `%s%s`: write `var v = *p; *p = v + 1;`, with a test before it that the sum fits." % (here.kind, here.kind))
    if here.kind in ("+", "-", "*", "|", "&", "^", "<<", ">>") and here.kind_at(1) == "=" and here.inside("statement"):
        cell = here.source(-2, -1) if here.kind_at(-2) == "*" else here.word(-1)
        return advise("There is no `%s=`: write `var v = %s; %s = v %s ..;`." % (here.kind, cell, cell, here.kind))
    if here.kind == "-" and "NUM" in here.asked:
        return advise("There are no negative numbers: all are unsigned. Write the number that the bytes hold, as `0xffff`, or a difference.")
    return None


def otherwise_if(here):
    if here.kind != "if" or here.kind_at(-1) != "else":
        return None
    said = "There is no `else if`: write `else { if (..) { .. } }`."
    closing = end_of_if(here, 0)
    if closing is None:
        return advise(said)
    return advise(said, (here.begin(), here.begin(), "{ "), (here.end(closing), here.end(closing), " }"))


def end_of_if(here, offset):
    """The last token of the `if` at an offset, with its branches."""
    test = here.matching(offset + 1)
    block = here.matching(test + 1) if test is not None else None
    if block is None or here.kind_at(test + 1) != "{" or here.kind_at(block + 1) != "else":
        return block
    return end_of_if(here, block + 2) if here.kind_at(block + 2) == "if" else here.matching(block + 2)


def block_without_braces(here):
    if "{" not in here.asked or here.kind == "{" or here.innermost() not in ("statement",):
        return None
    if here.kind_at(-1) == "else" or here.kind_at(-1) == ")":
        end = here.up_to(";")
        edits = [(here.begin(), here.begin(), "{ "), (here.end(end), here.end(end), " }")] if end is not None else []
        return advise("What an `if` or `else` governs stands in braces: write `{ %s }`." % here.source(0, end or 0), *edits)
    return None


def variable(here):
    if here.innermost() != "statement" or here.word(here.first_of("statement")) != "var" or "*" not in here.asked:
        return None
    said = "A `var` reads a cell alone, `var %s = *p;`: write the expression where `%s` is used." % (here.word(-2), here.word(-2))
    return advise(said)


def loop(here):
    first = here.first_of("statement") if here.inside("statement") else 0
    if here.word(first) in ("for", "while", "do", "switch", "goto"):
        return advise("Actions have no loops and no jumps: `if` and `else` alone; what is done for each element stands in the element's type.")
    if here.word(first) in ("UINT8", "UINT16", "UINT32", "UINT64") and here.inside("field"):
        return advise("A variable is `var v = *p;`, without a type, and reads a cell.")
    return None


def bare_assignment(here):
    """`x = 1;` in an action."""
    if here.innermost() == "statement" and here.kind == "=" and "->" in here.asked:
        said = "Actions store to cells: write `*%s = ..;`, where `%s` is a `mutable` parameter." % (here.word(-1), here.word(-1))
        return advise(said, (here.begin(-1), here.begin(-1), "*"))
    return None


def dot(here):
    """A dot that joins no two names: `r.f = 1;`, `1.5`, the name of what is defined."""
    if here.kind != ".":
        return None
    if here.innermost() == "statement" and "->" in here.asked:
        said = "A record's field is written by `->`: write `%s->%s`." % (here.word(-1), here.word(1))
        return advise(said, (here.begin(), here.end(), "->"))
    if here.kind_at(-1) == "NUM":
        return advise("Numbers are whole: take the dot out.")
    if here.kind_at(-2) == ".":
        return advise("A name has one dot at most, behind its part's: `%s.%s`." % (here.word(-3), here.word(-1)))
    return advise("A name with a dot is one that another part defines: what is named here has letters, digits and `_` alone.")


def returned_nothing(here):
    if here.kind == ";" and here.kind_at(-1) == "return":
        return advise("A `return` gives a truth value: `return true;` goes on, `return false;` fails as `action`.", (here.end(-1), here.end(-1), " true"))
    return None


RULES = [
    cell_read,
    chained,
    assignment_for_comparison,
    member_of_list,
    cast,
    c_sizeof,
    element,
    call,
    record_field,
    step,
    otherwise_if,
    block_without_braces,
    variable,
    loop,
    bare_assignment,
    dot,
    returned_nothing,
]
