"""What is written instead of parts of fields and cases that the grammar doesn't have. A rule gives None where it doesn't fit."""

import re

from types import SimpleNamespace as Advice

BRACKETS = {
    "consume-all": "There is no `[:consume-all]`: bytes to the end are `all_bytes %s;`; where the rest has elements, take the message's length as"
    " a parameter, and write `[:byte-size length - sizeof(this)]`.",
    "byte-size-at-most": "There is no `[:byte-size-at-most]`: an element and what fills the rest is a struct that ends in `all_bytes`, in"
    " `%s[:byte-size-single-element-array e]`.",
    "zeroterm": "A text up to a zero has a bound: write `%s[:zeroterm-byte-size-at-most 64]`.",
    "suffix": "There is no `[:suffix]`: write `%s[:byte-size e]`.",
}
WORDS_OF_OTHERS = {
    "repeated": "Elements follow each other in an array by bytes: `%s items[:byte-size n];`, where n is a number that stands before it.",
    "optional": "A field is always there: where a number says whether it is, write a casetype with `unit` in the other case.",
    "required": "A field is always there: take `required` out.",
    "const": "Fields aren't written to: take `const` out.",
    "volatile": "Take `volatile` out: every message is memory that others keep changing.",
    "unsigned": "Number types are `UINT8`, `UINT16`, `UINT32`, `UINT64`, and `UINT16BE` and so on with the byte of most weight first.",
    "signed": "There are no signed numbers: write `UINT8` to `UINT64`, and test the bytes' value.",
    "static": "Take `static` out.",
    "mutable": "A field isn't `mutable`: cells are parameters, to which actions store.",
}


def advise(said, *edits):
    return Advice(said=said, edits=edits)


def in_field(here):
    return here.innermost() == "field"


def several_names(here):
    if not in_field(here) or here.kind != "," or here.kind_at(-1) != "NAME":
        return None
    first = here.source(here.first_of("field"), -2)
    said = "A field has one name: write `%s; %s %s;`." % (here.source(here.first_of("field"), -1), first, here.word(1))
    edits, at = [(here.begin(), here.end(), "; %s" % first)], 2
    while here.kind_at(at) == "," and here.kind_at(at + 1) == "NAME":
        edits.append((here.begin(at), here.end(at), "; %s" % first))
        at += 2
    return advise(said, *edits)


def value_behind(here):
    """`UINT8 a == 1;`, `UINT8 f : 3 == 0;`, `UINT8 f : 3 = 0;`."""
    if not in_field(here) or here.kind not in ("==", "=", "!=", "<", "<=", ">", ">="):
        return None
    is_bits = here.kind_at(-1) == "NUM" and here.kind_at(-2) == ":"
    name = here.word(-3) if is_bits else here.word(-1)
    if here.kind_at(-3 if is_bits else -1) != "NAME":
        return None
    end = here.up_to(";")
    if end is None or end < 2:
        return None
    sign = "==" if here.kind == "=" else here.kind
    field, value = here.source(here.first_of("field"), -1), here.source(1, end - 1)
    said = "What a field must hold is a refinement: write `%s { %s %s %s };`." % (field, name, sign, value)
    if here.kind == "=":
        said += " Fields have no numbers: they stand in the order of the bytes."
    return advise(said, (here.begin(), here.end(end - 1), "{ %s %s %s }" % (name, sign, value)))


def statement_end_in_refinement(here):
    """`{ a == 1; }`."""
    if here.kind != ";" or here.innermost() != "whole" or not here.inside("field") or here.inside("statement") or "}" not in here.asked:
        return None
    said = "A refinement is one expression, without a `;` in its braces: write `{ %s };`." % here.source(here.first_of("whole"), -1)
    return advise(said, (here.begin(), here.end(), ""))


def switch_inside(here):
    if here.kind == "switch" and (in_field(here) or "case" in here.asked):
        said = "A `switch` stands in a casetype alone: write `casetype _U(UINT8 kind) { switch (kind) { .. } } U;` before, and here `U(kind) u;`."
        return advise(said)
    return None


def struct_inside(here):
    if here.kind in ("struct", "enum") and in_field(here):
        if here.kind_at(1) == "NAME" and here.kind_at(2) == "NAME":
            said = "A type's name stands alone: write `%s %s;`." % (here.word(1), here.word(2))
            return advise(said, (here.begin(), here.begin(1), ""))
        return advise("A %s is defined before, with a name: write the name here, as `IN in;`." % here.kind)
    if here.kind == "{" and here.word(-1) in ("union", "oneof") and in_field(here):
        return advise("There are no unions: write a casetype before, whose switch says which member is there, and here `U(kind) u;`.")
    if here.word(-2) in ("struct", "union", "oneof") and here.kind == "{":
        return advise("What stands in a struct has a name of its own: define it before, and write the name here.")
    return None


def oneof(here):
    if here.kind == "{" and here.word(-2) == "oneof":
        return advise("There is no `oneof`: write a casetype before, whose switch says which member is there, and here `U(kind) u;`.")
    return None


def pointer(here):
    if not in_field(here) or here.kind != "*":
        return None
    said = "There are no pointers, as a message is one piece of memory: deliver the address as a number (`UINT64 %s;`), and validate what lies there as"
    return advise(said % here.word(1) + " a message of its own.")


def action_word(here):
    """`{ :act` and `{:actx`."""
    if here.kind == ":" and here.kind_at(-1) == "{":
        return advise("An action begins by `{:act`, `{:check`, `{:on-success` or `{:copy`, in one word, and a blank stands behind it.")
    return None


def bits_of_array(here):
    if in_field(here) and here.kind == ":" and here.kind_at(-1) == "]":
        return advise("An array has no bit width: write bit fields one by one, each a field with a name.")
    return None


def bracket_word(here):
    """`[:consume-all]` and others: the bracket was read alone."""
    if here.kind != ":" or here.kind_at(-1) != "[":
        return None
    text = here.module.text[here.end() :]
    word = re.match(rb"[A-Za-z0-9-]*", text)[0].decode()
    name = here.word(-2)
    if word in BRACKETS:
        said = BRACKETS[word]
        return advise(said % name if "%s" in said else said)
    return advise("The words in brackets are `[:byte-size`, `[:byte-size-single-element-array` and `[:zeroterm-byte-size-at-most`.")


def empty_brackets(here):
    if here.kind == "]" and here.kind_at(-1) == "[":
        said = "An array has a size in bytes: `%s[n]`, where n is a number that stands before it, or `all_bytes %s;` for the rest of the message."
        return advise(said % (here.word(-2), here.word(-2)))
    return None


def two_brackets(here):
    if here.kind == "[" and in_field(here) and here.kind_at(-1) == "]":
        return advise("An array has one size, in bytes: write their product, as `UINT8 %s[3 * 4];`." % here.word(here.first_of("field") + 1))
    return None


def word_of_others(here):
    """`repeated UINT8 x`, `unsigned int x`."""
    if not in_field(here) or here.first_of("field") != -1 or here.word(-1) not in WORDS_OF_OTHERS:
        return None
    said = WORDS_OF_OTHERS[here.word(-1)]
    return advise(said % here.word() if "%s" in said else said)


def fall_through(here):
    if here.kind == "case" and here.kind_at(-1) == ":" and in_field(here):
        return advise("Each case has fields of its own, and none falls through: write them again for `case %s:`." % here.word(-2))
    if here.kind == "," and here.innermost() == "casetype":
        return advise("A case has one constant: write `case %s:` with its fields, and then the next case with the same fields." % here.word(-1))
    if here.word(-1) == "break" and here.kind == ";":
        return advise("There is no `break`: a case ends where the next one begins.", (here.begin(-1), here.end(), ""))
    if here.kind in ("}", "case", "default") and in_field(here) and here.kind_at(-1) == ":":
        return advise("A case has at least one field; `unit none;` takes no byte.", (here.begin(), here.begin(), "unit none; "))
    return None


def default_first(here):
    if here.kind == "case" and here.inside("casetype") and "case" not in here.asked:
        return advise("`default:` stands behind all cases.")
    return None


def empty_struct(here):
    if here.kind == "}" and in_field(here) and here.first_of("field") == 0:
        return advise("A struct has at least one field; `unit none;` takes no byte.", (here.begin(), here.begin(), "unit none; "))
    return None


def two_actions(here):
    if in_field(here) and here.kind in ("{:act", "{:check", "{:on-success") and here.kind_at(-1) == "}":
        return advise("A field has one action: put the statements of both into one.")
    if in_field(here) and here.kind == "{" and here.kind_at(-1) == "}":
        return advise("A field has one refinement, and it stands before the action: join both by `&&`.")
    return None


def refinement_of_bits(here):
    """`UINT8 a { a == 1 } : 4;`."""
    if in_field(here) and here.kind == ":" and here.kind_at(-1) == "}":
        return advise("The width stands before the refinement: `UINT8 a : 4 { a == 1 };`.")
    return None


def bit_width(here):
    if in_field(here) and here.kind_at(-1) == ":" and here.kind != "NUM":
        return advise("A bit field's width is a number, written in digits.")
    return None


RULES = [
    several_names,
    value_behind,
    statement_end_in_refinement,
    switch_inside,
    struct_inside,
    oneof,
    pointer,
    action_word,
    bits_of_array,
    bracket_word,
    empty_brackets,
    two_brackets,
    word_of_others,
    fall_through,
    default_first,
    empty_struct,
    two_actions,
    refinement_of_bits,
    bit_width,
]
