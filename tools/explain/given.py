"""Help on fields without bytes: a value that may not fit (A1), a type that is too narrow (Y2), a type or a cell of another sort (Y1)."""

from types import SimpleNamespace as Tree

from reference import safety
from reference.scopes import bits_of
from reference.sizes import tree_fields

from .cells import field_at
from .spelling import LEVEL_OF, free_name, spelled, word_at

WIDTHS = (8, 16, 32, 64)
LEFT = "bytes_left"


def is_left(tree):
    """How many bytes are left, where it is all that stands behind `=`."""
    return tree.kind == "NAME" and tree.value == LEFT


def field_of(module, own):
    """The field whose value begins at the place of the refusal, or whose type does; None where there is none."""
    at = module.error.at
    for fields in tree_fields(own) if own is not None else []:
        for field in fields:
            if field.source is not None and at in (field.source.first, field.type[2]):
                return field
    return None


def source_text(module, field):
    return "*" + field.source.cell[1] if field.source.kind == "cell" else spelled(field.source, module.text)


def with_type(module, field, kind):
    """The field with another type, and the edit."""
    begin = field.type[2]
    return "%s %s = %s;" % (kind, field.name[1], source_text(module, field)), (begin, begin + len(word_at(module.text, begin)), kind)


def wider_type(module, field, bits):
    """A mend: the number type of so many bits, in the field's order."""
    order = "BE" if field.type[1].endswith("BE") else ""
    said, edit = with_type(module, field, "UINT%d%s" % (bits, order))
    return ["mend: take a type that holds each value: `%s`." % said] if module.mends(edit) else []


# ---- N1.


def left_elsewhere(module):
    """Of `bytes_left` in a larger expression, or behind no `=`."""
    at, field = module.error.at, field_at(module, module.error.at)
    lines = ["How many bytes are left is asked where `%s` is all that stands behind a field's `=`: else it is a name, and nothing is called so." % LEFT]
    if field is None:
        return lines
    name = "left" if all(token[1] != "left" for token in module.tokens) else free_name(module, "left")
    begin, new = field.type[2], "UINT32 %s = %s;" % (name, LEFT)
    if not module.mends((begin, begin, new + " "), (at, at + len(LEFT), name)):
        return lines
    return lines + ["mend: put a field before this one, `%s`, and write `%s` here." % (new, name)]


# ---- A1.


def value_at(types, at):
    """What gives a value that may not fit, and the facts there."""
    caught, real = [], safety.given_unsafe

    def spy(element, facts):
        if element.first == at:
            caught.append((element, facts))
        yield from real(element, facts)

    safety.given_unsafe = spy
    try:
        for _ in safety.module_unsafe(types):
            if caught:
                break
    finally:
        safety.given_unsafe = real
    return caught[0]


def tested(module, own, field, most):
    """A mend: a test where the field stands whose value is given on, or a `where`."""
    from .safety import Whole, refined_before

    tree = field.source
    condition = "%s <= %d" % (spelled(tree, module.text, LEVEL_OF["<"] + 1), most)
    whole = Whole(tree, "number", field, own)
    found = refined_before(module, whole, Tree(parts=[tree], at=tree.at), condition)
    return next((["mend: " + said] for said, edits in found if module.mends(*edits)), [])


def value_may_not_fit(module):
    from .safety import known_here, ranged

    own, _, _ = module.definition_at(module.error.at)
    field = field_of(module, own)
    element, facts = value_at(module.watch.known.types, module.error.at)
    bits, greatest = bits_of(element.base), safety.range_of(element.core, facts)[1]
    lines = ["`%s` has %d bits, 0 to %d, and no value is cut." % (field.name[1], bits, 2**bits - 1)]
    lines.append("%s." % ranged(element.core, facts, module.text))
    lines.append(known_here(facts, module.text))
    wide = next((width for width in WIDTHS if greatest < 2**width), 64)
    return lines + wider_type(module, field, wide) + tested(module, own, field, 2**bits - 1)


# ---- Y1 and Y2.


def mismatch(module, own):
    """Of `*p` where p is a `PUINT8`, and of a type that is no number's."""
    field, at = field_of(module, own), module.error.at
    if field is None:
        return []
    if field.source.kind == "cell" and field.source.at == at:
        said = "`%s` is a `PUINT8`: where it points isn't read." % field.source.cell[1]
        return [said, "mend: deliver the position as a number, by `field_pos` to a `mutable UINT32 *`, and read that."]
    if field.type[2] != at:
        return []
    lines = ["What stands behind `=` is a number, and `%s` is no number type." % word_at(module.text, at)]
    made = (with_type(module, field, "UINT%d" % bits) for bits in WIDTHS)
    said = next((said for said, edit in made if module.mends(edit, safe=True)), None)
    return lines + (["mend: take a number type: `%s`." % said] if said else [])


def too_narrow(module, own):
    """Of `bytes_left`, and of a cell with more bits."""
    field = field_of(module, own)
    if field is None or not (field.source.kind == "cell" or is_left(field.source)):
        return []
    found = module.watch.known.own(field.type[1])
    own_bits = bits_of(field.type[1] if field.type[0] == "INT" else found.base)
    if is_left(field.source):
        lines = ["How many bytes are left is a number of 32 bits, and `%s` has %d." % (field.name[1], own_bits)]
        return lines + wider_type(module, field, 32)
    parameter = next(parameter for parameter in own.parameters if parameter.name[1] == field.source.cell[1])
    held = module.watch.known.own(parameter.type[1])
    bits = bits_of(parameter.type[1] if parameter.type[0] == "INT" else held.base)
    lines = ["The cell `*%s` has %d bits, and `%s` has %d: what a cell holds isn't known." % (parameter.name[1], bits, field.name[1], own_bits)]
    return lines + wider_type(module, field, bits)
