"""Help on copies: A2, and N1, N4, Y2 and Y4 of a copy buffer or of a copied field."""

from types import SimpleNamespace as Tree

from limits import MOST_ROOM
from reference import safety
from reference.scopes import bits_of
from reference.sizes import tree_fields

from .safety import Whole, known_here, ranged, refined_before
from .spelling import LEVEL_OF, core_text, parameter_text, quoted, spelled

SOUGHT = "a copy is of the bytes of an array of `UINT8`, by `[n]` or `[:byte-size n]`"


def field_of_copy(own, at):
    """The field whose `{:copy`, or whose copy's name, stands at a place."""
    return next((field for fields in tree_fields(own) for field in fields if field.copy and at in (field.copy.at, field.copy.name[2])), None)


def parameter_of_room(own, at):
    return next((parameter for parameter in getattr(own, "parameters", []) if parameter.room is not None and parameter.room[2] == at), None)


def buffers_of(own):
    return [parameter for parameter in getattr(own, "parameters", []) if parameter.room is not None]


# ---- A2.


def without_room(types, at):
    """The core field that is copied at a place, and the facts there."""
    caught, real = [], safety.has_room

    def spy(field, facts):
        if field.copy.at == at:
            caught.append((field, facts))
        return real(field, facts)

    safety.has_room = spy
    try:
        for _ in safety.module_unsafe(types):
            pass
    finally:
        safety.has_room = real
    return caught[0]


def mends_of_room(module, own, field, greatest, room):
    """More room, or a test of the size."""
    parameter = next(parameter for parameter in own.parameters if parameter.name[1] == field.copy.name[1])
    if greatest <= MOST_ROOM:
        new = "mutable UINT8 *%s[%d]" % (parameter.name[1], greatest)
        said = "give it the room: `%s`, at %s; who hands it a buffer needs one of that room, too." % (new, module.place(parameter.name[2]))
        yield said, [(parameter.room[2], module.end_of(module.index_at(parameter.room[2])), str(greatest))]
    condition = "%s <= %d" % (spelled(field.size, module.text, LEVEL_OF["<"] + 1), room)
    named = Tree(parts=[field.size], at=field.copy.at)
    yield from refined_before(module, Whole(field.size, "number", field, own), named, condition)


def no_room(module):
    own, _, _ = module.definition_at(module.error.at)
    core, facts = without_room(module.watch.known.types, module.error.at)
    field, greatest = field_of_copy(own, module.error.at), safety.range_of(core.extent[1], facts)[1]
    lines = ["%s, and the copy buffer `%s` has room for %d bytes." % (ranged(core.extent[1], facts, module.text), field.copy.name[1], core.copy.room)]
    lines.append("Bytes are copied without a test, so the greatest value of `%s` must fit." % core_text(core.extent[1], module.text))
    lines.append(known_here(facts, module.text))
    return lines + ["mend: " + said for said, edits in mends_of_room(module, own, field, greatest, core.copy.room) if module.mends(*edits)]


# ---- Y2, Y4, N4.


def wrong_room(module, parameter):
    value = "`%s`" % parameter.room[1] if parameter.room[0] == "NAME" else str(parameter.room[1])
    return ["A copy buffer has room for 1 to %d bytes, and not for %s." % (MOST_ROOM, value),
            "mend: write the most bytes that the fields copied to `%s` may have." % parameter.name[1]]  # fmt: skip


def not_copied(module, field):
    if field.type[0] == "all_bytes":
        return ["`all_bytes` takes what is left, of no size that is known, and %s." % SOUGHT, "mend: say the bytes: `UINT8 %s[n]`." % field.name[1]]
    if field.array is None and field.type[0] == "INT":
        said = "mend: deliver the number, by `{:act *p = %s;}`, or copy its bytes, by `UINT8 %s[sizeof(%s)] {:copy %s}`."
        name = field.name[1]
        return ["`%s` is a number, and %s." % (name, SOUGHT), said % (name, name, field.type[1], field.copy.name[1])]
    if field.array is None:
        return ["`%s` is no array, and %s." % (field.name[1], SOUGHT), "mend: let `%s` be the bytes, `UINT8 %s[n]`." % (field.name[1], field.name[1])]
    return ["`%s` is an array of another sort, and %s." % (field.name[1], SOUGHT), elements_or_bytes(module, field)]


def elements_or_bytes(module, field):
    """Of an array of other elements: its bytes are copied or its elements validated, and no field does both."""
    name, made, buffer = field.name[1], field.type[1], field.copy.name[1]
    found = module.watch.known.own(made)
    base = made if field.type[0] == "INT" else found.base if getattr(found, "kind", None) == "number" else None
    if base is not None and field.array == "[:byte-size":
        width = bits_of(base) // 8
        more = "; that the size is a multiple of %d is then no test: test its number, by `%% %d == 0`" % (width, width) if width > 1 else ", which are the same bytes"
        return "mend: write `UINT8 %s[:byte-size ..]`%s." % (name, more)
    return (
        "mend: no field both validates elements and copies them. `UINT8 %s[:byte-size ..] {:copy %s}` copies the bytes, and what `%s` tests is then no test"
        " of the format: let the program test its copy, to which nobody else stores. Or take `{:copy %s}` out, and let actions in `%s` deliver numbers."
    ) % (name, buffer, made, buffer, made)


def no_buffer(module, own, field):
    """Of `{:copy name}`, where the name is no copy buffer's."""
    word = field.copy.name[1]
    parameter = next((parameter for parameter in own.parameters if parameter.name[1] == word), None)
    what = "the parameter `%s`" % parameter_text(parameter) if parameter is not None else "no parameter"
    buffers = [one.name[1] for one in buffers_of(own)]
    lines = ["`%s` is %s, and bytes are copied to a copy buffer, `mutable UINT8 *name[room]`." % (word, what)]
    if buffers:
        return lines + ["mend: name one that is here: %s." % quoted(buffers)]
    is_free = sum(token[1] == word for token in module.tokens) == 1
    return lines + ["mend: add the parameter `mutable UINT8 *%s[room]`, and name that." % (word if is_free else "bytes")]


def used_otherwise(word, parameter):
    """Of `*b`, where `b` is a copy buffer."""
    return ["`%s` is the copy buffer `%s`: fields are copied to it, and nothing reads or stores a part of it." % (word, parameter_text(parameter)),
            "mend: deliver a number by a parameter of its own, `mutable UINT8 *p`."]  # fmt: skip


def help_of(module):
    """The lines for a refusal at a copy buffer or a copied field; none where the place is of neither."""
    at, (own, _, _) = module.error.at, module.definition_at(module.error.at)
    if module.error.code == "A2":
        return no_room(module)
    parameter, field = parameter_of_room(own, at), field_of_copy(own, at)
    if module.error.code == "Y2" and parameter is not None:
        return wrong_room(module, parameter)
    if module.error.code == "Y4" and field is not None:
        return not_copied(module, field)
    if module.error.code in ("N1", "N4") and field is not None:
        return no_buffer(module, own, field)
    word = module.token(module.index_at(at))[1]
    named = next((one for one in buffers_of(own) if one.name[1] == word), None)
    return used_otherwise(word, named) if module.error.code == "N4" and named is not None else []
