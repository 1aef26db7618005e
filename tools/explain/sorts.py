"""Help on Y1 and Y2: numbers, truth values and types, and what is wider than its place."""

from reference.expressions import COMPARED, is_number, type_alone
from reference.scopes import bits_of, full_name
from reference.sizes import tree_fields
from reference.tokens import NUMBER_TYPES

from . import constants
from . import cells
from . import given
from .spelling import BITWISE, LEVEL_OF, UNARY, parameter_text, spelled, word_at

TIGHTER_THAN_COMPARISON = LEVEL_OF["=="] + 1
STANDS_FOR = {
    "constant": "a constant", "member": "a member of an enum", "number": "another name of a number type", "enum": "an enum", "type": "a type",
    "record": "an output record", "cell": "a `mutable` parameter", "row": "a `mutable` parameter of an output record", "value": "a number",
    "none": "a field without a value", "buffer": "a copy buffer",
}  # fmt: skip
MASKS = {16: "0xffff", 32: "0xffffffff", 64: "0xffffffffffffffff"}


def as_truth(tree, text, least=-1):
    """A number as a truth value."""
    return "%s != 0" % spelled(tree, text, TIGHTER_THAN_COMPARISON) if least <= LEVEL_OF["=="] else "(%s)" % as_truth(tree, text)


def as_number(tree, text):
    """A truth value as a number."""
    return "(%s ? 1 : 0)" % spelled(tree, text, 0)


def mend(module, said, *edits):
    """The line that says a mend, where it does mend."""
    return ["mend: " + said] if module.mends(*edits) else []


def whole_of_wrong_sort(module, tree, truth, scope):
    text = module.text
    if truth:
        sorts = [module.watch.sort_of(part, scope) for part in tree.parts]
        if tree.kind in BITWISE and "truth" in sorts:
            return bound_closer(module, tree, sorts) or ["`%s` takes numbers, and one of its sides is a truth value." % tree.kind]
        new = as_truth(tree, text)
        lines = ["`%s` is a number, and a truth value must stand here: numbers aren't tested by themselves." % spelled(tree, text)]
        return lines + mend(module, "write `%s`." % new, module.replaced(tree, new))
    new = as_number(tree, text)
    lines = ["`%s` is a truth value, and a number must stand here." % spelled(tree, text)]
    return lines + mend(module, "write `%s`." % new, module.replaced(tree, new))


def operator_of_wrong_sorts(module, tree, scope):
    text, sorts = module.text, [module.watch.sort_of(part, scope) for part in tree.parts]
    kind = "?" if tree.kind == "choice" else tree.kind
    wants_truth = kind in ("!", "&&", "||")
    wrong = [part for part, sort in zip(tree.parts, sorts) if (is_number(sort) if wants_truth else sort == "truth")]
    if kind == "?":
        return choice_of_wrong_sorts(module, tree, sorts)
    said = "takes truth values, and `%s` is a number." if wants_truth else "takes numbers, and `%s` is a truth value."
    lines = ["`%s` %s" % (kind, said % spelled(wrong[0], text))] if wrong else []
    if kind == "!":
        new = "%s == 0" % spelled(tree.parts[0], text, TIGHTER_THAN_COMPARISON)
        return lines + (mend(module, "write `%s`." % new, module.replaced(tree, new)) or mend(module, "write `(%s)`." % new, module.replaced(tree, "(%s)" % new)))
    if wants_truth:
        level = LEVEL_OF[kind]
        parts = [as_truth(part, text) if part in wrong else spelled(part, text, least) for part, least in zip(tree.parts, (level, level + 1))]
        new = (" %s " % kind).join(parts)
        return lines + mend(module, "write `%s`." % new, module.replaced(tree, new))
    return lines + bound_closer(module, tree, sorts)


def bound_closer(module, tree, sorts):
    """Of `x & 1 == 1`, and of a comparison's value as a number."""
    text, kind = module.text, tree.kind
    if kind in BITWISE:
        for side, compared in enumerate(tree.parts):
            if compared.kind not in COMPARED or sorts[side] != "truth" or module.span(compared)[2]:
                continue
            inner = [tree.parts[0], compared.parts[0]] if side else [compared.parts[1], tree.parts[1]]
            joined = "(%s)" % (" %s " % kind).join(spelled(part, text, LEVEL_OF[kind] + 1) for part in inner)
            other = spelled(compared.parts[1 if side else 0], text, TIGHTER_THAN_COMPARISON)
            new = "%s %s %s" % ((joined, compared.kind, other) if side else (other, compared.kind, joined))
            lines = ["`%s` binds closer than `%s`, as in C, so this reads `%s %s %s`." % (
                compared.kind, kind, put_apart(tree.parts[0], text), kind, put_apart(tree.parts[1], text))]  # fmt: skip
            return lines + mend(module, "write `%s`." % new, module.replaced(tree, new))
    parts = [as_number(part, text) if sort == "truth" else spelled(part, text, UNARY) for part, sort in zip(tree.parts, sorts)]
    new = (" %s " % kind).join(parts) if len(parts) == 2 else kind + parts[0]
    if kind in ("==", "!=") and any(part.kind in ("true", "false") for part in tree.parts):
        return mend(module, "a truth value is written alone, or behind `!`; a number is compared with a number, as `== 1`: write `%s`." % new, module.replaced(tree, new))
    return mend(module, "write `%s`." % new, module.replaced(tree, new))


def put_apart(tree, text):
    return spelled(tree, text, UNARY)


def choice_of_wrong_sorts(module, tree, sorts):
    text = module.text
    if is_number(sorts[0]):
        new = "%s ? %s : %s" % (as_truth(tree.parts[0], text), spelled(tree.parts[1], text), spelled(tree.parts[2], text))
        lines = ["The condition of `?` is a truth value, and `%s` is a number." % spelled(tree.parts[0], text)]
        return lines + mend(module, "write `%s`." % new, module.replaced(tree, new))
    said = "One branch of `? :` is a truth value (`%s`), the other a number (`%s`)."
    pair = tree.parts[1:] if sorts[1] == "truth" else tree.parts[:0:-1]
    return [said % tuple(spelled(part, text) for part in pair), "mend: compare the number, as `%s`, so that both are truth values." % as_truth(pair[1], text)]


# ---- Fields, parameters and names.


def field_of_wrong_type(module, field, scope):
    text, name = module.text, field.type[1]
    found = module.watch.known.find(scope, name) if field.type[0] == "NAME" else None
    if found is not None and found.kind not in ("number", "enum", "type"):
        lines = ["`%s` is %s, and no type of a field." % (name, STANDS_FOR[found.kind])]
        if found.kind == "record":
            return lines + ["mend: a record is what actions deliver: take it as a parameter, `mutable %s *r`, and store by `r->field = ..;`." % name]
        return lines + ["mend: write the name of a type; a field or parameter of the same name hides a type from there on."]
    base = name if field.type[0] == "INT" else getattr(found, "base", None) if found is not None and found.kind == "number" else None
    if field.width is not None:
        said = "A bit field is cut from a number type, and `%s` is none." % name
        lines = [said]
        if found is not None and found.kind == "enum":
            return lines + ["mend: take the enum's number type, and test the values: `%s %s : %s { .. }`." % (found.base, field.name[1], field.width[1])]
        return lines + ["mend: write a number type, as `UINT16 %s : %s`." % (field.name[1], field.width[1])]
    if field.array == "[:zeroterm-byte-size-at-most":
        return ["The elements up to a zero are of a number type, and `%s` is none." % name, "mend: take `UINT8 %s[:zeroterm-byte-size-at-most ..]`." % field.name[1]]
    if field.array == "[":
        return array_by_count(module, field, base, text)
    return []


def array_by_count(module, field, base, text):
    size = spelled(field.size, text)
    width = bits_of(base) // 8 if base else None
    name = field.type[1]
    lines = ["`%s[%s]` would be so many bytes, and is for `UINT8` alone: of other types it could be read as a count." % (field.name[1], size)]
    product = "%s * %s" % (spelled(field.size, text, LEVEL_OF["*"]), width if width is not None else "sizeof(%s)" % name)
    if field.size.kind == "NUM" and width is not None:
        product = str(field.size.value * width)
    opening = module.text.index(b"[", field.name[2])
    begin, end, _ = module.span(field.size)
    for one in [product] + ["(%s & %s) * %s" % (spelled(field.size, text, LEVEL_OF["&"] + 1), mask, product.rsplit(" * ", 1)[-1]) for mask in MASKS.values()]:
        if module.mends((opening, opening + 1, "[:byte-size "), (begin, end, one), safe=True):
            why = " (the mask changes no value, and has the product worked out in more bits)" if "&" in one and "&" not in product else ""
            return lines + ["mend: say the bytes: `%s %s[:byte-size %s]`%s." % (name, field.name[1], one, why)]
    return lines + ["mend: say the bytes: `%s %s[:byte-size ..]`." % (name, field.name[1])]


def parameter_of_wrong_type(module, own):
    parameter = next((parameter for parameter in getattr(own, "parameters", []) if parameter.type[2] == module.error.at), None)
    if parameter is None:
        return []
    name = parameter.type[1]
    found = module.watch.known.own(name)
    lines = ["`%s` is %s, and `%s` takes another sort of type." % (name, STANDS_FOR.get(getattr(found, "kind", ""), "no type"), parameter_text(parameter))]
    if parameter.mutable:
        said = "a cell is of a number type, `PUINT8` or an output record; for an enum write its number type"
    else:
        said = "a parameter is of a number type or an enum"
        said += "; a record's is `mutable %s *%s`" % (name, parameter.name[1]) if getattr(found, "kind", "") == "record" else ""
    return lines + ["mend: %s." % said]


def name_of_wrong_sort(module, tree, scope):
    found = module.watch.known.find(scope, tree.value)
    lines = ["`%s` is %s, and no number or truth value." % (tree.value, STANDS_FOR.get(found.kind, "another sort of name"))]
    if found.kind == "cell":
        return lines + cells.mend_of_name(module, tree.value)
    if found.kind in ("row", "record"):
        return lines + ["mend: a record is written alone; keep what is read again in a cell of its own, `mutable UINT32 *n`."]
    if found.kind in ("type", "number", "enum"):
        return lines + ["mend: write `sizeof(%s)` for its size, or the name of a field of that type." % tree.value]
    return lines


# ---- Statements.


def statements_of(own):
    """All statements of a definition, with their fields."""
    for fields in tree_fields(own) if own is not None else []:
        for field in fields:
            waiting = list(field.action.body) if field.action else []
            while waiting:
                statement = waiting.pop()
                yield statement
                waiting += getattr(statement, "one", []) + getattr(statement, "other", [])


def target_text(statement):
    return "*%s" % statement.name[1] if statement.kind == "*" else "%s->%s" % (statement.name[1], statement.field[1])


def cell_parameter(own, statement):
    return next((parameter for parameter in own.parameters if parameter.mutable and parameter.name[1] == statement.name[1]), None)


def bits_of_target(module, own, statement):
    """The bits of the cell to which a statement stores, 0 for a pointer; and the token of its type."""
    parameter = cell_parameter(own, statement)
    if parameter is None:
        return None, None
    if statement.kind == "*":
        token = parameter.type
    else:
        record = module.definition_named(parameter.type[1])
        token = next(slot.type for slot in record.slots if slot.name[1] == statement.field[1])
    name = token[1]
    found = module.watch.known.own(name)
    base = name if name in NUMBER_TYPES else getattr(found, "base", None)
    return (0 if token[0] == "PUINT8" else bits_of(base) if base else None), token


def stored_wrong(module, own):
    """Of an assignment, or of `var x = *p`."""
    at = module.error.at
    for statement in statements_of(own):
        if statement.kind == "var" and statement.star == at:
            said = "`%s` is a `PUINT8`: where it points isn't read." % statement.cell[1]
            return [said, "mend: deliver the position as a number, by `field_pos` to a `mutable UINT32 *`, and read that."]
        if statement.kind in ("*", "->") and statement.right.first == at:
            bits, _ = bits_of_target(module, own, statement)
            if statement.right.kind == "field_ptr":
                said = "`field_ptr` goes to a `PUINT8` cell alone, and `%s` has %s bits." % (target_text(statement), bits)
                number = mend(module, "write `field_pos`, which is the same position as a number of 32 bits.", (at, at + len("field_ptr"), "field_pos"))
                return [said] + (number or ["mend: let the cell be a `PUINT8`, or write `field_pos` to one of 32 bits."])
            if bits == 0:
                said = "`%s` is a `PUINT8`, to which `field_ptr` alone is stored." % target_text(statement)
                return [said, "mend: write `field_ptr`, in the action of the field that it is to point to; for a number take a `mutable UINT32 *`."]
    return []


def mismatch(module):
    watch, at = module.watch, module.error.at
    own, _, _ = module.definition_at(at)
    stored = stored_wrong(module, own) or given.mismatch(module, own)
    if stored:
        return stored
    for tree, sort, scope in watch.walked:
        if tree.at == at and tree.parts and tree.kind != "is_range_okay":
            lines = operator_of_wrong_sorts(module, tree, scope)
            if lines:
                return lines
    if watch.wanted and (is_number(watch.wanted[1]) if watch.wanted[2] else watch.wanted[1] == "truth"):
        scope = next(scope for tree, _, scope in watch.walked if tree is watch.wanted[0])
        return whole_of_wrong_sort(module, watch.wanted[0], watch.wanted[2], scope)
    assigned = next(((tree, sort) for tree, sort, _ in watch.walked if tree.first == at and sort == "truth"), None)
    if assigned:
        return whole_of_wrong_sort(module, assigned[0], False, None)
    named = next(((tree, scope) for tree, _, scope in watch.walked if tree.at == at and tree.kind == "NAME"), None)
    if named:
        return name_of_wrong_sort(module, *named)
    if watch.field_at and watch.field_at[0].type[2] == at:
        return field_of_wrong_type(module, *watch.field_at)
    if own is not None and own.kind == "alias":
        kind = STANDS_FOR.get(getattr(watch.known.own(own.target[1]), "kind", ""), "no type")
        said = "`%s` is %s: another name is of a number type, an enum, or a type without parameters." % (own.target[1], kind)
        return [said, "mend: write `%s` itself where `%s` would stand." % (own.target[1], own.name[1])]
    return parameter_of_wrong_type(module, own) or size_of_no_type(module)


def size_of_no_type(module):
    return ["`%s` is no type, and `sizeof` is of one." % word_at(module.text, module.error.at), "mend: write the number, or the name of a type."]


# ---- Y2.


def wider(bits, base):
    """The number type of so many bits in the order of another."""
    return "UINT%d%s" % (bits, "BE" if base.endswith("BE") else "")


def does_not_fit(module):
    watch, at = module.watch, module.error.at
    own, _, _ = module.definition_at(at)
    if watch.applied_at and watch.applied_at[1].type[2] != at:
        return argument_too_wide(module, *watch.applied_at)
    for statement in statements_of(own):
        if statement.kind in ("*", "->") and statement.right.first == at:
            return stored_too_wide(module, own, statement)
    narrow = given.too_narrow(module, own)
    if narrow:
        return narrow
    return constants.past_its_type(module, own)


def width_said(module, tree, bits, place, wanted):
    text = spelled(tree, module.text)
    more = " Types are looked at, not values: a bit field has its base's type, and a mask makes none narrower." if tree.parts or tree.kind == "NAME" else ""
    return "`%s` has %d bits, and %s has %d.%s" % (text, bits, place, wanted, more)


def argument_too_wide(module, found, field, scope):
    name, at = field.type[1], module.error.at
    tree = next(tree for tree in module.trees if tree.kind in ("struct", "casetype") and tree.name[2] == module.watch.known.types[found.number].at)
    parameter, argument = next((parameter, argument) for parameter, argument in zip(tree.parameters, field.arguments) if argument.first == at)
    bits = type_alone(module.watch.sort_of(argument, scope))
    base = parameter.type[1] if parameter.type[0] == "INT" else module.watch.known.globals[full_name(tree.part, parameter.type[1])].base
    lines = [width_said(module, argument, bits, "the parameter `%s` of `%s`" % (parameter_text(parameter), name), bits_of(base))]
    new = wider(bits, base)
    edit = (parameter.type[2], parameter.type[2] + len(parameter.type[1]), new)
    return lines + mend(module, "let the parameter be as wide: `%s %s`, at %s." % (new, parameter.name[1], module.place(parameter.type[2])), edit)


def stored_too_wide(module, own, statement):
    scope = next(scope for tree, _, scope in module.watch.walked if tree.first == statement.right.first)
    bits = type_alone(module.watch.sort_of(statement.right, scope))
    wanted, token = bits_of_target(module, own, statement)
    lines = [width_said(module, statement.right, bits, "the cell `%s`" % target_text(statement), wanted)]
    base = token[1] if token[1] in NUMBER_TYPES else "UINT8"
    new = wider(bits, base)
    said = "let the cell be as wide: `%s`, at %s; " % (new, module.place(token[2]))
    said += "or store a field that is narrower, of the type `%s`." % wider(wanted, base)
    return lines + mend(module, said, (token[2], token[2] + len(token[1]), new))


def help_of(module):
    if module.error.code in ("Y3", "Y4"):
        return constants.help_of(module)
    return mismatch(module) if module.error.code == "Y1" else does_not_fit(module)
