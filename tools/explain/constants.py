"""Help on Y3, on Y4, and on constants that don't fit (Y2): what must be constant, and the shape of actions."""

from reference.scopes import bits_of
from reference.sizes import constant_size, element_kind, field_kind, field_lists, tree_fields
from reference.tokens import NUMBER_TYPES

from .names import constant_number

SHAPES = {
    "{:act": "returns on no path",
    "{:check": "returns a truth value on each path",
    "{:on-success": "returns a truth value on each path, or on none",
}


def past_its_type(module, own):
    """An enum's value past its base, or a case past the switch's type."""
    at = module.error.at
    if own.kind == "enum":
        base = own.base[1]
        value, following = 0, 0
        for item in own.items:
            given = constant_number(module, item.value) if item.value else None
            value = following if given is None else given
            if (item.value or item.name)[2] == at:
                break
            following = value + 1
        wide = next((bits for bits in (16, 32, 64) if value < 2**bits), None)
        lines = ["The value %d is past `%s`, whose greatest is %d." % (value, base, 2 ** bits_of(base) - 1)]
        new = "UINT%d%s" % (wide, "BE" if base.endswith("BE") else "") if wide else None
        if new and module.mends((own.base[2], own.base[2] + len(base), new)):
            return lines + ["mend: take a wider type, `%s enum %s`; a field of it then has %d bytes." % (new, own.name[1], wide // 8)]
        return lines
    case = next(case for case in own.cases if case.value[2] == at)
    found = [scope for tree, _, scope in module.watch.walked if tree.first == own.switch.first]
    bits = None
    for made, tree in zip(module.watch.known.types, [tree for tree in module.trees if tree.kind in ("struct", "casetype")]):
        if tree is own and made.switch is not None:
            bits = made.switch.type
    said = "The case %d is past the type of the switch" % constant_number(module, case.value)
    said += ", which has %d bits and no value above %d." % (bits, 2**bits - 1) if bits and not found else "."
    return [said, "mend: take the case out, as no value is in it, or let what is switched on be wider."]


def why_not_constant(types, number, trail=()):
    """The way from a type to what has no constant size: type names, and the field."""
    made = types[number]
    if made.cases or made.default is not None:
        sizes = {constant_size(fields_kind_of(types, fields)) for fields in field_lists(made)}
        if None not in sizes:
            return "the cases of `%s` have different sizes" % made.name
    for fields in field_lists(made):
        for field in fields:
            if constant_size(field_kind(types, field)) is None:
                if field.element is not None and field.element.kind == "named" and constant_size(element_kind(types, field.element)) is None:
                    return why_not_constant(types, field.element.number)
                return "the size of `%s` in `%s` isn't one number" % (field.parts[0].name, made.name)
    return "`%s` has no constant size" % made.name


def fields_kind_of(types, fields):
    from reference.sizes import fields_kind

    return fields_kind(types, fields)


def not_constant(module):
    at, watch = module.error.at, module.watch
    own, _, _ = module.definition_at(at)
    index = module.index_at(at)
    token = module.token(index)
    if token[0] == "sizeof":
        operand = module.token(index + 2)
        if operand[0] == "this":
            return [
                "`sizeof(this)` is the size of the struct's leading fields, and there is no struct here.",
                "mend: write the number, or `sizeof(T)` of a struct that holds those fields; in a casetype take it as a parameter.",
            ]
        found = watch.known.own(module.name_at(operand[2]))
        why = why_not_constant(watch.known.types, found.number) if found is not None and found.kind == "type" else "it has none"
        return ["`sizeof` is of a type of one size, and `%s` has none: %s." % (operand[1], why), "mend: `sizeof` a type that holds the fields of one size alone."]
    if token[0] == "NUM":
        for fields in tree_fields(own):
            for field in fields:
                if field.width and field.width[2] == at:
                    return width_of_bits(module, field)
    word = module.name_at(at)
    found = watch.known.own(word)
    lines = ["`%s` is %s, and a constant must stand here: a number, a name from `#define`, or a member of an enum." % (word, "no constant" if found is None else "a " + found.kind)]
    return lines + ["mend: write its number, or `#define` a constant and name that."]


def width_of_bits(module, field):
    name = field.type[1]
    found = module.watch.known.own(name)
    base = name if name in NUMBER_TYPES else getattr(found, "base", "UINT64")
    width, most = field.width[1], bits_of(base)
    lines = ["A bit field of `%s` has 1 to %d bits, and not %d." % (base, most, width)]
    if width == 0:
        return lines + ["mend: take it out; to begin a new number, let a field of another type stand between."]
    wide = next((bits for bits in (16, 32, 64) if width <= bits), None)
    if wide is None:
        return lines + ["mend: divide it: no number has more than 64 bits."]
    new = "UINT%d%s" % (wide, "BE" if base.endswith("BE") else "")
    return lines + ["mend: take a wider number, `%s %s : %d`, of which the bits that follow are a part, too." % (new, field.name[1], width)]


# ---- Y4.


def ends_of(module, statements, end):
    """For a list of statements whose last token ends at a byte: whether a path falls off its end and where, the places of the returns,
    and the place of the first statement that follows a `return` or `abort`."""
    falls, returns, after = end, [], None
    for number, statement in enumerate(statements):
        last = number + 1 == len(statements)
        if statement.kind in ("return", "abort"):
            returns += [statement.at] if statement.kind == "return" and falls is not None else []
            falls = None
            if not last and after is None:
                after = statements[number + 1].at
        elif statement.kind == "if":
            one, other = (ends_of(module, branch, statement.at) for branch in (statement.one, statement.other))
            returns += (one[1] + other[1]) if falls is not None else []
            after = after if after is not None else one[2] if one[2] is not None else other[2]
            both_end = one[0] is None and other[0] is None
            falls = None if both_end or falls is None else statement.at if last and (one[0] is None or other[0] is None) else falls
    return falls, returns, after


def bad_action(module):
    at = module.error.at
    if module.token(module.index_at(at))[0] == "field_pos":
        return [
            "`field_pos` is the place of the field whose action it stands in, and stands in actions alone.",
            "mend: store it in an action, `{:act *p = field_pos;}`, to a `mutable UINT32 *p`; what is compared with it is a parameter.",
        ]
    own, _, _ = module.definition_at(at)
    field = next(field for fields in tree_fields(own) for field in fields if field.action and field.action.at == at)
    falls, returns, after = ends_of(module, field.action.body, at)
    word = field.action.word
    if after is not None:
        return ["The statement at %s follows a `return` or an `abort`, so that nothing reaches it." % module.place(after), "mend: take it out, or put the end behind it."]
    lines = ["`%s` %s; a path may end by `abort` instead." % (word, SHAPES[word])]
    if word == "{:act":
        said = "A `return` stands at %s." % module.place(returns[0])
        fixed = field.action.at + len(word)
        mend = ["mend: write `{:check` where the action decides, and then `return true;` on the other paths; or take the `return` out."]
        return lines + [said] + mend + ([] if not module.mends((at, fixed, "{:check")) else ["Here `{:check` alone in its place is accepted."])
    where = "at the end of the action" if falls == at else "where the `if` at %s isn't taken, or doesn't return" % module.place(falls)
    lines.append("A path ends without a `return` %s." % where)
    return lines + ["mend: end the action by `return true;`, so that each path returns."]


def help_of(module):
    return not_constant(module) if module.error.code == "Y3" else bad_action(module)
