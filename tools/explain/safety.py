"""Help on A1: the ranges of both operands, what is known there, and mends, those first that change no message's answer."""

from reference import safety
from reference.expressions import COMPARED
from reference.sizes import tree_fields
from reference.values import constant_of

from . import given
from .spelling import LEVEL_OF, core_text, names_in, spelled
from .sorts import statements_of

RESULTS = {"+": "sum", "*": "product", "-": "difference"}
MASKS = {16: "0xffff", 32: "0xffffffff", 64: "0xffffffffffffffff"}
MOST_FACTS = 8


def unsafe_at(types, at):
    """The core expression that isn't safe at a place, and the facts there."""
    caught, real = [], safety.is_safe

    def spy(core, facts):
        is_safe = real(core, facts)
        if not is_safe and core.at == at:
            caught.append((core, facts))
        return is_safe

    safety.is_safe = spy
    try:
        for _ in safety.module_unsafe(types):
            if caught:
                break
    finally:
        safety.is_safe = real
    return caught[0]


def ranged(core, facts, text):
    low, high = safety.range_of(core, facts)
    if low > high:
        return "`%s` is no number at all, by what is known" % core_text(core, text)
    return "`%s` is %d" % (core_text(core, text), low) if low == high else "`%s` is %d to %d" % (core_text(core, text), low, high)


def outcome(core, facts):
    """The result that is feared."""
    (low, high), (least, greatest) = (safety.range_of(part, facts) for part in core.parts)
    if core.kind == "*":
        return "so the product may be %d" % (high * greatest)
    if core.kind == "+":
        return "so the sum may be %d" % (high + greatest)
    if core.kind == "-":
        return "so the difference may be %d" % (low - greatest)
    if core.kind in ("/", "%"):
        return "so it may divide by 0"
    return "so it may shift by %d, and the left side has %d bits" % (greatest, core.parts[0].type)


def known_here(facts, text):
    told = [fact for fact in facts if not (fact.relation == ">=" and constant_of(fact.right) == 0)]
    shown = ["`%s %s %s`" % (core_text(fact.left, text, LEVEL_OF["|"]), fact.relation, core_text(fact.right, text, LEVEL_OF["|"])) for fact in told]
    if not shown:
        return "Nothing is known here."
    more = ", and %d more" % (len(shown) - MOST_FACTS) if len(shown) > MOST_FACTS else ""
    return "Known here: %s%s." % (", ".join(shown[-MOST_FACTS:]), more)


# ---- Where the operator stands.


class Whole:
    """A whole expression: its tree, what it is, its field, its statement and its definition."""

    def __init__(self, tree, role, field, own, statement=None):
        self.tree, self.role, self.field, self.own, self.statement = tree, role, field, own, statement


def wholes_of(own):
    """The whole expressions of a definition."""
    if getattr(own, "guard", None) is not None:
        yield Whole(own.guard, "truth", None, own)
    if getattr(own, "switch", None) is not None:
        yield Whole(own.switch, "number", None, own)
    for fields in tree_fields(own):
        for field in fields:
            for tree in field.arguments + [field.size, field.source]:
                if tree is not None and tree.kind != "cell":
                    yield Whole(tree, "number", field, own)
            if field.refinement is not None:
                yield Whole(field.refinement, "truth", field, own)
    for statement in statements_of(own):
        for name in ("test", "value"):
            if getattr(statement, name, None) is not None:
                yield Whole(getattr(statement, name), "truth", None, own)
        right = getattr(statement, "right", None)
        if right is not None and right.kind != "field_ptr":
            yield Whole(right, "number", None, own, statement)


def way_to(tree, at):
    """The trees from one down to the operator at a place, that first; None where it isn't in it."""
    if tree.at == at and tree.parts:
        return [tree]
    for part in tree.parts:
        way = way_to(part, at)
        if way:
            return [tree] + way
    return None


def find(module):
    own, _, _ = module.definition_at(module.error.at)
    for whole in wholes_of(own):
        way = way_to(whole.tree, module.error.at)
        if way:
            return whole, way
    return None, None


# ---- Mends.


def masked(module, core, tree, facts):
    """The operator worked out in a wider type: the left side, or else the right, with a mask that changes no value."""
    (_, high), (_, greatest) = (safety.range_of(part, facts) for part in core.parts)
    need = high * greatest if core.kind == "*" else high + greatest
    left, right = (spelled(part, module.text, LEVEL_OF[tree.kind] + place) for place, part in enumerate(tree.parts))
    for bits, mask in MASKS.items():
        if bits <= core.type or need >= 2**bits:
            continue
        for side in (0, 1):
            if constant_of(core.parts[side]) is not None and constant_of(core.parts[1 - side]) is None:
                continue
            inner = "(%s & %s)" % (spelled(tree.parts[side], module.text, LEVEL_OF["&"] + 1), mask)
            new = "%s %s %s" % ((inner, tree.kind, right) if side == 0 else (left, tree.kind, inner))
            said = "write `%s`, which keeps the format: the mask changes no value, and has the %s worked out in %d bits." % (new, RESULTS[tree.kind], bits)
            yield said, [module.replaced(tree, new)]


def kept_low(module, tree):
    """A mask forgets the lower end of a range; a sum with a wide zero keeps it."""
    waiting = [tree.parts[0]]
    while waiting:
        part = waiting.pop()
        waiting += part.parts
        if part.kind == "&" and part.parts[1].kind == "NUM" and part.parts[1].value in (2**16 - 1, 2**32 - 1):
            inner = spelled(part.parts[0], module.text, LEVEL_OF["+"])
            new = "%s + 0 * 0x%x" % (inner, part.parts[1].value)
            said = "write `%s` in place of `%s`, which keeps the format: it is as wide, and its range keeps the lower end that is known of `%s`."
            yield said % (new, spelled(part, module.text), inner), [module.replaced(part, new)]


def comparisons_in(tree):
    found = [tree] if tree.kind in ("==", "!=") else []
    for part in tree.parts:
        found += comparisons_in(part)
    return found


def above_zero(module, whole, tree):
    """`a != 0` cuts no range: `a > 0` does."""
    text = module.text
    wanted = [spelled(part, text) for part in tree.parts]
    for test in comparisons_in(whole.tree):
        left, right = test.parts
        if right.kind == "NUM" and right.value == 0 and spelled(left, text) in wanted and test.at < tree.at:
            new = "%s %s" % (spelled(left, text, LEVEL_OF["<"] + 1), "> 0" if test.kind == "!=" else "< 1")
            said = "write `%s` in place of `%s`, which keeps the format: `==` and `!=` cut no range."
            yield said % (new, spelled(test, text)), [module.replaced(test, new)]


def tested_before(module, way, condition):
    """A test in the same expression, before the comparison that holds the operator."""
    text = module.text
    place = next((place for place in range(len(way) - 1, -1, -1) if way[place].kind in COMPARED or way[place].kind == "is_range_okay"), None)
    if place is None:
        return
    compared, parent = way[place], way[place - 1] if place else None
    joined = "%s && %s" % (condition, spelled(compared, text, LEVEL_OF["&&"]))
    new = joined if parent is None or parent.kind == "&&" else "(%s)" % joined
    yield "test it first: `%s`. Messages for which that fails are then rejected, or take the other way." % joined, [module.replaced(compared, new)]


def refined_before(module, whole, tree, condition):
    """A refinement of the last field that the operands name, or a `where`."""
    if not tree_fields(whole.own):
        return
    names = {name.value for part in tree.parts for name in names_in(part)}
    fields = [field for fields in tree_fields(whole.own) for field in fields if field.name[2] < tree.at and field is not whole.field]
    named = [field for field in fields if field.name[1] in names]
    if named:
        field = named[-1]
        if field.refinement is not None:
            end = module.span(field.refinement)[1]
            new = " && %s" % condition
        else:
            end = end_of_value(module, field) if field.source else module.end_of(module.index_at(field.width[2] if field.width else field.name[2]))
            new = " { %s }" % condition
        said = "test it where `%s` stands, at %s: `%s`. Messages for which that fails are then rejected."
        width = " : " + module.spelling(module.index_at(field.width[2])) if field.width else ""
        width = " = " + given.source_text(module, field) if field.source else width
        test = " { .. && %s }" % condition if field.refinement is not None else new
        text = " ".join(("%s %s%s%s" % (field.type[1], field.name[1], width, test)).split())
        yield said % (field.name[1], module.place(field.name[2]), text), [(end, end, new)]
    elif whole.own.guard is not None and whole.tree is not whole.own.guard:
        new = "%s && %s" % (condition, spelled(whole.own.guard, module.text, LEVEL_OF["&&"]))
        yield "test it in the `where`: `%s && ..`." % condition, [module.replaced(whole.own.guard, new)]
    elif whole.own.guard is None and whole.own.parameters:
        index = module.index_at(whole.own.parameters[-1].name[2]) + 1
        while module.token(index)[0] != ")":
            index += 1
        end = module.end_of(index)
        yield "test it in a `where`, before the `{`: `where (%s)`. It fails as `constraint`." % condition, [(end, end, " where (%s)" % condition)]


def conditions(module, core, tree, facts):
    """Tests that make the operator safe."""
    text = module.text
    a, b = (spelled(part, text, LEVEL_OF["<"] + 1) for part in tree.parts)
    if core.kind == "-":
        yield "%s >= %s" % (a, b) if constant_of(core.parts[1]) is not None else "%s <= %s" % (b, a)
    if core.kind in ("/", "%"):
        yield "%s != 0" % b
    if core.kind in ("<<", ">>"):
        yield "%s < %d" % (b, core.parts[0].type)
    if core.kind in ("+", "*"):
        ranges = [safety.range_of(part, facts) for part in core.parts]
        most = 2**core.type - 1
        for side in (0, 1):
            other = ranges[1 - side][1]
            bound = most - other if core.kind == "+" else most // other if other else most
            if constant_of(core.parts[side]) is None and bound > 0:
                yield "%s <= %d" % ((a, b)[side], bound)
        if core.kind == "+":
            yield "%s <= %d - %s" % (a, most, b)
        if core.kind == "*":
            root = int(most**0.5) if most < 2**52 else 2 ** (core.type // 2) - 1
            yield "%s <= %d && %s <= %d" % (a, root, b, root)


def keeping(module, core, tree, facts, whole):
    """What may mend it and changes no message's answer."""
    if core.kind in ("+", "*"):
        yield from masked(module, core, tree, facts)
    if core.kind in ("-", "/", "%"):
        yield from above_zero(module, whole, tree)
        yield from kept_low(module, tree)


def testing(module, core, tree, facts, whole, way):
    """What may mend it by a test."""
    for condition in conditions(module, core, tree, facts):
        if whole.role == "truth":
            yield from tested_before(module, way, condition)
        yield from guarded(module, whole, condition)
        yield from refined_before(module, whole, tree, condition)


def guarded(module, whole, condition):
    """The statement within an `if`."""
    if whole.statement is None:
        return
    begin, index = whole.statement.at, module.index_at(whole.statement.at)
    while module.token(index)[0] != ";":
        index += 1
    end = module.end_of(index)
    new = "if (%s) { %s }" % (condition, module.source(module.index_at(begin), index))
    yield "store it where it fits alone: `%s`." % new, [(begin, end, new)]


def end_of_value(module, field):
    """The byte behind what gives a field without bytes its value."""
    if field.source.kind == "cell":
        return module.end_of(module.index_at(field.source.cell[2]))
    return module.span(field.source)[1]


def help_of(module):
    if module.error.words == "unsafe =":
        return given.value_may_not_fit(module)
    core, facts = unsafe_at(module.watch.known.types, module.error.at)
    text = module.text
    lines = ["`%s` is worked out in %d bits, 0 to %d." % (core_text(core, text), core.type, 2**core.type - 1)]
    lines.append("%s, %s: %s." % (*(ranged(part, facts, text) for part in core.parts), outcome(core, facts)))
    lines.append(known_here(facts, text))
    whole, way = find(module)
    if whole is None:
        return lines
    tree = way[-1]
    for group in (keeping(module, core, tree, facts, whole), testing(module, core, tree, facts, whole, way)):
        said = next((said for said, edits in group if module.mends(*edits)), None)
        lines += ["mend: " + said] if said else []
    return lines
