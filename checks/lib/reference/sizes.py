"""Sizes in bytes: a kind is (least, greatest or None, takes the rest). The rules on elements, and the limits."""

from types import SimpleNamespace as Record

from limits import (
    MOST_ACTION_NODES,
    MOST_CASES,
    MOST_CELLS,
    MOST_DEFINITIONS,
    MOST_DEPTH,
    MOST_FIELDS,
    MOST_NODES,
    MOST_PARAMETERS,
    MOST_WEIGHT,
    SIZE_CAP,
)

from .errors import ModuleError
from .scopes import bits_of, full_name
from .values import constant_of


def capped(least, most, rest):
    return min(least, SIZE_CAP), most if most is not None and most <= SIZE_CAP else None, rest


def constant_size(kind):
    return kind[0] if kind[0] == kind[1] else None


def element_kind(types, element):
    if element is None or element.kind in ("unit", "given"):
        return 0, 0, False
    if element.kind in ("all_bytes", "all_zeros"):
        return 0, None, True
    if element.kind == "named":
        return types[element.number].kind
    width = bits_of(element.base) // 8
    return width, width, False


def field_kind(types, field):
    kind = element_kind(types, field.element)
    form, size = field.extent
    if form == "once":
        return kind
    if form == "zeroterm":
        return kind[0], None, False
    constant = constant_of(size)
    return capped(constant, constant, False) if constant is not None else (0, None, False)


def fields_kind(types, fields):
    least, most, rest = 0, 0, False
    for field in fields:
        kind = field_kind(types, field)
        most = None if most is None or kind[1] is None else most + kind[1]
        least, rest = least + kind[0], kind[2]
        least, most, rest = capped(least, most, rest)
    return least, most, rest


def body_kind(types, made):
    if made.fields is not None:
        return fields_kind(types, made.fields)
    bodies = [fields for _, fields in made.cases] + ([made.default] if made.default is not None else [])
    kinds = [fields_kind(types, fields) for fields in bodies]
    most = None if any(kind[1] is None for kind in kinds) else max(kind[1] for kind in kinds)
    return min(kind[0] for kind in kinds), most, any(kind[2] for kind in kinds)


def field_lists(made):
    if made.fields is not None:
        return [made.fields]
    return [fields for _, fields in made.cases] + ([made.default] if made.default is not None else [])


def kind_breaches(types):
    """K1: an element of an array by bytes that may be empty. K2: what takes the rest isn't last, or is such an element."""
    for made in types:
        for fields in field_lists(made):
            for place, field in enumerate(fields):
                kind = element_kind(types, field.element)
                if field.extent[0] == "bytes" and kind[0] == 0:
                    yield ModuleError("K1", field.at, "element may be empty")
                last = place + 1 == len(fields)
                if (field.extent[0] == "bytes" and kind[2]) or (field_kind(types, field)[2] and not last):
                    yield ModuleError("K2", field.at, "rest not last")


def check_kinds(types):
    for breach in kind_breaches(types):
        raise breach


# ---- Limits, told on trees. Nodes are definitions, parameters, fields, cases, items, statements and expression nodes.

COUNTS = {
    "definitions": MOST_DEFINITIONS,
    "fields": MOST_FIELDS,
    "cases": MOST_CASES,
    "parameters": MOST_PARAMETERS,
    "nodes": MOST_NODES,
    "action": MOST_ACTION_NODES,
}


def expression_nodes(tree):
    return 0 if tree is None or tree.kind in ("field_ptr", "cell") else 1 + sum(expression_nodes(part) for part in tree.parts)


def statement_nodes(tree):
    nodes = 1
    for name in ("test", "value", "right"):
        nodes += expression_nodes(getattr(tree, name, None))
    return nodes + sum(statement_nodes(inner) for name in ("one", "other") for inner in getattr(tree, name, []))


def action_nodes(field):
    """Of a field's action: its statements, and the nodes of their expressions."""
    return sum(statement_nodes(tree) for tree in field.action.body) if field.action else 0


def inner_nodes(field):
    """Of a field's expressions and statements."""
    return sum(expression_nodes(tree) for tree in field.arguments + [field.size, field.source, field.refinement]) + action_nodes(field)


def tree_fields(tree):
    if tree.kind == "struct":
        return [tree.fields]
    if tree.kind == "casetype":
        return [case.fields for case in tree.cases] + ([tree.default] if tree.default is not None else [])
    return []


def definition_nodes(tree):
    nodes = 1 + len(getattr(tree, "items", [])) + len(getattr(tree, "slots", []))
    nodes += len(getattr(tree, "parameters", [])) + expression_nodes(getattr(tree, "guard", None))
    nodes += expression_nodes(getattr(tree, "switch", None)) + len(getattr(tree, "cases", []))
    return nodes + sum(1 + inner_nodes(field) for fields in tree_fields(tree) for field in fields)


def check_counts(trees):
    nodes = 0
    for count, tree in enumerate(trees):
        nodes += definition_nodes(tree)
        found = {
            "definitions": count + 1,
            "fields": max([len(fields) for fields in tree_fields(tree)] + [len(getattr(tree, "slots", []))]),
            "cases": len(getattr(tree, "cases", [])),
            "parameters": len(getattr(tree, "parameters", [])),
            "nodes": nodes,
            "action": max([action_nodes(field) for fields in tree_fields(tree) for field in fields], default=0),
        }
        for which, most in COUNTS.items():
            if found[which] > most:
                raise ModuleError("X1", tree.name[2], "limit " + which)


class Sizing:
    """The depth and weight of each definition, by what each name in its text names; a local hides a definition."""

    def __init__(self, known):
        self.known, self.sizes, self.part = known, [], None

    def used(self, name, hidden, seen):
        found = None if name in hidden else seen.get(full_name(self.part, name))
        return self.sizes[found] if found is not None else Record(depth=0, weight=0)

    def names_in(self, tree):
        if tree is None or tree.kind in ("field_ptr", "cell"):
            return
        if tree.kind == "NAME":
            yield tree.value
        if tree.kind == "sizeof" and tree.operand[0] == "NAME":
            yield tree.operand[1]
        for part in tree.parts:
            yield from self.names_in(part)

    def depth_of(self, tree, hidden, seen):
        return max([self.used(name, hidden, seen).depth for name in self.names_in(tree)], default=0)

    def block_depth(self, statements, hidden, seen):
        hidden, depth = set(hidden), 0
        for tree in statements:
            for name in ("test", "value", "right"):
                depth = max(depth, self.depth_of(getattr(tree, name, None), hidden, seen))
            for name in ("one", "other"):
                depth = max(depth, self.block_depth(getattr(tree, name, []), hidden, seen))
            if tree.kind == "var":
                hidden.add(tree.name[1])
        return depth

    def fields_size(self, fields, hidden, seen):
        hidden, depth, weight = set(hidden), 0, 0
        for field in fields:
            used = self.used(field.type[1], hidden, seen) if field.type[0] == "NAME" else Record(depth=0, weight=0)
            one = 32 + 8 * inner_nodes(field) + used.weight
            weight += 2 * one + 64 if field.array else one
            depth = max([depth, used.depth] + [self.depth_of(tree, hidden, seen) for tree in field.arguments + [field.size, field.source]])
            hidden.add(field.name[1])
            depth = max(depth, self.depth_of(field.refinement, hidden, seen))
            if field.action:
                depth = max(depth, self.block_depth(field.action.body, hidden, seen))
        return Record(depth=depth, weight=weight)

    def constant_depth(self, token, hidden, seen):
        return self.used(token[1], hidden, seen).depth if token is not None and token[0] == "NAME" else 0

    def definition(self, tree, seen):
        depth, weight, hidden, self.part = 0, 32, set(), tree.part
        if tree.kind == "enum":
            inner = dict(seen)
            for item in tree.items:
                depth = max(depth, self.constant_depth(item.value, hidden, inner))
        elif tree.kind == "alias" and tree.target[0] == "NAME":
            used = self.used(tree.target[1], hidden, seen)
            depth, weight = used.depth, weight + used.weight
        elif tree.kind == "output":
            weight += 32 * len(tree.slots)
        elif tree.kind in ("struct", "casetype"):
            for parameter in tree.parameters:
                depth = max([depth] + [self.constant_depth(token, hidden, seen) for token in (parameter.type, parameter.room)])
                hidden.add(parameter.name[1])
            depth = max(depth, self.depth_of(tree.guard, hidden, seen))
            weight += 8 * (len(tree.parameters) + expression_nodes(tree.guard))
            if tree.kind == "casetype":
                depth = max(depth, self.depth_of(tree.switch, hidden, seen))
                weight += 8 * expression_nodes(tree.switch) + 8 * len(tree.cases)
                depth = max([depth] + [self.constant_depth(case.value, hidden, seen) for case in tree.cases])
            for fields in tree_fields(tree):
                size = self.fields_size(fields, hidden, seen)
                depth, weight = max(depth, size.depth), weight + size.weight
        return Record(depth=1 + depth, weight=weight)


def check_sizes(trees, known):
    sizing, seen, types = Sizing(known), {}, iter(known.types)
    for place, tree in enumerate(trees):
        size = sizing.definition(tree, seen)
        sizing.sizes.append(size)
        seen[full_name(tree.part, tree.name[1])] = place
        cells = len(next(types).cells) if tree.kind in ("struct", "casetype") else 0
        for which, passed in (("cells", cells > MOST_CELLS), ("depth", size.depth > MOST_DEPTH), ("weight", size.weight > MOST_WEIGHT)):
            if passed:
                raise ModuleError("X1", tree.name[2], "limit " + which)
