"""Help on K1, K2 and X1: sizes, and limits."""

from limits import MOST_CELLS, MOST_DEPTH, MOST_WEIGHT
from reference.sizes import COUNTS, Sizing, action_nodes, definition_nodes, element_kind, field_kind, field_lists, fields_kind, tree_fields
from reference.scopes import full_name

from .spelling import quoted

MOST_SHOWN = 6
LIMITS = dict(COUNTS, cells=MOST_CELLS, depth=MOST_DEPTH, weight=MOST_WEIGHT)


# ---- K1 and K2.


def field_refused(module):
    """The refused field of the types, and the type that holds it."""
    for made in module.watch.known.types:
        for fields in field_lists(made):
            for place, field in enumerate(fields):
                if field.at == module.error.at:
                    return made, field, place + 1 == len(fields)
    return None, None, False


def why_empty(module, element):
    """Why an element may take no byte: sentences, from the outside in."""
    types = module.watch.known.types
    if element.kind != "named":
        words = {"unit": "takes no byte", "all_bytes": "takes what is left, which may be nothing", "all_zeros": "takes what is left, which may be nothing"}
        return ["`%s` %s." % (element.kind, words.get(element.kind, "may take no byte"))]
    made = types[element.number]
    fields = next(fields for fields in field_lists(made) if fields_kind(types, fields)[0] == 0)
    where = "" if made.fields is not None else ", in one of its cases"
    parts = [one_empty(types, field) + " (%s)" % module.place(field.at) for field in fields[:MOST_SHOWN]]
    more = " and %d more" % (len(fields) - MOST_SHOWN) if len(fields) > MOST_SHOWN else ""
    lines = ["`%s` (%s) may take no byte%s, as no field of it needs one: %s%s." % (made.name, module.place(made.at), where, ", ".join(parts), more)]
    inner = next((field.element for field in fields if field.extent[0] == "once" and field.element.kind == "named"), None)
    return lines + (why_empty(module, inner) if inner is not None else [])


def one_empty(types, field):
    name = field.parts[0].name
    if field.extent[0] in ("bytes", "single"):
        return "`%s` is an array whose size may be 0" % name
    if field.element.kind == "named":
        return "`%s` is of the type `%s`" % (name, types[field.element.number].name)
    return "`%s` takes none" % name if field.element.kind == "given" else "`%s` is `%s`" % (name, field.element.kind)


def may_be_empty(module):
    made, field, _ = field_refused(module)
    lines = ["Elements follow each other until they fill the array's bytes, so each needs at least one."] + why_empty(module, field.element)
    if field.element.kind == "unit":
        return lines + ["mend: take the field out, or write `UINT8 %s[..]` for bytes at which nobody looks." % field.parts[0].name]
    return lines + [
        "mend: begin the element with a number that is always there; or, for one element that fills all the bytes, write"
        " `%s[:byte-size-single-element-array ..]`." % field.parts[0].name
    ]


def way_to_rest(module, element, trail):
    """The way from an element to what takes the rest: (words, place)."""
    if element.kind != "named":
        return trail + ["is `%s`" % element.kind]
    types = module.watch.known.types
    made = types[element.number]
    for fields in field_lists(made):
        last = fields[-1]
        if field_kind(types, last)[2]:
            return way_to_rest(module, last.element, trail + ["is of the type `%s`, whose last field `%s`, at %s," % (made.name, last.parts[0].name, module.place(last.at))])
    return trail


def rest_not_last(module):
    made, field, is_last = field_refused(module)
    types = module.watch.known.types
    name = field.parts[0].name
    way = " ".join(way_to_rest(module, field.element, []))
    is_element = field.extent[0] == "bytes" and element_kind(types, field.element)[2]
    lines = ["%s `%s` %s, and that takes all bytes up to the end." % ("Each element of" if is_element else "The field", name, way)]
    if is_element:
        return lines + [
            "So the first element would take the whole array: what takes the rest is no element of an array by bytes.",
            "mend: give the element a size of its own, in a field that it begins with, as `UINT8 data[length];`. Where zeros follow the last element,"
            " end the array before them, and let `all_zeros` be the last field behind it.",
        ]
    following = [other for fields in field_lists(made) if field in fields for other in fields[fields.index(field) + 1 :]]
    lines.append("Behind it stand fields that would find nothing: %s." % quoted([other.parts[0].name for other in following[:MOST_SHOWN]]))
    return lines + ["mend: say how many bytes it has, `%s[:byte-size-single-element-array n]`, or move it to the end." % (name)]


# ---- X1.


def limit_passed(module):
    which = module.error.words.split()[1]
    place = next(place for place, (tree, _, _) in enumerate(module.parser.definitions) if tree.name[2] == module.error.at)
    tree = module.parser.definitions[place][0]
    trees = [found for found, _, _ in module.parser.definitions[: place + 1]]
    if which in ("cells", "depth", "weight"):
        # Sizes are told in the order in which parts are taken.
        trees = module.trees[: next(place for place, found in enumerate(module.trees) if found is tree) + 1]
    count = BY_LIMIT[which](module, tree, trees)
    return count + ["mend: " + MENDS[which]]


def passed(which, count, words):
    return "%s; at most %d may be." % (words % count, LIMITS[which])


def definitions(module, tree, trees):
    return [passed("definitions", len(trees), "`" + tree.name[1] + "` is definition number %d of the text")]


def fields(module, tree, trees):
    lists = tree_fields(tree) or [tree.slots]
    most = max(lists, key=len)
    where = "one of its cases" if tree.kind == "casetype" else "it"
    said = passed("fields", len(most), "`" + tree.name[1] + "`: " + where + " has %d fields")
    return [said, "The first too many is `%s`, at %s." % (most[LIMITS["fields"]].name[1], module.place(most[LIMITS["fields"]].name[2]))]


def cases(module, tree, trees):
    first = tree.cases[LIMITS["cases"]].value
    return [passed("cases", len(tree.cases), "`" + tree.name[1] + "` has %d cases"), "The first too many stands at %s." % module.place(first[2])]


def parameters(module, tree, trees):
    return [passed("parameters", len(tree.parameters), "`" + tree.name[1] + "` has %d parameters")]


def nodes(module, tree, trees):
    counts = [definition_nodes(one) for one in trees]
    said = passed("nodes", sum(counts), "With `" + tree.name[1] + "` the text has %d nodes")
    largest = sorted(zip(counts, [one.name[1] for one in trees]), reverse=True)[:3]
    return [said, "`%s` has %d of them; the largest: %s." % (tree.name[1], counts[-1], ", ".join("`%s` %d" % (name, count) for count, name in largest))]


def action(module, tree, trees):
    longest = max((field for fields in tree_fields(tree) for field in fields), key=action_nodes)
    said = passed("action", action_nodes(longest), "`" + tree.name[1] + "` has an action of %d nodes")
    return [said, "It is that of `%s`, at %s." % (longest.name[1], module.place(longest.name[2]))]


def cells(module, tree, trees):
    counts = []
    for parameter in tree.parameters:
        is_cell = parameter.mutable and parameter.room is None
        record = module.definition_named(parameter.type[1]) if is_cell else None
        counts.append(len(record.slots) if record is not None and record.kind == "output" else int(is_cell))
    parts = ["`%s` %d" % (parameter.name[1], count) for parameter, count in zip(tree.parameters, counts) if count]
    return [passed("cells", sum(counts), "`" + tree.name[1] + "` has %d cells"), "Of its parameters: %s." % ", ".join(parts)]


def sizes_of(module, trees):
    sizing, seen = Sizing(module.watch.known), {}
    for place, one in enumerate(trees):
        sizing.sizes.append(sizing.definition(one, seen))
        seen[full_name(one.part, one.name[1])] = place
    return sizing.sizes


def depth(module, tree, trees):
    sizes = sizes_of(module, trees)
    wanted, at, chain = sizes[-1].depth, len(trees) - 1, [tree.name[1]]
    by_name = {full_name(one.part, one.name[1]): place for place, one in enumerate(trees)}
    while wanted > 1:
        _, first, last = module.definition_at(trees[at].name[2])
        names = [full_name(trees[at].part, module.name_at(token[2])) for token in module.tokens[first : last + 1] if token[0] == "NAME"]
        named = [by_name[name] for name in names if by_name.get(name, at) < at]
        at = next((place for place in named if sizes[place].depth == wanted - 1), None)
        if at is None:
            break
        chain.append(trees[at].name[1])
        wanted -= 1
    shown = chain if len(chain) <= 2 * MOST_SHOWN else chain[:MOST_SHOWN] + [".."] + chain[-MOST_SHOWN:]
    said = passed("depth", sizes[-1].depth, "`" + tree.name[1] + "` has a depth of %d")
    return [said, "Each names the next: %s." % " > ".join(name if name == ".." else "`%s`" % name for name in shown)]


def weight(module, tree, trees):
    sizes = sizes_of(module, trees)
    heavy = sorted(((size.weight, one.name[1]) for size, one in zip(sizes[:-1], trees)), reverse=True)[:3]
    said = passed("weight", sizes[-1].weight, "`" + tree.name[1] + "` weighs %d")
    return [said, "The heaviest before it: %s. A type counts in each field that names it, and in an array twice." % ", ".join("`%s` %d" % (name, one) for one, name in heavy)]


BY_LIMIT = {
    "definitions": definitions, "fields": fields, "cases": cases, "parameters": parameters, "nodes": nodes, "action": action,
    "cells": cells, "depth": depth, "weight": weight,
}  # fmt: skip
MENDS = {
    "definitions": "put constants into enums, and write alike types once, with parameters.",
    "fields": "take wider types for fields at which nobody looks (`UINT64` in place of eight `UINT8`, or one array), or divide the definition.",
    "cases": "join cases with the same fields in `default`, tested by a refinement, or switch twice, on a part of the value each time.",
    "parameters": "deliver by an output record, which is one parameter.",
    "nodes": "write alike types once, with parameters, and list values in enums in place of long conditions.",
    "action": "divide it: `unit` fields behind the field may have actions of their own.",
    "cells": "deliver what is needed alone, or wider cells.",
    "depth": "write an inner type's fields where it is named, or name it from fewer levels.",
    "weight": "nest arrays less: an array's element counts twice, at each level.",
}


def help_of(module):
    return {"K1": may_be_empty, "K2": rest_not_last, "X1": limit_passed}[module.error.code](module)
