"""What td accepts and a user still wants to hear: cells that an accepted message doesn't set, fields that can't be meant so, and names
that nothing names. What it knows of the language is the second reading's."""

import re

from reference.values import constant_of

COMMENTS = re.compile(rb"//[^\n]*|/\*.*?\*/", re.S)
WORD = re.compile(rb"[A-Za-z_][A-Za-z0-9_]*")
# Extents in which a type is met once at least.
ONCE = ("once", "single")


def joined(flows):
    """The cells that are set for sure after one of several ways. A way that doesn't go on is None, and so is what comes of none that does."""
    flows = [flow for flow in flows if flow is not None]
    return frozenset.intersection(*flows) if flows else None


def groups_of(made):
    """The choices of a type, each with its fields: a struct has one, without a name."""
    if made.fields is not None:
        return [(None, made.fields)]
    cases = [("case %d" % value, fields) for value, fields in made.cases]
    return cases + ([("default", made.default)] if made.default is not None else [])


def handed_on(made, field, places):
    """The cells of an entry point that a field's type has as its own."""
    return [places[cell] for cell in field.element.cells if cell < len(made.cells)]


class Lint:
    """What is sure of the cells of one entry point, by all ways through its types."""

    def __init__(self, types):
        self.types, self.early, self.known = types, {}, {}

    def read(self, cell, sure, name):
        """A cell is read there."""
        if cell not in sure:
            self.early.setdefault(cell, name)

    def block(self, statements, places, sure, name):
        """What is sure where the statements end, and where they return that the message goes on."""
        returned = []
        for statement in statements:
            if sure is None:
                break
            kind = statement[0]
            if kind == "set":
                sure = sure | {places[statement[1]]}
            elif kind == "var":
                self.read(places[statement[1]], sure, name)
            elif kind == "abort":
                sure = None
            elif kind == "return":
                is_refusal = statement[1].kind == "number" and statement[1].value == 0
                returned += [] if is_refusal else [sure]
                sure = None
            else:
                ways = [self.block(branch, places, sure, name) for branch in statement[2:4]]
                returned += [back for _, back in ways if back is not None]
                sure = joined([falls for falls, _ in ways])
        return sure, joined(returned)

    def fields(self, made, fields, places, sure):
        """What is sure behind fields, by what was before them."""
        for field in fields:
            if field.element.kind == "named" and sure is not None:
                after = self.definition(field.element.number, handed_on(made, field, places), sure)
                form, size = field.extent[:2]
                is_met = form in ONCE or size is not None and size.kind == "number" and size.value > 0
                sure = after if is_met else sure
            if field.element.kind == "given" and field.element.source == "cell" and sure is not None:
                self.read(places[field.element.cell], sure, "%s.%s" % (made.name, field.parts[0].name))
            for part in field.parts:
                if part.action is not None and sure is not None:
                    sure = joined(self.block(part.action, places, sure, "%s.%s" % (made.name, part.name)))
        return sure

    def definition(self, number, places, sure):
        key = number, tuple(places), sure
        if key not in self.known:
            made = self.types[number]
            self.known[key] = joined([self.fields(made, fields, places, sure) for _, fields in groups_of(made)])
        return self.known[key]

    def way(self, number, places, cell):
        """The choices of a way that leaves a cell unset: of each casetype on it the first case that does."""
        made = self.types[number]
        for choice, fields in groups_of(made):
            after = self.fields(made, fields, places, frozenset())
            if after is None or cell in after:
                continue
            found = [] if choice is None else ["%s: %s" % (made.name, choice)]
            for field in fields:
                if field.element.kind == "named" and field.extent[0] in ONCE:
                    own = handed_on(made, field, places)
                    found += self.way(field.element.number, own, cell) if cell in own else []
            return found
        return []


def set_in(statements):
    """The type's own cells that statements set, on any way."""
    for statement in statements:
        if statement[0] == "set":
            yield statement[1]
        elif statement[0] == "if":
            yield from set_in(statement[2])
            yield from set_in(statement[3])


def ever_set(types, number, places, seen):
    """The cells that some action sets, on any way."""
    made, key = types[number], (number, tuple(places))
    if key in seen:
        return
    seen.add(key)
    for _, fields in groups_of(made):
        for field in fields:
            for part in field.parts:
                yield from (places[cell] for cell in set_in(part.action or []))
            if field.element.kind == "named":
                yield from ever_set(types, field.element.number, handed_on(made, field, places), seen)


def said_of_entry(types, number):
    """Lines on the cells of an entry point."""
    made, lint = types[number], Lint(types)
    names = [name if slot is None else "%s.%s" % (name, slot) for name, slot, _ in made.cells]
    places = list(range(len(names)))
    sure = lint.definition(number, places, frozenset())
    early = sorted(lint.early.items())
    ever = set(ever_set(types, number, places, set()))
    for cell in places:
        if cell not in ever:
            yield "never %s %s" % (made.name, names[cell])
        elif sure is not None and cell not in sure:
            yield ", ".join(["unset %s %s" % (made.name, names[cell]), *lint.way(number, places, cell)])
    for cell, where in early:
        yield "early %s %s, in %s" % (made.name, names[cell], where)


def said_of_text(text, trees, known):
    """Lines on names that stand once: they are defined, and nothing names them. A name that a field has, too, counts as named."""
    words = WORD.findall(COMMENTS.sub(b" ", text))
    entries = {known.types[number].name.split(".")[-1] for number in known.entries}
    for tree in trees:
        name = tree.name[1]
        if words.count(name.encode()) == 1 and name not in entries:
            yield "unused %s" % name
        for parameter in getattr(tree, "parameters", None) or []:
            own = parameter.name[1]
            body = WORD.findall(COMMENTS.sub(b" ", text[parameter.name[2] : tree.name[2]]))
            if body.count(own.encode()) == 1:
                yield "unused %s of %s" % (own, name)


def said_of_types(types):
    """Lines on fields: a value that is no part of the message and always the same."""
    for made in types:
        for field in (field for _, fields in groups_of(made) for field in fields):
            element = field.element
            if element.kind == "given" and element.source == "expression" and constant_of(element.core) is not None:
                yield "constant %s.%s" % (made.name, field.parts[0].name)


def lines_of(text, module):
    """All lines on a text: `module` is what the second reading knows of it."""
    trees, known = module
    found = [line for number in known.entries for line in said_of_entry(known.types, number)]
    return found + list(said_of_types(known.types)) + list(said_of_text(text, trees, known))
