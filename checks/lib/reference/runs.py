"""Validation of a message, word by word."""

import collections

from .scopes import bits_of
from .sizes import constant_size, element_kind
from .tokens import NUMBER_TYPES
from .values import value_of


class Memory:
    """A message in words to which others store by a plan, and the loads made of it, by the number of the message word."""

    def __init__(self, layout, words, stores):
        self.layout, self.words, self.stores, self.loaded = layout, words, collections.defaultdict(list), {}
        for store in stores:
            self.stores[store[1]].append(store)

    def load(self, number):
        if number not in self.loaded:
            word = self.layout.buffer_word(number)
            due = [s for s in self.stores[word] if s[0] <= len(self.loaded)]
            due.sort(key=lambda s: s[0])
            self.loaded[number] = due[-1][2] if due else self.words[word]
        return self.loaded[number]

    def byte(self, place):
        number, byte = self.layout.where(place)
        return self.load(number) >> 8 * byte & 255

    def lines(self):
        """The lines of the loads, in their order."""
        return "".join(self.layout.load_line(*load) for load in self.loaded.items())

    def number(self, place, base):
        width, is_big = NUMBER_TYPES[base]
        read = bytes(self.byte(k) for k in range(place, place + width))
        return int.from_bytes(read, "big" if is_big else "little")


class Rejected(Exception):
    """A reason, the position, and the frames: (type, field, start), the innermost first. `part` is a failed bit field."""

    def __init__(self, reason, position, frames):
        super().__init__(reason)
        self.reason, self.position, self.frames, self.part = reason, position, frames, None

    def within(self, frame):
        position = self.position if self.position is not None else frame[2]
        return Rejected(self.reason, position, self.frames + [frame])


def fails(reason, position=None):
    raise Rejected(reason, position, [])


def levels_in(core):
    if core is None:
        return set()
    own = {core.level} if core.kind == "name" else set()
    return own.union(*[levels_in(part) for part in core.parts])


def block_levels(statements):
    found = set()
    for statement in statements or []:
        if statement[0] in ("set", "return"):
            found |= levels_in(statement[-1])
        if statement[0] == "if":
            found |= levels_in(statement[1]) | block_levels(statement[2]) | block_levels(statement[3])
    return found


def field_levels(field):
    """The levels that a field's arguments and size name."""
    found = levels_in(field.extent[1]) | levels_in(getattr(field.element, "core", None))
    for core in getattr(field.element, "arguments", []):
        found |= levels_in(core)
    return found


class Run:
    def __init__(self, types, memory):
        self.types, self.memory = types, memory

    def definition(self, number, values, cells, places, start, end):
        made = self.types[number]
        level = len(values)
        if made.guard is not None and not value_of(made.guard, values):
            raise Rejected("constraint", start, [(made.name, "where", start)])
        fields = made.fields
        if fields is None:
            switch = value_of(made.switch, values)
            fields = next((fields for value, fields in made.cases if value == switch), made.default)
            if fields is None:
                raise Rejected("impossible", start, [(made.name, "switch", start)])
        return self.fields(made.name, fields, level, list(values), cells, places, start, end)

    def fields(self, name, fields, level, values, cells, places, start, end):
        named = later_levels(fields)
        for field, later in zip(fields, named):
            try:
                after = self.field(field, later, level, values, cells, places, start, end)
            except Rejected as failed:
                part = failed.part or field.parts[0].name
                raise failed.within((name, part, start)) from None
            level += len(field.parts)
            start = after
        return start

    def field(self, field, later, level, values, cells, places, start, end):
        element, form = field.element, field.extent[0]
        number, position = None, start
        if form == "once" and element.kind in ("number", "enum"):
            width = bits_of(element.base) // 8
            if start + width > end:
                fails("notenough")
            is_named = any(level + number in names for number, names in enumerate(later))
            read = is_named or element.kind == "enum" or any(part.refinement is not None for part in field.parts)
            number = self.memory.number(start, element.base) if read else None
            if element.kind == "enum" and number not in element.values:
                fails("constraint")
            position = start + width
        elif element.kind == "given":
            number = self.given(element, values, cells, places, start, end)
        else:
            position = self.array(field, values, cells, places, start, end)
        if field.copy is not None:
            cells[places[field.copy.cell]] = self.content(start, position)
        for part in field.parts:
            self.part(part, number, values, cells, places, start)
        return position

    def given(self, element, values, cells, places, start, end):
        """The value of a field without bytes."""
        if element.source == "expression":
            return value_of(element.core, values)
        return cells[places[element.cell]] if element.source == "cell" else end - start

    def content(self, start, end):
        return bytes(map(self.memory.byte, range(start, end)))

    def part(self, part, number, values, cells, places, start):
        value = number
        if value is not None and part.width is not None:
            value = value >> part.low & 2**part.width - 1
        values.append(value)
        try:
            if part.refinement is not None and not value_of(part.refinement, values):
                fails("constraint")
            if part.action is not None:
                returned = self.block(part.action, values + [start], cells, places)
                if returned == 0:
                    fails("action")
        except Rejected as failed:
            failed.part = part.name
            raise

    def block(self, statements, values, cells, places):
        """What is returned: None where the end is reached; an abort is a returned 0."""
        values = list(values)
        for statement in statements:
            if statement[0] == "set":
                cells[places[statement[1]]] = value_of(statement[2], values)
            elif statement[0] == "var":
                values.append(cells[places[statement[1]]])
            elif statement[0] == "return":
                return value_of(statement[1], values)
            elif statement[0] == "abort":
                return 0
            else:
                returned = self.block(statement[2 if value_of(statement[1], values) else 3], values, cells, places)
                if returned is not None:
                    return returned
        return None

    def array(self, field, values, cells, places, start, end):
        element, (form, core) = field.element, field.extent
        if form == "once":
            return self.element(element, values, cells, places, start, end)
        size = value_of(core, values)
        if form == "zeroterm":
            return self.up_to_zero(element, size, start, end)
        if start + size > end:
            fails("notenough")
        constant = constant_size(element_kind(self.types, element))
        if form == "single":
            if constant is not None and constant != size:
                fails("listsize")
            position = self.element(element, values, cells, places, start, start + size)
            if position != start + size:
                fails("listsize", start)
            return position
        if constant is not None and size % constant:
            fails("listsize")
        if element.kind == "number":
            return start + size
        position = start
        while position < start + size:
            position = self.element(element, values, cells, places, position, start + size)
        return position

    def element(self, element, values, cells, places, start, end):
        if element.kind in ("number", "enum"):
            width = bits_of(element.base) // 8
            if start + width > end:
                fails("notenough")
            if element.kind == "enum" and self.memory.number(start, element.base) not in element.values:
                fails("constraint")
            return start + width
        if element.kind == "all_zeros":
            for place in range(start, end):
                if self.memory.byte(place):
                    fails("padding", place)
        if element.kind in ("all_bytes", "all_zeros"):
            return end
        if element.kind == "unit":
            return start
        arguments = [value_of(core, values) for core in element.arguments]
        return self.definition(element.number, arguments, cells, [places[cell] for cell in element.cells], start, end)

    def up_to_zero(self, element, size, start, end):
        width = bits_of(element.base) // 8
        position = start
        while True:
            if position + width > start + size:
                fails("constraint")
            if position + width > end:
                fails("notenough")
            if self.memory.number(position, element.base) == 0:
                return position + width
            position += width


def later_levels(fields):
    """For each part of each field the levels that its own action, later parts and later fields name. The part's position has the
    level behind it in its own action, which is that of the next part."""
    found, later = [], set()
    for field in reversed(fields):
        parts = []
        for part in reversed(field.parts):
            later = later | block_levels(part.action)
            parts.append(later)
            later = later | levels_in(part.refinement)
        found.append(parts[::-1])
        later = later | field_levels(field)
    return found[::-1]


def run(types, number, values, cells, memory):
    """The verdict's line and the frames' lines; `cells`, with the content of each copy buffer behind them, are left as fields and
    actions wrote them."""
    try:
        position = Run(types, memory).definition(number, values, cells, list(range(len(cells))), 0, memory.layout.length)
    except Rejected as failed:
        position = failed.position
        frames = "".join("frame %s.%s %d\n" % frame for frame in failed.frames)
        return "reject %s %d\n%s" % (failed.reason, position, frames)
    return "accept %d\n" % position


def opened(made, cells):
    """The cells as a run begins, with an empty content for each copy buffer behind them."""
    return [*cells, *[b""] * len(made.buffers)]


def told(made, after):
    """The lines of the cells and of the copies after a run."""
    lines = ""
    for (name, field, _), value in zip(made.cells, after):
        lines += "out %s%s %d\n" % (name, "" if field is None else "." + field, value)
    for (name, _), content in zip(made.buffers, after[len(made.cells) :]):
        lines += " ".join(["copy", name] + [content.hex()] * (content != b"")) + "\n"
    return lines


def outcome_of(types, number, values, cells, memory):
    """The lines of a run's verdict, frames, cells and copies, and the cells after it; those given stay as they are."""
    after = opened(types[number], cells)
    lines = run(types, number, values, after, memory)
    return lines + told(types[number], after), after[: len(cells)]
