"""Values made at random: walks over types that keep refinements and sizes where they can, and values changed in one place."""

import random

from reference.scopes import bits_of
from reference.values import value_of
from reference.writing import has_bytes

SMALL = list(range(12)) + [16, 20, 24, 32, 40, 64, 100, 127, 128, 255, 256, 1000, 65535]
TRIES = 40
# So long an array is made at most.
MOST_BYTES = 512
# A list up to a zero, and what takes the rest of a message that has no end of its own.
MOST_ELEMENTS = 12


class NoValue(Exception):
    """A walk that found no value: no number was met that a refinement takes, `where` is false, a case is missing, or a size too large."""


def literals(core):
    """The numbers that an expression names."""
    if core is None:
        return []
    own = [core.value] if core.kind == "number" else []
    return own + [number for part in core.parts for number in literals(part)]


class Walk:
    """Makes a value of a type. Each call answers the value and how many bytes spell it."""

    def __init__(self, types, seed):
        self.types, self.random = types, random.Random(seed)

    def digits(self, count):
        return self.random.randbytes(count) if self.random.random() < 0.8 else bytes(count)

    def number(self, bits, near=()):
        choice = self.random.random()
        if near and choice < 0.6:
            number = self.random.choice(list(near)) + self.random.choice([0, 0, 0, 0, 1, -1])
        else:
            number = self.random.choice(SMALL) if choice < 0.9 else self.random.randrange(2**bits)
        return max(0, number) % 2**bits

    def definition(self, number, values, room):
        made = self.types[number]
        fields = made.fields
        if made.guard is not None and not value_of(made.guard, values):
            raise NoValue
        if fields is None:
            switch = value_of(made.switch, values)
            fields = next((fields for value, fields in made.cases if value == switch), made.default)
            if fields is None:
                raise NoValue
        values, found, size = list(values), [], 0
        for field in fields:
            left = None if room is None else max(0, room - size)
            own, count = self.field(field, values, left)
            found += own
            size += count
        return found, size

    def field(self, field, values, room):
        form = field.extent[0]
        if form != "once":
            value, size = self.array(field, values)
            values.append(None)
            return [value], size
        if field.element.kind == "given":
            return [self.given(field, values, room)], 0
        if field.element.kind not in ("number", "enum"):
            value, size = self.element(field.element, values, room)
            values.append(None)
            return [value], size
        found = [self.part(field.element, part, values) for part in field.parts]
        return found, bits_of(field.element.base) // 8

    def given(self, field, values, room):
        """What stands for a field without bytes. How many bytes are left is known in an array alone; a cell is taken to hold 0."""
        element, refinement = field.element, field.parts[0].refinement
        if element.source == "bytes_left":
            return self.part(element, field.parts[0], values) if room is None else self.left(refinement, values, room)
        values.append(value_of(element.core, values) if element.source == "expression" else 0)
        if refinement is not None and not value_of(refinement, values):
            raise NoValue
        return None

    def left(self, refinement, values, room):
        values.append(room)
        if refinement is not None and not value_of(refinement, values):
            raise NoValue
        return room

    def part(self, element, part, values):
        """A number that the part's refinement takes; it is the next value in scope."""
        bits, near = part.width or bits_of(element.base), element.values if element.kind == "enum" else literals(part.refinement)
        for _ in range(TRIES):
            number = self.number(bits, near)
            if element.kind == "enum" and number not in element.values:
                continue
            if part.refinement is None or value_of(part.refinement, [*values, number]):
                values.append(number)
                return number
        raise NoValue

    def element(self, element, values, room):
        if element.kind in ("number", "enum"):
            near = element.values if element.kind == "enum" else ()
            return self.number(bits_of(element.base), near), bits_of(element.base) // 8
        if element.kind == "unit":
            return None, 0
        if element.kind in ("all_bytes", "all_zeros"):
            count = self.random.randrange(MOST_ELEMENTS) if room is None else room
            return self.digits(count) if element.kind == "all_bytes" else count, count
        return self.definition(element.number, [value_of(core, values) for core in element.arguments], room)

    def array(self, field, values):
        element, (form, core) = field.element, field.extent
        size = value_of(core, values)
        if form == "zeroterm":
            width = bits_of(element.base) // 8
            count = self.random.randrange(max(1, min(size // width, MOST_ELEMENTS)))
            return [self.number(8 * width) or 1 for _ in range(count)] + [0], width * (count + 1)
        if size > MOST_BYTES:
            raise NoValue
        if form == "single":
            return self.element(element, values, size)
        return (self.digits(size), size) if has_bytes(element) else self.elements(element, values, size)

    def elements(self, element, values, size):
        """Elements that fill so many bytes, if some are met that do."""
        found, filled = [], 0
        for _ in range(TRIES + size):
            if filled == size:
                break
            value, count = self.element(element, values, size - filled)
            if count and filled + count <= size:
                found.append(value)
                filled += count
        return found, filled

    # ---- Values changed in one place.

    def changed(self, value):
        """A value with another number, another byte, or another count of elements in one place."""
        if isinstance(value, list) and value:
            place = self.random.randrange(len(value))
            return value[:place] + [self.changed(value[place])] + value[place + 1 :]
        if isinstance(value, bytes) and value:
            place = self.random.randrange(len(value))
            return value[:place] + self.random.randbytes(1) + value[place + 1 :]
        if type(value) is int:
            return self.random.choice([value + 1, max(0, value - 1), self.number(8), self.number(16), self.number(64, [value, 2**20])])
        return value
