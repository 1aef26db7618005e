"""Reading off: the value that spells a message which is accepted. No test is made again; `writing` says whether the value spells it."""

from .tokens import NUMBER_TYPES
from .values import value_of
from .writing import Refused, has_bytes, written


class Reader:
    """Reads values off bytes, each from a place up to an end, and moves the place."""

    def __init__(self, types, message):
        self.types, self.message, self.place = types, message, 0

    def take(self, count):
        self.place += count
        return self.message[self.place - count : self.place]

    def number(self, base):
        width, is_big = NUMBER_TYPES[base]
        return int.from_bytes(self.take(width), "big" if is_big else "little")

    def definition(self, number, values, end):
        made = self.types[number]
        fields = made.fields
        if fields is None:
            switch = value_of(made.switch, values)
            fields = next((fields for value, fields in made.cases if value == switch), made.default)
        values, given = list(values), []
        for field in fields:
            read = self.field(field, values, end)
            given += read
            is_number = field.extent[0] == "once" and field.element.kind in ("number", "enum")
            values += read if is_number else [self.value(field, values, read)]
        return given

    @staticmethod
    def value(field, values, read):
        """What a field without bytes brings into scope. A cell isn't known here."""
        if field.element.kind != "given":
            return None
        return read[0] if field.element.source == "bytes_left" else value_of(field.element.core, values)

    def field(self, field, values, end):
        """The values of a field: one, or one for each bit field of a unit."""
        form, core = field.extent
        if form == "once" and field.parts[0].width is not None:
            number = self.number(field.element.base)
            return [number >> part.low & 2**part.width - 1 for part in field.parts]
        if form == "once":
            return [self.element(field.element, values, end)]
        if form == "zeroterm":
            return [self.up_to_zero(field.element)]
        return [self.sized(field.element, form, values, self.place + value_of(core, values))]

    def sized(self, element, form, values, end):
        if form == "single":
            return self.element(element, values, end)
        if has_bytes(element):
            return self.take(end - self.place)
        found = []
        while self.place < end:
            found.append(self.element(element, values, end))
        return found

    def up_to_zero(self, element):
        found = [self.number(element.base)]
        while found[-1]:
            found.append(self.number(element.base))
        return found

    def element(self, element, values, end):
        if element.kind == "given":
            return end - self.place if element.source == "bytes_left" else None
        if element.kind in ("number", "enum"):
            return self.number(element.base)
        if element.kind == "unit":
            return None
        if element.kind in ("all_bytes", "all_zeros"):
            rest = self.take(end - self.place)
            return rest if element.kind == "all_bytes" else len(rest)
        return self.definition(element.number, [value_of(core, values) for core in element.arguments], end)


def read_off(types, number, arguments, message):
    """The value of a message that is accepted, which may end before the message does, and the place of its end."""
    reader = Reader(types, message)
    return reader.definition(number, list(arguments), len(message)), reader.place


def value_that_spells(types, number, arguments, cells, message):
    """The value that spells a message which is accepted; None where no value does: a bit that no bit field names is set."""
    value, end = read_off(types, number, arguments, message)
    try:
        return value if written(types, number, arguments, cells, value) == message[:end] else None
    except Refused:
        return None


def as_json(value):
    """A value as it stands in a job."""
    if isinstance(value, list):
        return [as_json(inner) for inner in value]
    return value.hex() if isinstance(value, bytes) else value
