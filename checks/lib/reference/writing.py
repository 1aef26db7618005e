"""Writing: the bytes that a value spells, or the first fault of the value.

A value is a number, a list, `bytes`, or None for the empty one. A path is a tuple of places from 0.
"""

from limits import MOST_MESSAGE

from .runs import Rejected, Run, opened
from .scopes import bits_of
from .tokens import NUMBER_TYPES
from .values import value_of


class Refused(Exception):
    """A value is refused: E1 to E5, and the path in it; E5 has none."""

    def __init__(self, code, path=()):
        super().__init__(code)
        self.code, self.path = code, path


def want(holds, code, path):
    if not holds:
        raise Refused(code, path)


def number_of(value, bits, path):
    want(type(value) is int, "E1", path)
    want(value < 2**bits, "E2", path)
    return value


def list_of(value, path):
    want(isinstance(value, list), "E1", path)
    return value


def ends_in_zero(values):
    """Whether the last value is a zero, and the only one."""
    return values[-1:] == [0] and values.count(0) == 1


def has_bytes(element):
    """Whether the value of an array by bytes is bytes: that of `UINT8`."""
    return element.kind == "number" and element.base == "UINT8"


class Writer(Run):
    """Appends the bytes that values spell. A part's refinement and action are tested as a run does, on the number that is written."""

    def __init__(self, types):
        super().__init__(types, None)
        self.written, self.claims = bytearray(), []

    def want_room(self, count):
        want(len(self.written) + count <= MOST_MESSAGE, "E5", ())

    def append(self, content):
        self.want_room(len(content))
        self.written += content

    def append_zeros(self, count):
        self.want_room(count)
        self.written += bytes(count)

    def append_number(self, number, base):
        width, is_big = NUMBER_TYPES[base]
        self.append(number.to_bytes(width, "big" if is_big else "little"))

    # ---- Types: a struct's values are counted first, those of a case after `where` and the choice.

    def write(self, number, values, cells, places, value, path):
        made = self.types[number]
        given, fields = list_of(value, path), made.fields
        if fields is not None:
            self.count(fields, given, path)
        want(made.guard is None or value_of(made.guard, values), "E3", path)
        if fields is None:
            switch = value_of(made.switch, values)
            fields = next((fields for value, fields in made.cases if value == switch), made.default)
            want(fields is not None, "E3", path)
            self.count(fields, given, path)
        self.write_fields(fields, list(values), cells, places, given, path)

    def count(self, fields, given, path):
        want(len(given) == sum(len(field.parts) for field in fields), "E1", path)

    def write_fields(self, fields, values, cells, places, given, path):
        at = 0
        for field in fields:
            count = len(field.parts)
            if field.parts[0].width is not None:
                self.write_unit(field, values, cells, places, given[at : at + count], path, at)
            else:
                self.write_field(field, values, cells, places, given[at], (*path, at))
            at += count

    def test_part(self, part, number, values, cells, places, start, path):
        try:
            self.part(part, number, values, cells, places, start)
        except Rejected:
            raise Refused("E3", path) from None

    def write_unit(self, field, values, cells, places, given, path, at):
        """Bit fields: each is written and tested in its turn; the unit's bytes stand with the first."""
        base, start, number = field.element.base, len(self.written), 0
        for place, (part, value) in enumerate(zip(field.parts, given)):
            own = (*path, at + place)
            number |= number_of(value, part.width, own) << part.low
            del self.written[start:]
            self.append_number(number, base)
            self.test_part(part, number, values, cells, places, start, own)

    def write_field(self, field, values, cells, places, value, path):
        element, (form, _), start = field.element, field.extent, len(self.written)
        if form == "once":
            self.write_element(element, values, cells, places, value, path)
        else:
            self.write_array(field, values, cells, places, value, path)
        number = value if form == "once" and element.kind in ("number", "enum") else None
        if element.kind == "given":
            number = self.told(element, values, cells, places, value, start, path)
        self.test_part(field.parts[0], number, values, cells, places, start, path)

    # ---- Elements and arrays.

    def write_listed(self, element, value, path):
        self.append_number(number_of(value, bits_of(element.base), path), element.base)

    def test_listed(self, element, value, path):
        want(element.kind != "enum" or value in element.values, "E3", path)

    def write_bytes(self, value, path):
        want(isinstance(value, bytes), "E1", path)
        self.append(value)

    def write_element(self, element, values, cells, places, value, path):
        if element.kind in ("number", "enum"):
            self.write_listed(element, value, path)
            self.test_listed(element, value, path)
        elif element.kind == "given":
            pass
        elif element.kind == "all_bytes":
            self.write_bytes(value, path)
        elif element.kind == "all_zeros":
            want(type(value) is int, "E1", path)
            self.append_zeros(value)
        elif element.kind == "unit":
            want(value is None, "E1", path)
        else:
            arguments = [value_of(core, values) for core in element.arguments]
            self.write(element.number, arguments, cells, [places[cell] for cell in element.cells], value, path)

    def write_array(self, field, values, cells, places, value, path):
        element, (form, core), start = field.element, field.extent, len(self.written)
        size = value_of(core, values)
        claims, self.claims = self.claims, []
        if form == "zeroterm":
            want(ends_in_zero(list_of(value, path)), "E1", path)
            self.write_elements(element, values, cells, places, value, path)
            want(len(self.written) - start <= size, "E3", path)
            self.claims = claims + self.claims
            return
        is_listed = form == "single" and element.kind in ("number", "enum")
        if is_listed:
            self.write_listed(element, value, path)
        elif form == "single":
            self.write_element(element, values, cells, places, value, path)
        elif has_bytes(element):
            self.write_bytes(value, path)
        else:
            self.write_elements(element, values, cells, places, list_of(value, path), path)
        want(len(self.written) - start == size, "E4", path)
        self.keep_claims()
        self.claims = claims
        if is_listed:
            self.test_listed(element, value, path)

    def write_elements(self, element, values, cells, places, given, path):
        for place, value in enumerate(given):
            self.write_element(element, values, cells, places, value, (*path, place))

    def told(self, element, values, cells, places, value, start, path):
        """The number of a field without bytes. What is said of the bytes that are left is looked at where they end."""
        if element.source != "bytes_left":
            want(value is None, "E1", path)
            return self.given(element, values, cells, places, start, None)
        number = number_of(value, bits_of(element.base), path)
        self.claims.append((start, number, path))
        return number

    def keep_claims(self):
        for place, number, path in self.claims:
            want(place + number == len(self.written), "E4", path)


def written(types, number, arguments, cells, value):
    """The bytes that are written of a value; Refused where it is refused. The cells stay as they were, and nothing is copied."""
    writer, left = Writer(types), opened(types[number], cells)
    writer.write(number, arguments, left, list(range(len(left))), value, ())
    writer.keep_claims()
    return bytes(writer.written)
