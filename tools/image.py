"""Images of code, read strictly, as tables (docs/language/images.md)."""

from instructions import FIELDS, FIELDS_OF, NAMES, NUMBERS
from limits import (
    FIRST_IMAGE_INSTRUCTIONS,
    FIRST_IMAGE_ROWS,
    IMAGE_BUFFERS,
    IMAGE_CELLS,
    IMAGE_INSTRUCTIONS,
    IMAGE_MAPPED,
    IMAGE_PARAMETERS,
    IMAGE_REGISTERS,
    IMAGE_ROOM,
    IMAGE_ROWS,
)

NO_FIELD = 0xFFFFFFFF
TABLES = ("names", "sites", "cell maps", "sets", "routines", "entries", "instructions")

LETTERS = b"ABCDEFGHIJKLMNOPQRSTUVWXYZabcdefghijklmnopqrstuvwxyz_"
# Words that are no half of a name with a dot.
KEYWORDS = frozenset(
    b"typedef struct casetype enum switch case default entrypoint output where mutable unit all_bytes all_zeros sizeof this if else"
    b" return abort var field_pos field_ptr is_range_okay true false PUINT8 UINT8 UINT8BE UINT16 UINT16BE UINT32 UINT32BE UINT64"
    b" UINT64BE".split()
)


class Version:
    """What distinguishes a version of the format: the most rows of a table and numbers of all sets together, the most
    instructions, whether a site names its routine and a name may be two, joined by a dot, whether there are copy buffers (then a
    cell map has numbers for them too), and the last kind of instruction."""

    def __init__(self, most_rows, most_instructions, is_parted, has_buffers, last_kind):
        self.most_rows, self.most_instructions = most_rows, most_instructions
        self.has_owners = self.has_dots = is_parted
        self.has_buffers = has_buffers
        self.most_mapped = IMAGE_MAPPED if has_buffers else IMAGE_CELLS
        self.kinds = NAMES[: NUMBERS[last_kind] + 1]


VERSIONS = {
    1: Version(FIRST_IMAGE_ROWS, FIRST_IMAGE_INSTRUCTIONS, False, False, "Mark"),
    2: Version(IMAGE_ROWS, IMAGE_INSTRUCTIONS, True, False, "Mark"),
    3: Version(IMAGE_ROWS, IMAGE_INSTRUCTIONS, True, True, "Copy"),
    4: Version(IMAGE_ROWS, IMAGE_INSTRUCTIONS, True, True, "Left"),
}


def is_word(name):
    """Whether bytes are a letter or `_`, and then letters, digits and `_`."""
    return name[:1] != b"" and name[0] in LETTERS and all(byte in LETTERS + b"0123456789" for byte in name)


def is_dotted(name):
    """Whether bytes are two words joined by a dot, neither of them a keyword."""
    halves = name.split(b".")
    return len(halves) == 2 and all(is_word(half) and half not in KEYWORDS for half in halves)


class Fault(Exception):
    """The first wrong field: its code, its first byte, and what it is."""

    def __init__(self, code, at, what):
        super().__init__(code)
        self.code, self.at, self.what = code, at, what


class Reader:
    """Reads the fields of an image in their order."""

    def __init__(self, image):
        self.image, self.at = image, 0

    def taken(self, count, what):
        if len(self.image) - self.at < count:
            raise Fault("I3", len(self.image), what)
        self.at += count
        return self.image[self.at - count : self.at]

    def number(self, count, what, is_allowed=lambda number: True, code="I4"):
        at = self.at
        number = int.from_bytes(self.taken(count, what), "little")
        if not is_allowed(number):
            raise Fault(code, at, what)
        return number

    def at_most(self, most, what):
        return self.number(4, what, lambda number: number <= most)

    def below(self, count, what):
        return self.number(4, what, lambda number: number < count)

    def header(self):
        self.number(4, "the first four bytes", lambda number: number == 0x49334454, "I1")
        self.number_of_version = self.number(2, "the version", lambda number: number in VERSIONS, "I2")
        self.version = VERSIONS[self.number_of_version]
        self.number(2, "the two bytes that are zero", lambda number: number == 0)
        counts = [self.at_most(self.version.most_rows, "the count of %s" % table) for table in TABLES[:-1]]
        most = self.version.most_instructions if counts[4] else 0
        return counts + [self.at_most(most, "the count of instructions")]

    def name(self, number, seen):
        what = "name %d" % number
        count = self.number(4, "the length of %s" % what, lambda length: length >= 1)
        at = self.at
        name = self.taken(count, what)
        if name in seen or not (is_word(name) or self.version.has_dots and is_dotted(name)):
            raise Fault("I4", at, what)
        seen.add(name)
        return name

    def site(self, number, names, routines):
        """Type, field and routine; the routine is None in version 1, which has none there."""
        what = "site %d" % number
        ty, field = self.below(names, "the type of %s" % what), self.below(names, "the field of %s" % what)
        return ty, field, self.below(routines, "the routine of %s" % what) if self.version.has_owners else None

    def map(self, number):
        what = "cell map %d" % number
        return [self.number(4, what) for _ in range(self.at_most(self.version.most_mapped, "the count of %s" % what))]

    def set(self, number, left):
        what = "set %d" % number
        numbers = []
        for _ in range(self.at_most(left, "the count of %s" % what)):
            least = numbers[-1] + 1 if numbers else 0
            numbers.append(self.number(8, what, lambda value, least=least: value >= least))
        return numbers

    def sets(self, count):
        left = self.version.most_rows
        for number in range(count):
            numbers = self.set(number, left)
            left -= len(numbers)
            yield numbers

    def rooms(self, what):
        """The room of each copy buffer."""
        count = self.at_most(IMAGE_BUFFERS, "the count of buffers %s" % what) if self.version.has_buffers else 0
        return [self.number(4, "the room of buffer %d %s" % (k, what), lambda room: 1 <= room <= IMAGE_ROOM) for k in range(count)]

    def routines(self, counts):
        """Of each name, parameters, cells, registers and length, and behind them the room of each buffer."""
        left = counts[6]
        for number in range(counts[4]):
            what = "of routine %d" % number
            name = self.below(counts[0], "the name %s" % what)
            params = self.at_most(IMAGE_PARAMETERS, "the count of parameters %s" % what)
            cells = self.at_most(IMAGE_CELLS, "the count of cells %s" % what)
            registers = self.number(
                4, "the count of registers %s" % what, lambda count, least=params: least <= count <= IMAGE_REGISTERS
            )
            is_last = number == counts[4] - 1
            length = self.number(
                4,
                "the length %s" % what,
                lambda length, left=left, is_last=is_last: 1 <= length <= left and (length == left or not is_last),
            )
            left -= length
            yield name, params, cells, registers, length, *self.rooms(what)

    def entry(self, number, names, routines):
        """Routine, parameters and cells, and behind them the name of each buffer."""
        what = "of entry %d" % number
        routine = self.below(len(routines), "the routine %s" % what)
        params, cells = [], []
        for k in range(routines[routine][1]):
            name = self.below(names, "the name of parameter %d %s" % (k, what))
            params.append((name, self.number(4, "the bits of parameter %d %s" % (k, what), lambda bits: bits in (8, 16, 32, 64))))
        for k in range(routines[routine][2]):
            name = self.below(names, "the name of cell %d %s" % (k, what))
            field = self.number(4, "the field of cell %d %s" % (k, what), lambda field: field < names or field == NO_FIELD)
            bits = self.number(4, "the bits of cell %d %s" % (k, what), lambda bits: bits in (0, 8, 16, 32, 64))
            cells.append((name, field, bits))
        buffers = [self.below(names, "the name of buffer %d %s" % (k, what)) for k in range(len(routines[routine]) - 5)]
        return routine, params, cells, *buffers

    def instruction(self, number):
        what = "of instruction %d" % number
        kind = NAMES[self.number(1, "the kind %s" % what, lambda kind: kind < len(self.version.kinds))]
        used = FIELDS_OF[kind]
        fields = {
            field: self.number(count, "%s %s" % (field, what), lambda value, field=field: field in used or value == 0)
            for field, count in FIELDS
        }
        return (kind,) + tuple(fields[field] for field in used)


class Code:
    """The version of an image, and its tables as they stand there, each a list."""

    def __init__(self, image, make_reader=Reader):
        reader = make_reader(image)
        counts = reader.header()
        self.version = reader.number_of_version
        seen = set()
        self.names = [reader.name(number, seen) for number in range(counts[0])]
        self.sites = [reader.site(number, counts[0], counts[4]) for number in range(counts[1])]
        self.maps = [reader.map(number) for number in range(counts[2])]
        self.sets = list(reader.sets(counts[3]))
        self.routines = list(reader.routines(counts))
        self.entries = [reader.entry(number, counts[0], self.routines) for number in range(counts[5])]
        self.instructions = [reader.instruction(number) for number in range(counts[6])]
        if reader.at < len(image):
            raise Fault("I5", reader.at, "bytes behind the image")

    def name(self, number):
        return self.names[number].decode()

    def site(self, number):
        ty, field, _ = self.sites[number]
        return "%s.%s" % (self.name(ty), self.name(field))

    def site_row(self, number):
        """A site and, where it names one, its routine."""
        routine = self.sites[number][2]
        return self.site(number) + ("" if routine is None else " of routine %d" % routine)
