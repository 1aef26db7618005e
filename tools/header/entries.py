"""The entry points of an image, with names that a file of C or of Rust may have."""

from ..c_names import undotted, unique
from ..image import NO_FIELD


class Part:
    """A parameter, a cell or a copy buffer: its name in the code, its own name in the file, its place in the call, and its bits
    (of a buffer: its room; 0 of a cell that is a place in the message)."""

    def __init__(self, told, own, place, bits, field=None):
        self.told, self.own, self.place, self.bits, self.field = told, own, place, bits, field


class Record:
    """An output record: its own name, and its members."""

    def __init__(self, own):
        self.own, self.members, self.taken = own, [], set()


class Entry:
    """An entry point: its number and type, its parameters, and what it delivers: numbers, records, copies."""

    def __init__(self, code, number, escaped, reserved):
        routine, params, cells, *buffers = code.entries[number]
        self.number, self.told = number, code.name(code.routines[routine][0])
        taken = set(reserved)
        self.params = [Part(code.name(name), unique(escaped(code.name(name)), taken), place, bits) for place, (name, bits) in enumerate(params)]
        self.cells, self.singles, self.records, self.order = [], [], {}, []
        for place, (name, field, bits) in enumerate(cells):
            self.add_cell(code, place, code.name(name), field, bits, escaped, taken)
        self.copies = []
        for place, (name, room) in enumerate(zip(buffers, code.routines[routine][5:])):
            self.copies.append(Part(code.name(name), unique(escaped(code.name(name)), taken), place, room))

    def add_cell(self, code, place, name, field, bits, escaped, taken):
        if field == NO_FIELD:
            cell = Part(name, unique(escaped(name), taken), place, bits)
            self.singles.append(cell)
            self.order.append(cell)
        else:
            if name not in self.records:
                self.records[name] = Record(unique(escaped(name), taken))
                self.order.append(self.records[name])
            record = self.records[name]
            cell = Part(name, unique(escaped(code.name(field)), record.taken), place, bits, code.name(field))
            record.members.append(cell)
        self.cells.append(cell)


def entries_of(code, escaped, reserved):
    """The entry points that a name asks for: the first of each name. Their files' names are by `escaped`, and none is reserved."""
    found, names = [], set()
    for number, (routine, *_) in enumerate(code.entries):
        name = code.routines[routine][0]
        if name not in names:
            names.add(name)
            found.append(Entry(code, number, escaped, reserved))
    return found


def titles_of(entries, taken):
    """For each entry point a name of the file's own."""
    return [unique(undotted(entry.told), taken) for entry in entries]


def rows_of(image):
    """The bytes of an image, as rows of numbers."""
    return ["    " + " ".join("%d," % byte for byte in image[at : at + 24]) for at in range(0, len(image), 24)]
