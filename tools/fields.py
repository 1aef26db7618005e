"""A message field by field: the second reading's run, which keeps a row for each field that it reaches; and the job of the value that spells it."""

from types import SimpleNamespace as Row

from reference import answers, runs
from reference.scopes import bits_of
from reference.spelled import as_json, value_that_spells

# Of an array, or of what takes the rest, so many bytes are shown.
MOST_BYTES = 12


class Fields(runs.Run):
    """A run that keeps rows: depth, first byte, the byte after the last (None where it failed), type, name, and for the note the
    field and the values that were read."""

    def __init__(self, types, memory):
        super().__init__(types, memory)
        # In an array of elements of a type: its name, and how many elements were begun.
        self.depth, self.rows, self.array_name, self.count = -1, [], None, 0

    def row(self, start, kind, name):
        self.rows.append(Row(depth=self.depth, start=start, end=None, kind=kind, name=name, field=None, values=[]))
        return self.rows[-1]

    def definition(self, number, values, cells, places, start, end):
        element, held = None, (self.array_name, self.count)
        if self.array_name is not None:
            element = self.row(start, self.types[number].name, "%s[%d]" % held)
        self.array_name, self.depth = None, self.depth + 1
        try:
            after = super().definition(number, values, cells, places, start, end)
        finally:
            self.array_name, self.count, self.depth = held[0], held[1] + 1, self.depth - 1
        if element is not None:
            element.end = after
        return after

    def type_name(self, element):
        if element.kind == "named":
            return self.types[element.number].name
        return element.base if element.kind in ("number", "enum", "given") else element.kind

    def field(self, field, later, level, values, cells, places, start, end):
        element, form = field.element, field.extent[0]
        before = len(values)
        row = self.row(start, self.type_name(element) + ("" if form == "once" else "[]"), " ".join(part.name for part in field.parts))
        row.field = field
        is_list = form == "bytes" and element.kind == "named"
        held = self.array_name, self.count
        self.array_name, self.count, self.depth = field.parts[0].name if is_list else None, 0, self.depth + is_list
        try:
            row.end = super().field(field, later, level, values, cells, places, start, end)
        finally:
            row.values = values[before:]
            self.array_name, self.count, self.depth = held[0], held[1], self.depth - is_list
        return row.end


class Told:
    """The bytes of the message as they are shown: of a word that was loaded those of the load, else those that the job gives."""

    def __init__(self, layout, words, loaded):
        self.layout, self.loaded, self.length = layout, loaded, layout.length
        held = [loaded.get(number, words[word]) for number, (_, word) in enumerate(layout.words)]
        self.bytes = bytes(held[number] >> 8 * byte & 255 for number, byte in map(layout.where, range(layout.length)))

    def state(self, is_read, start, after):
        if is_read:
            return "read"
        whole = all(self.layout.where(place)[0] in self.loaded for place in range(start, after))
        return "in a loaded word" if whole else "not loaded"


def note(row, told):
    """The values of a field's parts, or its bytes, and whether it was read."""
    if row.field is None:
        return ""
    element, form, start = row.field.element, row.field.extent[0], row.start
    if element.kind == "given":
        return "= %s" % shown(row.values[0]) if row.values else ""
    is_number = form == "once" and element.kind in ("number", "enum")
    after = row.end
    if after is None:
        width = bits_of(element.base) // 8 if is_number else 0
        after = start + width if start + width <= told.length else start
    if after == start or (element.kind == "named" and form != "zeroterm"):
        return ""
    if is_number:
        is_read = bool(row.values) and row.values[0] is not None
        raw = int.from_bytes(told.bytes[start:after], "big" if element.base.endswith("BE") else "little")
        return "= %s  %s" % (" ".join(number_of(part, raw) for part in row.field.parts), told.state(is_read, start, after))
    digits = told.bytes[start : min(after, start + MOST_BYTES)].hex(" ") + (" .." if after - start > MOST_BYTES else "")
    is_read = form == "zeroterm" or element.kind in ("enum", "all_zeros") or row.field.copy is not None
    return "= %s  %s" % (digits, told.state(is_read, start, after))


def number_of(part, raw):
    return shown(raw if part.width is None else raw >> part.low & 2**part.width - 1)


def shown(value):
    return str(value) if value < 10 else "%d (0x%x)" % (value, value)


def value_job(known, job, accepted, told):
    """The job of the value that spells an accepted message, with the value's end and the message's length; else words that say why none does."""
    number, arguments, cells = job
    if accepted is None:
        return "it isn't accepted"
    value = value_that_spells(known.types, number, arguments, cells, told.bytes)
    if value is None:
        return "a bit is set that no bit field names"
    made = {"entry": known.types[number].name, "args": arguments, "cells": cells, "value": as_json(value)}
    made = {name: part for name, part in made.items() if name == "value" or (part and (name != "cells" or any(part)))}
    return Row(job=made, end=accepted, length=told.length)


def rows_of(known, job):
    """The rows of a run with their notes, its report, and the job of the value that spells the message, or why there is none."""
    number, arguments, cells, layout, words, stores, written = job
    memory = runs.Memory(layout, words, stores)
    run = Fields(known.types, memory)
    frames, accepted, after = [], None, runs.opened(known.types[number], cells)
    try:
        accepted = run.definition(number, arguments, after, list(range(len(after))), 0, layout.length)
        verdict = "accept %d" % accepted
    except runs.Rejected as failed:
        verdict = "reject %s %d" % (failed.reason, failed.position)
        frames = ["frame %s.%s %d" % frame for frame in failed.frames]
    lines = "".join(line + "\n" for line in [verdict, *frames]) + runs.told(known.types[number], after)
    told = Told(layout, words, memory.loaded)
    for row in run.rows:
        row.note = note(row, told)
    unended = [row for row in run.rows if row.end is None]
    if unended:
        unended[-1].note = ("%s  <-- it failed here" % unended[-1].note).strip()
    value = value_job(known, (number, arguments, cells), accepted, told)
    return run.rows, answers.written_line(written) + lines + memory.lines(), value


def left_of(row):
    size = "" if row.end is None else row.end - row.start
    return "%6d %5s  %s%s %s" % (row.start, size, "  " * row.depth, row.kind, row.name)


def table(rows, verdict):
    """The rows as text, and the verdict."""
    widest = max([len(left_of(row)) for row in rows], default=0)
    lines = ["%6s %5s  %s" % ("byte", "bytes", "type and name")]
    return lines + [("%-*s  %s" % (widest, left_of(row), row.note)).rstrip() for row in rows] + [verdict]
