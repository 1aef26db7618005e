"""The header for C of an image: the image as bytes, numbers by names, a struct for each output record, and calls with types."""

import hashlib

from ..c_names import escaped, undotted, unique
from .entries import Record, entries_of, rows_of, titles_of

WIDTHS = {8: "uint8_t", 16: "uint16_t", 32: "uint32_t", 64: "uint64_t", 0: "uint32_t"}
# Parameters and variables of the written functions.
RESERVED = ("s", "call", "words", "count", "place", "length", "parts", "part_count", "answer", "size")

HEAD = """/* Made by td-header %(version)s from an image of %(size)d bytes, SHA-256 %(sum)s.
   Make it anew in place of editing it. The machine that td_validate runs is proved; this header isn't. */
#ifndef TD_HEADER_%(guard)s_H
#define TD_HEADER_%(guard)s_H
#include "td.h"
#if TD_VERSION >> 16 != %(major)s
#error "this header was made for another version of td.h: make it anew by td-header"
#endif
"""

TESTS = """/* Whether a number names this name (of a longer one the first 64 bytes are compared, and its size). */
static inline bool %(name)s_is_called(td_session *s, uint32_t number, const char *name, size_t size) {
  char bytes[64];
  uint64_t told = 0;
  if (td_name(s, number, bytes, sizeof bytes, &told) != TD_DONE || told != size) return false;
  for (size_t k = 0; k < size && k < sizeof bytes; k++)
    if (bytes[k] != name[k]) return false;
  return true;
}

static inline bool %(name)s_has_entry(td_session *s, uint32_t entry, const char *name, size_t size, uint64_t params, uint64_t cells, uint64_t buffers) {
  td_entry_point told;
  uint32_t number = 0;
  if (td_entry(s, name, size, &number) != TD_DONE || number != entry || td_describe(s, entry, &told) != TD_DONE) return false;
  return told.param_count == params && told.cell_count == cells && told.buffer_count == buffers;
}

static inline bool %(name)s_has_param(td_session *s, uint32_t entry, size_t place, const char *name, size_t size, uint32_t bytes) {
  td_part told;
  return td_param(s, entry, place, &told) == TD_DONE && told.bytes == bytes && %(name)s_is_called(s, told.name, name, size);
}

/* Without a field its size is 0; of a cell that is a place in the message the bytes are 0. */
static inline bool %(name)s_has_cell(td_session *s, uint32_t entry, size_t place, const char *name, size_t size, const char *field, size_t field_size, uint32_t bytes) {
  td_part told;
  if (td_cell(s, entry, place, &told) != TD_DONE || !%(name)s_is_called(s, told.name, name, size)) return false;
  if ((told.is_place ? 0 : told.bytes) != bytes || (told.has_field != 0) != (field_size != 0)) return false;
  return !field_size || %(name)s_is_called(s, told.field, field, field_size);
}

static inline bool %(name)s_has_copy(td_session *s, uint32_t entry, size_t place, const char *name, size_t size, uint32_t room) {
  td_buffer_part told;
  return td_buffer(s, entry, place, &told) == TD_DONE && told.room == room && %(name)s_is_called(s, told.name, name, size);
}

/* TD_DONE if the session's code has this header's entry points, with parameters, cells and copy buffers of these names and widths;
   else TD_UNFIT. */
static inline int32_t %(name)s_fits(td_session *s) {
"""

OPENS = """/* Opens a session by an image, which may be another one than this header's, if it fits. If it doesn't, the answer is TD_UNFIT and the
   handle is closed. */
static inline int32_t %(name)s_open_image(td_session *s, const void *image, size_t size, td_fault *fault) {
  int32_t answer = td_open(s, image, size, fault);
  if (answer != TD_DONE) return answer;
  answer = %(name)s_fits(s);
  if (answer != TD_DONE) td_close(s);
  return answer;
}

/* Opens a session by this header's image. */
static inline int32_t %(name)s_open(td_session *s, td_fault *fault) {
  return %(name)s_open_image(s, %(name)s_image, sizeof %(name)s_image, fault);
}
"""


def quoted(name):
    return '"%s", %d' % (name, len(name))


def enum(prefix, pairs, taken):
    return "enum { %s };" % ", ".join("%s = %d" % (unique("%s_%s" % (prefix, undotted(word)), taken), number) for word, number in pairs)


class Header:
    """What is written of one image."""

    def __init__(self, code, name, image, version):
        self.code, self.name, self.image, self.version = code, name, image, version
        self.taken = {"%s_%s" % (name, word) for word in ("image", "fits", "open", "open_image", "is_called", "has_entry", "has_param", "has_cell", "has_copy")}
        self.entries = entries_of(code, escaped, RESERVED)
        self.titles = titles_of(self.entries, set())

    def text(self):
        known = {"version": self.version, "size": len(self.image), "sum": hashlib.sha256(self.image).hexdigest(), "guard": self.name.upper(),
                 "major": self.version.split(".")[0], "name": self.name}
        lines = [HEAD % known, *self.numbers(), ""]
        lines += ["static const uint8_t %s_image[%d] = {" % (self.name, len(self.image)), *rows_of(self.image), "};", ""]
        lines += [(TESTS % known).rstrip("\n"), *self.tests(), "  return TD_DONE;", "}", "", OPENS % known]
        for entry, title in zip(self.entries, self.titles):
            lines += self.calls(entry, "%s_%s" % (self.name, title), title)
        return "\n".join(lines + ["#endif", ""])

    def numbers(self):
        """Enumerations: entry points, the parts of each, and names as frames have them."""
        yield "/* Numbers of entry points; places among args, cells and copy buffers; numbers of names, as a failure's frames have them. */"
        yield enum(self.name, [(title, entry.number) for entry, title in zip(self.entries, self.titles)], self.taken)
        for entry, title in zip(self.entries, self.titles):
            prefix = "%s_%s" % (self.name, title)
            yield enum(prefix, [("ARGS", len(entry.params)), ("CELLS", len(entry.cells)), ("COPIES", len(entry.copies))], self.taken)
            if entry.params:
                yield enum(prefix + "_arg", [(part.told, part.place) for part in entry.params], self.taken)
            if entry.cells:
                names = [(cell.told if cell.field is None else "%s_%s" % (cell.told, cell.field), cell.place) for cell in entry.cells]
                yield enum(prefix + "_cell", names, self.taken)
            if entry.copies:
                yield enum(prefix + "_copy", [(part.told, part.place) for part in entry.copies], self.taken)
        if self.code.names:
            yield enum(self.name + "_name", [(word.decode(), number) for number, word in enumerate(self.code.names)], self.taken)

    def tests(self):
        name = self.name
        for entry in self.entries:
            counts = "%d, %d, %d" % (len(entry.params), len(entry.cells), len(entry.copies))
            yield "  if (!%s_has_entry(s, %d, %s, %s)) return TD_UNFIT;" % (name, entry.number, quoted(entry.told), counts)
            for part in entry.params:
                yield "  if (!%s_has_param(s, %d, %d, %s, %d)) return TD_UNFIT;" % (name, entry.number, part.place, quoted(part.told), part.bits // 8)
            for cell in entry.cells:
                words = "%s, %s, %d" % (quoted(cell.told), quoted(cell.field or ""), cell.bits // 8)
                yield "  if (!%s_has_cell(s, %d, %d, %s)) return TD_UNFIT;" % (name, entry.number, cell.place, words)
            for part in entry.copies:
                yield "  if (!%s_has_copy(s, %d, %d, %s, %d)) return TD_UNFIT;" % (name, entry.number, part.place, quoted(part.told), part.bits)

    def calls(self, entry, prefix, title):
        structs, outs, takes = [], [], []
        for it in entry.order:
            if isinstance(it, Record):
                outs.append("struct %s_%s *%s" % (prefix, it.own, it.own))
                structs += ["struct %s_%s {" % (prefix, it.own)]
                structs += ["  %s %s;%s" % (WIDTHS[cell.bits], cell.own, "" if cell.bits else " /* a place in the message */") for cell in it.members]
                structs += ["};", ""]
                takes += ["  %s->%s = (%s)call->cells[%d];" % (it.own, cell.own, WIDTHS[cell.bits], cell.place) for cell in it.members]
            else:
                outs.append("%s *%s" % (WIDTHS[it.bits], it.own))
                takes.append("  *%s = (%s)call->cells[%d];" % (it.own, WIDTHS[it.bits], it.place))
        for part in entry.copies:
            outs.append("struct %s_%s *%s" % (prefix, part.own, part.own))
            structs += ["/* `count` of the bytes are the copy. */", "struct %s_%s {" % (prefix, part.own), "  uint64_t count;", "  uint8_t bytes[%d];" % part.bits, "};", ""]
            takes.append("  (void)td_copy(s, %d, %s->bytes, sizeof %s->bytes, &%s->count);" % (part.place, part.own, part.own, part.own))
        params = ["%s %s" % (WIDTHS[part.bits], part.own) for part in entry.params]
        asked = ["call"] + [part.own for part in entry.params]
        taken = ["s", "call"] + [it.own for it in entry.order] + [part.own for part in entry.copies]
        lines = structs
        lines += ["/* What a validation by %s is asked: arguments, and each cell 0. */" % entry.told]
        lines += ["static inline void %s_ask(%s) {" % (prefix, ", ".join(["td_call *call"] + params))]
        lines += ["  call->entry = %d;" % entry.number, "  call->arg_count = %d;" % len(entry.params), "  call->cell_count = %d;" % len(entry.cells)]
        lines += ["  call->args[%d] = %s;" % (part.place, part.own) for part in entry.params]
        lines += ["  for (int k = 0; k < %d; k++) call->cells[k] = 0;" % len(entry.cells)] if entry.cells else []
        lines += ["}", "", "/* What an accepted message delivers. */"]
        lines += ["static inline void %s_take(%s) {" % (prefix, ", ".join(["td_session *s", "const td_call *call"] + outs))]
        lines += ["  (void)s;"] if not entry.copies else []
        lines += takes + (["  (void)call;"] if not entry.cells else []) + ["}", ""]
        for end, where, given in (
            ("", ["uint32_t place", "uint32_t length"], ""),
            ("_parts", ["const td_stretch *parts", "size_t part_count"], "parts, part_count, "),
        ):
            words = ["td_session *s", "const uint64_t *words", "size_t count"] + where + params + outs + ["td_call *call"]
            told = "a message in stretches" if end else "a message of `length` bytes from byte `place` of the words on"
            lines += ["/* td_validate%s of %s as %s. What it delivers is written if the answer is TD_ACCEPTED, else stays. */" % (end, told, entry.told)]
            lines += ["static inline int32_t %s_validate_%s%s(%s) {" % (self.name, title, end, ", ".join(words)), "  int32_t answer;"]
            lines += ["  if (!call) return TD_POINTER;", "  %s_ask(%s);" % (prefix, ", ".join(asked))]
            lines += [] if end else ["  call->place = place;", "  call->length = length;"]
            lines += ["  answer = td_validate%s(s, words, count, %scall);" % (end, given)]
            lines += ["  if (answer == TD_ACCEPTED) %s_take(%s);" % (prefix, ", ".join(taken)), "  return answer;", "}", ""]
        return lines
