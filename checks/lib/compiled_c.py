"""Written C (of tdc, and of images), compiled and called: each load of a word goes through a function that keeps it, and that stores as other
threads would."""

import ctypes
import os
import shutil
import subprocess

from codes import NO_FIELD

# These compilers say nothing with these flags.
COMPILERS = ("cc", "gcc", "clang")
FLAGS = ["-std=c11", "-Wall", "-Wextra", "-Werror", "-Wpedantic", "-Wshadow", "-Wconversion"]
# What C leaves undefined ends the check.
SANITIZED = ["-fsanitize=undefined", "-fsanitize-undefined-trap-on-error"]
REASONS = ("notenough", "impossible", "listsize", "action", "constraint", "padding", "accept")
MOST_LOADS = 131_072
MOST_FRAMES = 32
NUMBERS = {0: ctypes.c_uint32, 8: ctypes.c_uint8, 16: ctypes.c_uint16, 32: ctypes.c_uint32, 64: ctypes.c_uint64}

HOOK = "#include <stdint.h>\nuint64_t test_load(const uint64_t *word);\n#define TD_LOAD(word) test_load(word)\n"
LOADS = """
#include <stddef.h>
#include <stdint.h>
#include <stdlib.h>
static uint64_t *words, count, loads, due, overwrites, stores;
static const uint64_t *plan;
uint64_t loaded[%d][2];
void test_begin(uint64_t *w, uint64_t c, uint64_t o, const uint64_t *p, uint64_t s)
{
    words = w, count = c, overwrites = o, plan = p, stores = s, loads = 0, due = 0;
}
uint64_t test_loads(void) { return loads; }
uint64_t test_load(const uint64_t *word)
{
    size_t at = (size_t)(word - words);
    uint64_t value;
    if (at >= count || loads == sizeof loaded / sizeof *loaded)
        abort();
    for (; due < stores && plan[3 * due] <= loads; due++)
        words[plan[3 * due + 1]] = plan[3 * due + 2];
    value = words[at];
    loaded[loads][0] = at;
    loaded[loads++][1] = value;
    if (overwrites)
        words[at] = ~value;
    return value;
}
""" % MOST_LOADS


def verdict_of(accepted, reason):
    """The reason's word, if the answer and the reason are one verdict."""
    word = REASONS[reason] if 0 <= reason < len(REASONS) else ""
    return word if word and accepted == (word == "accept") else "two verdicts"


class Frame(ctypes.Structure):
    _fields_ = [("type", ctypes.c_char_p), ("field", ctypes.c_char_p), ("start", ctypes.c_uint32)]


class Outcome(ctypes.Structure):
    _fields_ = [
        ("reason", ctypes.c_int),
        ("position", ctypes.c_uint32),
        ("count", ctypes.c_uint32),
        ("frame", Frame * MOST_FRAMES),
    ]


def compilers():
    """The compilers that are there, each by its own program, and the names of those that aren't."""
    found, missing = {}, []
    for name in COMPILERS:
        path = shutil.which(name)
        if path is None:
            missing.append(name)
        else:
            found.setdefault(os.path.realpath(path), name)
    return list(found.values()), missing


def compiled(compiler, words):
    """What a compiler complains of; an empty text where it doesn't."""
    ended = subprocess.run([compiler, *words], capture_output=True, check=False)
    said = ended.stderr.decode(errors="replace")
    return said or ("status %d" % ended.returncode if ended.returncode else "")


class Functions:
    """The functions of a file of C, in a library that is loaded here; `complaint` is what the compiler said, or empty."""

    def __init__(self, source, library, compiler, words, code, name):
        self.code, self.name = code, name
        self.complaint = compiled(compiler, [*FLAGS, *words, "-fPIC", "-shared", source, "-o", library])
        self.library = None if self.complaint else ctypes.CDLL(library)

    def call(self, entry, first, end, arguments, cells, loads):
        """How a call ends: verdict, position, frames, cells, copies, and what `loads` answers after it. `first` are the arguments that say where the
        message is, and `end` is how the function's name ends."""
        routine, params, own_cells = self.code.entries[entry][:3]
        rooms = self.code.routines[routine][5:]
        records = {}
        for number, (name, field, bits) in enumerate(own_cells):
            key = number if field == NO_FIELD else "of %d" % name
            records.setdefault(key, []).append((number, bits))
        structs = []
        for members in records.values():
            kind = type("Record", (ctypes.Structure,), {"_fields_": [("n%d" % number, NUMBERS[bits]) for number, bits in members]})
            structs.append(kind(*[cells[number] for number, _ in members]))
        # What an earlier run left in a buffer is no part of the next one's copy.
        copies = [copy_of(room)(room, (0xAA,) * room) for room in rooms]
        outcome = Outcome(reason=len(REASONS))
        given = [NUMBERS[bits](value) for (_, bits), value in zip(params, arguments)]
        given += [ctypes.byref(struct) for struct in structs + copies]
        # In the names of C a `_` stands in the place of the dot that the types of parts have.
        entry_name = self.code.name(self.code.routines[routine][0]).replace(".", "_")
        function = getattr(self.library, "%s_validate_%s%s" % (self.name, entry_name, end))
        function.restype = ctypes.c_bool
        accepted = function(*first, *given, ctypes.byref(outcome))
        left = {name: getattr(struct, name) for struct in structs for name, _ in struct._fields_}
        frames = [outcome.frame[k] for k in range(outcome.count)]
        return Ended(
            verdict_of(accepted, outcome.reason),
            outcome.position,
            [(frame.type.decode(), frame.field.decode(), frame.start) for frame in frames],
            [left["n%d" % number] for number in range(len(own_cells))],
            [bytes(copy.bytes[: copy.count]) for copy in copies],
            loads(),
        )


def words_in(memory):
    padded = memory + bytes(-len(memory) % 8)
    return (ctypes.c_uint64 * max(1, len(padded) // 8)).from_buffer_copy(padded or bytes(8))


class Validator(Functions):
    """The functions of NAME.c. `is_watched`: loads are kept, stores are made, and what C leaves undefined ends the check."""

    def __init__(self, folder, name, code, compiler, is_watched):
        self.is_watched = is_watched
        base = os.path.join(folder, name)
        words = ["-O1" if is_watched else "-O2"]
        if is_watched:
            for end, text in ((".hook.h", HOOK), (".loads.c", LOADS)):
                with open(base + end, "w", encoding="ascii") as file:
                    file.write(text)
            words += [*SANITIZED, "-include", base + ".hook.h", base + ".loads.c"]
        super().__init__(base + ".c", "%s.%s.%d.so" % (base, compiler, is_watched), compiler, words, code, name)

    def watch(self, words, length, overwrites, stores):
        numbers = [number for store in sorted(stores, key=lambda store: store[0]) for number in store]
        self.plan = (ctypes.c_uint64 * max(1, len(numbers)))(*numbers)
        sizes = map(ctypes.c_uint64, (-(-length // 8), overwrites, len(stores)))
        count, overwrites, stores = sizes
        self.library.test_begin(words, count, overwrites, self.plan, stores)

    def loads(self):
        if not self.is_watched:
            return None
        self.library.test_loads.restype = ctypes.c_uint64
        loaded = (ctypes.c_uint64 * 2 * MOST_LOADS).in_dll(self.library, "loaded")
        return [(loaded[k][0], loaded[k][1]) for k in range(self.library.test_loads())]

    def run(self, entry, arguments, cells, memory, length, overwrites=False, stores=()):
        """How a run over the first bytes of the memory ends."""
        words = words_in(memory)
        if self.is_watched:
            self.watch(words, length, overwrites, stores)
        return self.call(entry, (words, ctypes.c_uint32(length)), "", arguments, cells, self.loads)


class Piece(ctypes.Structure):
    _fields_ = [("words", ctypes.POINTER(ctypes.c_uint64)), ("place", ctypes.c_uint32), ("size", ctypes.c_uint32)]


class InPieces(Functions):
    """The functions of NAME_parts.c, for messages in pieces; what C leaves undefined ends the check."""

    def __init__(self, folder, name, code, compiler):
        base = os.path.join(folder, name + "_parts")
        super().__init__(base + ".c", "%s.%s.so" % (base, compiler), compiler, ["-O1", *SANITIZED], code, name)

    def run(self, entry, arguments, cells, message, lead):
        """How a run over a message in two pieces ends, of which the second begins behind `lead` bytes of its words."""
        half = len(message) // 2
        front, back = words_in(message[:half]), words_in(bytes(lead) + message[half:])
        pieces = (Piece * 2)(Piece(front, 0, half), Piece(back, lead, len(message) - half))
        return self.call(entry, (pieces, ctypes.c_uint32(2)), "_parts", arguments, cells, lambda: None)


def copy_of(room):
    """The struct of a copy buffer with so much room."""
    return type("Copy", (ctypes.Structure,), {"_fields_": [("count", ctypes.c_uint32), ("bytes", ctypes.c_uint8 * room)]})


class Ended:
    """How a run ended."""

    def __init__(self, reason, position, frames, cells, copies, loads):
        self.reason, self.position, self.frames = reason, position, frames
        self.cells, self.copies, self.loads = cells, copies, loads

    def without_loads(self):
        return self.reason, self.position, self.frames, self.cells, self.copies

    def leaves(self, cells):
        """Whether a rejected message left what it would deliver: cells as they were, and no copy."""
        return self.reason == "accept" or (self.cells == cells and not any(self.copies))

    def report(self, code, entry):
        """The report that `td run` writes of such a run."""
        verdict = self.reason if self.reason == "accept" else "reject " + self.reason
        lines = ["%s %d" % (verdict, self.position)]
        lines += ["frame %s.%s %d" % frame for frame in self.frames]
        _, _, own_cells, *buffers = code.entries[entry]
        for (name, field, _), value in zip(own_cells, self.cells):
            lines.append("out %s%s %d" % (code.name(name), "" if field == NO_FIELD else "." + code.name(field), value))
        lines += [("copy %s %s" % (code.name(name), copy.hex())).rstrip() for name, copy in zip(buffers, self.copies)]
        return lines + ["load %d %016x" % load for load in self.loads]

    def line(self, code):
        """The line that td_try_code writes of it, in numbers."""
        verdict = "accept" if self.reason == "accept" else "reject %d" % REASONS.index(self.reason)
        words = ["%s %d" % (verdict, self.position)]
        for ty, field, start in self.frames:
            spot = field if field in ("where", "switch") else code.names.index(field.encode())
            words.append("f %d %s %d %d" % (code.names.index(ty.encode()), spot, REASONS.index(self.reason), start))
        words += ["c %d" % cell for cell in self.cells] + ["b %s" % (copy.hex() or "-") for copy in self.copies]
        return " ".join(words + ["l %d %d" % load for load in self.loads])
