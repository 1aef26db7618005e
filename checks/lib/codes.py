"""Code as text and as the bytes of an image, and code made at random."""

import functools
import random
import sys

from instructions import FIELDS, FIELDS_OF, NUMBERS, places_of

sys.dont_write_bytecode = True
from program import TOP  # noqa: E402

sys.path.append(TOP)
from tools import image  # noqa: E402

# The reader of images, which those who import this module use under this name.
IMAGES = image

NO_FIELD = 0xFFFFFFFF
SITES = places_of("site")
LIMITS = {field: 256**count for field, count in FIELDS}


class Tables:
    """The tables of code, each a list: `names` of bytes; `sites` (type, field, routine); `maps`, `sets` of numbers; `routines`
    (name, parameters, cells, registers, length, and the room of each copy buffer); `entries` (routine, parameters (name, bits),
    cells (name, field, bits), and the name of each buffer); `instructions` (kind, operands in the listing's order)."""

    def __init__(self):
        self.names, self.sites, self.maps, self.sets = [b"A"], [(0, 0, 0)], [], []
        self.routines, self.entries, self.instructions = [], [], []


def u32(*numbers):
    return b"".join(number.to_bytes(4, "little") for number in numbers)


@functools.lru_cache(maxsize=1024)
def instruction_bytes(instruction):
    kind, *operands = instruction
    fields = dict(zip(FIELDS_OF[kind], operands))
    tail = b"".join(fields.get(field, 0).to_bytes(count, "little") for field, count in FIELDS)
    return bytes([NUMBERS[kind]]) + tail


def has_newer(code):
    """Whether an instruction is of a kind that version 3 hasn't."""
    return any(instruction[0] not in IMAGES.VERSIONS[3].kinds for instruction in code.instructions)


def image_of(code, version=None):
    """The image of tables, which need not be within the format's limits; where no version is given, in that in which their code is
    written. In version 1 the routines of sites are left out; before version 3 there are no buffers."""
    version = version or (4 if has_newer(code) else 3)
    tables = (code.names, code.sites, code.maps, code.sets, code.routines, code.entries, code.instructions)
    image = [b"TD3I" + version.to_bytes(2, "little") + bytes(2), u32(*map(len, tables))]
    image += [u32(len(name)) + name for name in code.names]
    image += [u32(*(site[:2] if version == 1 else site)) for site in code.sites]
    image += [u32(len(cells), *cells) for cells in code.maps]
    image += [u32(len(numbers)) + b"".join(number.to_bytes(8, "little") for number in numbers) for numbers in code.sets]
    for routine in code.routines:
        image += [u32(*routine[:5])] + ([u32(len(routine[5:]), *routine[5:])] if version >= 3 else [])
    for routine, params, cells, *buffers in code.entries:
        image += [u32(routine)] + [u32(*param) for param in params] + [u32(*cell) for cell in cells] + [u32(*buffers)]
    return b"".join(image + [instruction_bytes(instruction) for instruction in code.instructions])


def large_image(names, instructions, version=3):
    """The image of code with so many names and sites, and so many instructions (a number that four divides) in one routine; a
    fourth of them are of the newest kind in version 4."""
    code = Tables()
    code.names = [b"name%05d" % k for k in range(names)]
    code.sites = [(k, (7 * k) % names, 0) for k in range(names)]
    code.routines = [[0, 0, 0, 9, instructions]]
    code.entries = [(0, [], [])]
    second = ("Left", 2) if version == 4 else ("Const", 2, 77)
    steps = [("Fetch", 1, 1, 4, 5), second, ("Op", 3, 12, 1, 2), ("SkipK", 4, names - 1)]
    code.instructions = steps * (instructions // 4 - 1) + steps[:3] + [("Return",)]
    return image_of(code, version)


def upgraded(code):
    """The tables of an image of version 1, whose sites name no routine, as code whose sites do: routine after routine, a site
    for each old one that its instructions name, in the order of first use. A number that the old table hasn't becomes 2^32 - 1."""
    found = Tables()
    found.names, found.maps, found.sets, found.routines, found.entries = code.names, code.maps, code.sets, code.routines, code.entries
    found.sites, at = [], 0
    for number, routine in enumerate(code.routines):
        own, length = {}, routine[4]
        for kind, *operands in code.instructions[at : at + length]:
            if kind in SITES:
                place = SITES[kind]
                site = operands[place]
                if site < len(code.sites) and site not in own:
                    own[site] = len(found.sites)
                    found.sites.append((*code.sites[site][:2], number))
                operands[place] = own.get(site, 2**32 - 1)
            found.instructions.append((kind, *operands))
        at += length
    return found


def entry_of_words(words):
    """An entry point of words: its routine, then `param NAME BITS`, `cell NAME FIELD BITS` and `buffer NAME` in turn, `-` for no
    field."""
    rows = {"param": [], "cell": [], "buffer": []}
    rest = words[1:]
    while rest:
        kind, size = rest[0], {"param": 3, "cell": 4, "buffer": 2}[rest[0]]
        rows[kind].append(tuple(NO_FIELD if word == "-" else int(word) for word in rest[1:size]))
        rest = rest[size:]
    return int(words[0]), rows["param"], rows["cell"], *(name for (name,) in rows["buffer"])


def code_of_lines(lines):
    """The code of lines of text: rows of its tables (`name TEXT`, `site TYPE FIELD ROUTINE`, `map CELLS..`, `set NUMBERS..`,
    `routine PARAMETERS CELLS REGISTERS` with its name's number behind them, and the room of each buffer, where they aren't 0 and
    none; `entry ROUTINE` with `param NAME BITS`, `cell NAME FIELD BITS` and `buffer NAME`), and instructions as the listing has
    them, those of a routine behind its row. `8x` before an instruction stands for eight of them. Where no row of its table is there, code has the name `A`, one empty cell map, one routine
    without parameters and cells, of one register, and a site of `A` for each routine, with the routine's number."""
    code = Tables()
    rows = {"name": [], "site": [], "map": []}
    for line in lines:
        word, *rest = line.split()
        times = 1
        if word.endswith("x") and word[:-1].isdigit():
            times, word, rest = int(word[:-1]), rest[0], rest[1:]
        if word == "name":
            rows["name"].append(rest[0].encode())
        elif word in rows:
            rows[word].append([int(number) for number in rest])
        elif word == "set":
            code.sets.append([int(number) for number in rest])
        elif word == "entry":
            code.entries.append(entry_of_words(rest))
        elif word == "routine":
            params, cells, registers, *more = [int(number) for number in rest]
            code.routines.append([more[0] if more else 0, params, cells, registers, 0, *more[1:]])
        else:
            if not code.routines:
                code.routines.append([0, 0, 0, 1, 0])
            code.routines[-1][4] += times
            code.instructions += [(word, *[int(number) for number in rest])] * times
    code.names = rows["name"] or code.names
    code.sites = rows["site"] or [(0, 0, number) for number in range(len(code.routines))]
    code.maps = rows["map"] or [[]]
    return code


class CodeMaker:
    """Makes code that keeps most rules."""

    def __init__(self, seed):
        self.random = random.Random(seed)

    def chance(self, share):
        return self.random.random() < share

    def pick(self, choices):
        return self.random.choice(choices)

    def near(self, count):
        """A number that is below a count, or just past it."""
        if self.chance(0.01):
            return self.pick([count, count + 1, 255])
        return self.random.randrange(max(count, 1))

    def reg(self):
        return self.near(self.registers)

    def site(self):
        """Mostly one of the routine's own sites."""
        return self.first_site + self.near(self.sites)

    def straight(self):
        """An instruction that goes on."""
        kind = self.pick(
            "Const Member Op Bits Pos Fetch Fetch SkipK Skip Rest Zeros Zeroterm Divides Get Set Mark Copy Call Call".split()
            + ["Left"] * self.newer
        )
        if kind in ("Get", "Set") and not self.cells or kind == "Member" and not self.code.sets or kind == "Copy" and not self.rooms:
            kind = "Pos"
        if kind == "Call" and not self.number:
            kind = "Fetch"
        make = {
            "Const": lambda: (self.reg(), self.pick([0, 1, 2**64 - 1])),
            "Member": lambda: (self.reg(), self.reg(), self.near(len(self.code.sets))),
            "Op": lambda: (self.reg(), self.near(14), self.reg(), self.reg()),
            "Bits": self.bits,
            "Pos": lambda: (self.reg(),),
            "Left": lambda: (self.reg(),),
            "Fetch": lambda: (self.reg(), self.near(2), self.width(), self.site()),
            "SkipK": lambda: (self.pick([0, 1, 4, 2**32 - 1, 2**32 - (0 if self.chance(0.05) else 1)]), self.site()),
            "Skip": lambda: (self.reg(), self.site()),
            "Rest": lambda: (),
            "Zeros": lambda: (self.site(),),
            "Zeroterm": lambda: (self.reg(), self.width(), self.site()),
            "Divides": lambda: (self.reg(), self.pick([1, 2, 8] if not self.chance(0.03) else [0]), self.site()),
            "Get": lambda: (self.reg(), self.near(self.cells)),
            "Set": lambda: (self.reg(), self.near(self.cells)),
            "Mark": lambda: (),
            "Copy": lambda: (self.reg(), self.near(len(self.rooms)), self.site()),
            "Call": self.call,
        }
        return (kind, *make[kind]())

    def bits(self):
        low = self.random.randrange(64)
        count = self.random.randrange(1, 65 - low)
        if self.chance(0.02):
            count = self.pick([0, 65 - low])
        return self.reg(), self.reg(), low, count

    def width(self):
        return self.pick([1, 2, 4, 8]) if not self.chance(0.01) else self.pick([0, 3, 5, 16])

    def call(self):
        callee = self.near(self.number)
        known = self.code.routines[callee] if callee < len(self.code.routines) else [0, 0, 0, 0, 0]
        room = max(self.registers - known[1], 0)
        first = self.random.randrange(room + 1) if not self.chance(0.02) else room + 1
        return first, callee, self.map_to(known[2], known[5:]), self.site()

    def map_to(self, cells, rooms):
        """Mostly a cell map that leads from so many cells, and buffers of these rooms, to the routine's own; a new one for buffers."""
        if self.chance(0.02):
            return self.near(len(self.code.maps))
        given = [self.pick([k for k, own in enumerate(self.rooms) if own == room or self.chance(0.01)] or [0]) for room in rooms]
        wanted = [k for k, row in enumerate(self.code.maps) if len(row) == cells + len(rooms) and row[cells:] == given]
        wanted = [k for k in wanted if all(cell < self.cells for cell in self.code.maps[k][:cells])]
        if not wanted and rooms and (self.cells or not cells):
            self.code.maps.append([self.random.randrange(self.cells) for _ in range(cells)] + given)
            wanted = [len(self.code.maps) - 1]
        return self.pick(wanted) if wanted else self.near(len(self.code.maps))

    def block(self, size, in_loop, in_window, takes):
        """Instructions one behind the other, some of which jump over others, with targets counted from the block's begin."""
        found = []
        for _ in range(size):
            roll = self.random.random()
            if roll < 0.1:
                inner = self.block(self.random.randrange(3), in_loop, True, False)
                kind = self.pick(["Jump", "JumpIf", "JumpUnless"])
                test = () if kind == "Jump" else (self.reg(),)
                found.append((kind, *test, (len(found), len(inner) + 1)))
                found += inner
            elif roll < 0.16:
                found.append(("Fail", self.near(6), self.site()))
            elif roll < 0.24 and not in_window:
                found += self.window()
            else:
                found.append(self.straight())
        if takes:
            found.append(self.pick([("SkipK", 1, self.site()), ("Fetch", self.reg(), 0, 2, self.site())]))
        return found

    def window(self):
        opening = self.pick([("NarrowK", self.pick([0, 4, 8]), self.site()), ("Narrow", self.reg(), self.site())])
        if self.chance(0.5):
            body = self.block(self.random.randrange(3), True, True, not self.chance(0.05))
            inside = [("While", ("in", len(body) + 2))] + body + [("Again", ("in", -len(body) - 1))]
        else:
            inside = self.block(self.random.randrange(3), False, True, False)
        return [opening] + inside + [("Widen", self.site())]

    def routine(self):
        self.number = len(self.code.routines)
        self.cells = self.random.randrange(3)
        self.rooms = [self.pick([1, 2, 8]) for _ in range(self.random.randrange(3))] if self.copies else []
        params = self.random.randrange(3)
        self.registers = params + self.random.randrange(1, 4)
        self.first_site, self.sites = len(self.code.sites), self.random.randrange(1, 3)
        self.code.sites += [(0, 1, self.number)] * self.sites
        block = self.block(self.random.randrange(6), False, False, False)
        block.append(self.pick([("Return",)] * 4 + [("Fail", 4, self.site())]))
        start = len(self.code.instructions)
        self.code.instructions += [self.placed(start + k, instruction) for k, instruction in enumerate(block)]
        self.code.routines.append([0, params, self.cells, self.registers, len(block), *self.rooms])

    @staticmethod
    def placed(at, instruction):
        """An instruction with its target: a pair tells how far it is from there."""
        kind, *operands = instruction
        if operands and isinstance(operands[-1], tuple):
            operands[-1] = at + operands[-1][1]
        return (kind, *operands)

    def spoiled(self, instruction):
        """The same with one operand changed, or another instruction in its place."""
        kind, *operands = instruction
        if operands and not self.chance(0.2):
            k = self.random.randrange(len(operands))
            most = LIMITS[FIELDS_OF[kind][k]] - 1
            step = self.pick([-2, -1, 1, 2, most])
            operands[k] = min(max(operands[k] + step, 0), most)
            return (kind, *operands)
        total = len(self.code.instructions)
        return self.pick(
            [
                ("Return",), ("Jump", self.random.randrange(total + 1)), ("Widen", 0), ("NarrowK", 4, 0),
                ("While", self.random.randrange(total + 1)), ("Again", self.random.randrange(total + 1)), ("Mark",),
            ]
        )  # fmt: skip

    def made(self, faults, copies=False, newer=False):
        """Code with so many instructions spoiled; with copy buffers and with instructions of version 4 too, where they are asked
        for."""
        self.code, self.copies, self.newer = Tables(), copies, newer
        self.code.names = [b"A", b"f"]
        self.code.sites = []
        self.code.sets = [[1, 5], []][: self.random.randrange(3)]
        self.code.maps = [[], [0], [1], [0, 1], [1, 1]]
        for _ in range(self.random.randrange(1, 4)):
            self.routine()
        last = self.code.routines[-1]
        self.code.entries = [(len(self.code.routines) - 1, [(1, 32)] * last[1], [(0, 1, 16)] * last[2], *([1] * len(last[5:])))]
        for _ in range(faults):
            k = self.random.randrange(len(self.code.instructions))
            self.code.instructions[k] = self.spoiled(self.code.instructions[k])
        return self.code


def main():
    """Writes the image of the code whose lines stand on standard input."""
    lines = [line.partition("#")[0] for line in sys.stdin]
    sys.stdout.buffer.write(image_of(code_of_lines([line for line in lines if line.strip()])))


if __name__ == "__main__":
    main()
