"""Code in Python: a plain reading of docs/language/code.md, and how code and its runs are given to crates/td_try_code.

An instruction is a tuple of its name and its operands, in the order of the page's table. Code is given as its image, a run in
numbers (crates/td_try_code/src/numbers.rt).
"""

from codes import NO_FIELD, Tables, has_newer, image_of, upgraded
from instructions import places_of
from program import answers

NOT_ENOUGH, IMPOSSIBLE, LIST_SIZE, ACTION, CONSTRAINT, PADDING = range(6)
MOST = 1 << 64


class Routine:
    """A stretch of instructions, with its counts of parameters, cells and registers, and the room of each copy buffer."""

    def __init__(self, instructions, params=0, cells=0, registers=0, rooms=()):
        self.instructions, self.params, self.cells, self.registers, self.rooms = instructions, params, cells, registers, list(rooms)


class Code:
    """Routines whose targets are places in their own routine, sets, cell maps, and entry points by routine. Sites begin with a
    type and a field; each routine may name each of them, as in images of version 1: where there are buffers or a `Left`, the image
    has the sites of the upgraded code."""

    def __init__(self, routines, sets=(), maps=(), entries=(0,), names=("t", "f"), sites=((0, 1),)):
        self.routines, self.sets, self.maps, self.names, self.sites = routines, sets, maps, names, sites
        self.entries = entries
        self.weights = {}
        self.begins = []
        at = 0
        for routine in routines:
            self.begins.append(at)
            at += len(routine.instructions)

    def image(self):
        """Its image: in version 1, which is upgraded when it is read, and upgraded before where version 1 can't have it. Each routine
        has the first name; parameters, cells and buffers of entry points have it too, and 64 bits."""
        tables = Tables()
        tables.names = [name.encode() for name in self.names]
        tables.sites, tables.maps, tables.sets = self.sites, self.maps, self.sets
        for routine, begin in zip(self.routines, self.begins):
            tables.routines.append((0, routine.params, routine.cells, routine.registers, len(routine.instructions), *routine.rooms))
            tables.instructions += [placed(instruction, begin) for instruction in routine.instructions]
        for number in self.entries:
            routine = self.routines[number]
            tables.entries.append((number, [(0, 64)] * routine.params, [(0, NO_FIELD, 64)] * routine.cells, *([0] * len(routine.rooms))))
        is_newer = has_newer(tables) or any(routine.rooms for routine in self.routines)
        return image_of(upgraded(tables)) if is_newer else image_of(tables, version=1)


TARGETS = places_of("target")


def placed(instruction, begin):
    """An instruction with its target moved by so many places."""
    kind, *operands = instruction
    if kind in TARGETS:
        operands[TARGETS[kind]] += begin
    return (kind, *operands)


def run_numbers(entry, args, cells, length, words, stores=()):
    """A run in numbers. A store is the number of the load before which it is made, the word and the value."""
    flat = [number for store in stores for number in store]
    return [entry, len(args), *args, len(cells), *cells, length, len(words), *words, len(flat), *flat]


class Failed(Exception):
    """A failure with its reason and position; frames are added on the way out."""

    def __init__(self, reason, pos):
        super().__init__()
        self.reason, self.pos, self.frames = reason, pos, []


class Run:
    """One run on a message that stays: what it looked at and how many steps it took."""

    def __init__(self, code, message):
        self.code, self.message, self.touched, self.steps = code, message, [], 0

    def open(self, number, cells):
        """Before a routine is entered from outside: its cells, and empty buffers."""
        self.cells, self.copies = list(cells), [b""] * len(self.code.routines[number].rooms)

    def entered(self, number, args, length):
        """Runs a routine from outside: the position at which it accepts."""
        return self.routine(number, list(args), list(range(len(self.cells))), list(range(len(self.copies))), 0, length)

    def outcome(self, entry, args, cells):
        """The answer line of a run without its loads."""
        number = self.code.entries[entry]
        self.open(number, cells)
        try:
            head = f"accept {self.entered(number, args, len(self.message))}"
            frames = []
        except Failed as failed:
            head = f"reject {failed.reason} {failed.pos}"
            frames = failed.frames
        words = [f"f {ty} {field} {reason} {start}" for ty, field, reason, start in frames]
        words += [f"c {cell}" for cell in self.cells] + [f"b {copy.hex() or '-'}" for copy in self.copies]
        return " ".join([head, *words])

    def routine(self, number, args, places, buffers, pos, end):
        """Runs a routine from a position: the position at which it returns."""
        routine = self.code.routines[number]
        state = State(args + [0] * (routine.registers - len(args)), places, buffers, routine.rooms, pos, end)
        at = 0
        while True:
            instruction = routine.instructions[at]
            name, operands = instruction[0], instruction[1:]
            self.steps += 1
            try:
                if name == "Return":
                    return state.pos
                at = getattr(self, name)(state, at, *operands)
            except Failed as failed:
                if name == "Call":
                    failed.frames.append(self.frame(operands[3], failed.reason, state.start))
                elif not failed.frames:
                    failed.frames.append(self.frame(operands[-1], failed.reason, state.start))
                raise

    def frame(self, site, reason, start):
        ty, field = self.code.sites[site][:2]
        spot = self.code.names[field]
        return ty, spot if spot in ("where", "switch") else field, reason, start

    def look(self, pos, count):
        self.touched += range(pos, pos + count)
        return self.message[pos : pos + count]

    def Const(self, s, at, into, value):
        s.regs[into] = value
        return at + 1

    def Member(self, s, at, into, source, number):
        s.regs[into] = int(s.regs[source] in self.code.sets[number])
        return at + 1

    def Op(self, s, at, into, operator, left, right):
        m, n = s.regs[left], s.regs[right]
        s.regs[into] = [
            lambda: m + n, lambda: m - n, lambda: m * n, lambda: m // n if n else 0, lambda: m % n if n else 0,
            lambda: m & n, lambda: m | n, lambda: m ^ n, lambda: m << n if n < 64 else 0, lambda: m >> n if n < 64 else 0,
            lambda: m == n, lambda: m != n, lambda: m < n, lambda: m <= n,
        ][operator]() % MOST
        return at + 1

    def Bits(self, s, at, into, source, low, count):
        s.regs[into] = (s.regs[source] >> low) % (1 << count)
        return at + 1

    def Pos(self, s, at, into):
        s.regs[into] = s.start
        return at + 1

    def Left(self, s, at, into):
        s.regs[into] = s.end - s.pos
        return at + 1

    def Jump(self, s, at, target):
        return target

    def JumpIf(self, s, at, test, target):
        return target if s.regs[test] else at + 1

    def JumpUnless(self, s, at, test, target):
        return at + 1 if s.regs[test] else target

    def Call(self, s, at, first, number, cell_map, site):
        callee, numbers = self.code.routines[number], self.code.maps[cell_map]
        args = s.regs[first : first + callee.params]
        places = [s.places[k] for k in numbers[: callee.cells]]
        s.pos = self.routine(number, args, places, [s.buffers[k] for k in numbers[callee.cells :]], s.pos, s.end)
        return at + 1

    def Fetch(self, s, at, into, order, width, site):
        s.need(width)
        s.regs[into] = int.from_bytes(self.look(s.pos, width), "big" if order else "little")
        s.pos += width
        return at + 1

    def SkipK(self, s, at, count, site):
        s.need(count)
        s.pos += count
        return at + 1

    def Skip(self, s, at, size, site):
        return self.SkipK(s, at, s.regs[size], site)

    def Rest(self, s, at):
        s.pos = s.end
        return at + 1

    def Zeros(self, s, at, site):
        while s.pos < s.end:
            self.steps += 1
            if self.look(s.pos, 1)[0]:
                raise Failed(PADDING, s.pos)
            s.pos += 1
        return at + 1

    def Zeroterm(self, s, at, bound, width, site):
        most, room = s.regs[bound] // width, (s.end - s.pos) // width
        for _ in range(min(most, room)):
            self.steps += 1
            element = self.look(s.pos, width)
            s.pos += width
            if not any(element):
                return at + 1
        raise Failed(CONSTRAINT if most <= room else NOT_ENOUGH, s.start)

    def NarrowK(self, s, at, count, site):
        s.need(count)
        s.outer, s.end = s.end, s.pos + count
        return at + 1

    def Narrow(self, s, at, size, site):
        return self.NarrowK(s, at, s.regs[size], site)

    def Divides(self, s, at, size, step, site):
        if s.regs[size] % step:
            raise Failed(LIST_SIZE, s.start)
        return at + 1

    def While(self, s, at, target):
        return target if s.pos == s.end else at + 1

    def Again(self, s, at, target):
        return target

    def Widen(self, s, at, site):
        if s.pos != s.end:
            raise Failed(LIST_SIZE, s.start)
        s.end = s.outer
        return at + 1

    def Fail(self, s, at, reason, site):
        raise Failed(reason, s.start)

    def Get(self, s, at, into, cell):
        s.regs[into] = self.cells[s.places[cell]]
        return at + 1

    def Set(self, s, at, source, cell):
        self.cells[s.places[cell]] = s.regs[source]
        return at + 1

    def Mark(self, s, at):
        s.start = s.pos
        return at + 1

    def Copy(self, s, at, size, buffer, site):
        s.need(s.regs[size])
        put = min(s.regs[size], s.rooms[buffer])
        self.steps += put
        self.copies[s.buffers[buffer]] = self.look(s.pos, put)
        s.pos += s.regs[size]
        return at + 1


class State:
    """A running routine: its registers, the places of its cells and buffers, the room of each buffer, its start, position, end and
    the end outside."""

    def __init__(self, regs, places, buffers, rooms, pos, end):
        self.regs, self.places, self.buffers, self.rooms = regs, places, buffers, rooms
        self.start, self.pos, self.end, self.outer = pos, pos, end, end

    def need(self, count):
        if count > self.end - self.pos:
            raise Failed(NOT_ENOUGH, self.start)


def weight(code, number):
    """The weight of a routine: each instruction's own, twice in a loop, and that of what it calls."""
    if number not in code.weights:
        code.weights[number] = summed_weight(code, number)
    return code.weights[number]


def summed_weight(code, number):
    total, depth = 0, 0
    for name, *operands in code.routines[number].instructions:
        if name == "Again":
            depth -= 1
        own = {"Zeros": 2, "Zeroterm": 2, "Copy": 2, "While": 3, "Again": 3}.get(name, 1)
        own += weight(code, operands[1]) if name == "Call" else 0
        total += own * 2 if depth and name not in ("While", "Again") else own
        if name == "While":
            depth += 1
    return total


def code_of_image(tables):
    """The code of an image's tables (as td-image reads them): here a target counts from its own routine's first instruction."""
    routines, begin = [], 0
    for _, params, cells, registers, length, *rooms in tables.routines:
        own = [placed(instruction, -begin) for instruction in tables.instructions[begin : begin + length]]
        routines.append(Routine(own, params, cells, registers, rooms))
        begin += length
    names = [name.decode() for name in tables.names]
    return Code(routines, tables.sets, tables.maps, [entry[0] for entry in tables.entries], names, tables.sites)


def run_line(image, runs):
    """The line that gives td_try_code an image and the numbers of its runs."""
    return "run %s %s" % (";".join(" ".join(map(str, run)) for run in runs), image.hex())


def run_answers(program, cases):
    """What td_try_code answers to cases, each an image and the numbers of its runs: an answer to each run, or one of the image."""
    return [line.split("; ") for line in answers(program, [run_line(image, runs) for image, runs in cases])]


def words_of(message):
    padded = message + bytes(-len(message) % 8)
    return [int.from_bytes(padded[k : k + 8], "little") for k in range(0, len(padded), 8)]


def split_loads(line):
    """An answer without its loads, and the loads."""
    head, *loads = line.split(" l ")
    return head, [tuple(map(int, load.split())) for load in loads]


def carried(length, loads):
    """The message that carries loads, 0 where none was made."""
    words = bytearray(-(-length // 8) * 8)
    for word, value in loads:
        words[8 * word : 8 * word + 8] = value.to_bytes(8, "little")
    return bytes(words[:length])


def held(words, stores, load, word):
    """What a word holds at the load of this number, where others stored meanwhile."""
    due = sorted((store for store in stores if store[0] <= load and store[1] == word), key=lambda store: store[0])
    return due[-1][2] if due else words[word]


def judged(code, entry, args, cells, message, line, words, stores=()):
    """What is wrong with the machine's line of a run in these words, or None; and the steps of the plain run on this message, with their
    bound."""
    head, loads = split_loads(line)
    run = Run(code, message)
    wanted = run.outcome(entry, args, cells)
    bound = weight(code, code.entries[entry]) * (len(message) + 1)
    wrong = None
    if head != wanted:
        wrong = f"{head!r} in place of {wanted!r}"
    elif [word for word, _ in loads] != sorted({place // 8 for place in run.touched}):
        wrong = f"loads {loads}, looked at {run.touched}"
    elif [value for _, value in loads] != [held(words, stores, load, word) for load, (word, _) in enumerate(loads)]:
        wrong = f"loads {loads} of words {words} with stores {stores}"
    elif run.steps > bound:
        wrong = f"{run.steps} steps of {bound}"
    return wrong, run.steps, bound
