"""Validations by the library for C of random accepted code, compared with the second reading of code: `soaked(PROGRAM, CODES, SEED)`.

Messages stand in one piece at any byte, or in up to 65 stretches; a call has too many arguments now and then, or too large ones; in two of
five runs another thread stores to the words without end. What is told of a run has to be what the second reading says of a message that
carries the values of the loads told, with drawn bytes where nothing was loaded: answer, place, frames, cells, copies, steps, and
which words were loaded, in order. Nothing else may have changed."""

import collections
import random
import subprocess

from code_run import Run, code_of_image, weight
from codes import IMAGES, CodeMaker, image_of

RUNS_OF_A_CODE = 6
# As many stretches as a message may have.
MOST_PARTS = 64
MOST_SHOWN = 10


def u32(*numbers):
    return b"".join((number % 2**32).to_bytes(4, "little") for number in numbers)


def u64(*numbers):
    return b"".join((number % 2**64).to_bytes(8, "little") for number in numbers)


def layout_of(parts):
    """The words of a message in these stretches, each with its stretch; and of each byte the number of its word and the place in it."""
    words, bytes_at = [], []
    for number, (place, size) in enumerate(parts):
        if size:
            first, base = place // 8, len(words)
            words += [(number, word) for word in range(first, (place + size - 1) // 8 + 1)]
            bytes_at += [(base + at // 8 - first, at % 8) for at in range(place, place + size)]
    return words, bytes_at


class Call:
    """What is asked of an entry point."""

    def __init__(self, rng, params, cells):
        pick = rng.choice
        self.words = [pick([0, 1, rng.getrandbits(64) & 0x0303030303030303, rng.getrandbits(64)]) for _ in range(pick([0, 1, 2, 3, 5, 9]))]
        self.room = 8 * len(self.words)
        self.is_raced = rng.random() < 0.4
        self.params, self.cells = params, cells
        self.draw_message(rng)
        self.args = [pick([0, 1, 2, 3, 8, 2**bits - 1]) for _, bits in params]
        self.values = [pick([0, 1, 2**bits - 1]) for _, _, bits in cells]
        self.arg_count, self.cell_count, self.number = len(self.args), len(self.values), 0
        self.rows = pick([0, 1, 2, 100, 100, 100])
        self.spoil(rng)

    def small(self, rng, most):
        return rng.choice([0, 1, 2, 3, most, most // 2, rng.randrange(most + 1)]) if most else 0

    def draw_message(self, rng):
        count = rng.choice([0, 0, 1, 2, 3, 6]) if rng.random() < 0.97 else rng.choice([MOST_PARTS, MOST_PARTS + 1])
        self.is_list = count > 0
        self.parts, self.place, self.length = [], 0xDEAD, 0xBEEF
        for _ in range(count):
            place = self.small(rng, self.room)
            self.parts.append((place, self.small(rng, self.room - place) if rng.random() < 0.98 else self.room))
        if not self.is_list:
            self.place = self.small(rng, self.room)
            self.length = self.small(rng, self.room - self.place) if rng.random() < 0.95 else self.room + 1 - self.place
            if rng.random() < 0.01:
                self.place, self.length = 2**32 - 1, 2**32 - 1
            self.parts = [(self.place, self.length)]

    def spoil(self, rng):
        """Some calls are wrong."""
        if rng.random() < 0.03:
            self.arg_count = rng.choice([self.arg_count + 1, max(self.arg_count - 1, 0), 17, 2**32 - 1])
        if rng.random() < 0.03:
            self.cell_count = rng.choice([self.cell_count + 1, max(self.cell_count - 1, 0), 64, 65])
        if rng.random() < 0.02:
            self.number = rng.choice([1, 2**32 - 1])
        if rng.random() < 0.02 and self.args:
            self.args[0] = 2**32
        if rng.random() < 0.02 and self.values:
            self.values[0] = 2**16

    def refusal(self):
        """The answer that isn't a validation's; None where the message is validated."""
        if self.is_list and (len(self.parts) > MOST_PARTS or sum(size for _, size in self.parts) >= 2**32):
            return 8
        if any(place + size > self.room for place, size in self.parts):
            return 6
        if self.number:
            return 5
        wide = any(value >= 2**bits for value, (_, bits) in zip(self.args, self.params))
        wide = wide or any(value >= 2 ** (bits or 32) for value, (_, _, bits) in zip(self.values, self.cells))
        return 2 if wide or self.arg_count != len(self.params) or self.cell_count != len(self.cells) else None

    def written(self):
        head = u32(1, self.number, self.place, self.length, self.arg_count, self.cell_count, len(self.words), self.rows, self.is_raced, len(self.parts) if self.is_list else 0)
        head += u64(*(self.args + [0] * 16)[:16]) + u64(*(self.values + [7] * 64)[:64])
        return head + (u32(*[number for part in self.parts for number in part]) if self.is_list else b"") + u64(*self.words)


class Told:
    """What the program told of a validation."""

    def __init__(self, line):
        fields = line.split()
        self.marks = [field for field in fields if field.isalpha() and field.isupper()]
        fields = [field for field in fields if field not in self.marks]
        self.code, numbers = int(fields[0]), fields[1:]
        self.frames, self.cells, self.copies, self.loads, self.behind = [], [], [], [], (0, 0)
        if not numbers:
            return
        self.position, self.reason, self.load_count, self.steps = map(int, numbers[:4])
        sizes = {"f": 5, "c": 1, "b": 1, "behind": 2, "l": 3}
        rest = numbers[4:]
        while rest:
            kind, values, rest = rest[0], rest[1 : 1 + sizes[rest[0]]], rest[1 + sizes[rest[0]] :]
            if kind == "b":
                self.copies.append(values[0])
            elif kind == "behind":
                self.behind = tuple(map(int, values))
            else:
                {"f": self.frames, "c": self.cells, "l": self.loads}[kind].append(tuple(map(int, values)))

    def outcome(self):
        words = ["accept %d" % self.position if self.code == 0 else "reject %d %d" % (self.reason, self.position)]
        words += ["f %d %d %d %d" % (kind, field, reason, start) for kind, _, field, reason, start in self.frames]
        return " ".join(words + ["c %d" % cell for cell, in self.cells] + ["b " + copy for copy in self.copies])


class Soak:
    def __init__(self, program, seed):
        self.rng = random.Random(seed)
        self.run = subprocess.Popen([program], stdin=subprocess.PIPE, stdout=subprocess.PIPE)
        self.count, self.wrong = collections.Counter(), 0

    def tell(self, *words):
        self.wrong += 1
        if self.wrong <= MOST_SHOWN:
            print("library_soak:", *words, flush=True)

    def ask(self, asked):
        self.run.stdin.write(asked)
        self.run.stdin.flush()
        line = self.run.stdout.readline().decode().strip()
        if not line:
            raise SystemExit("library_soak: the program ended: status %s" % self.run.wait())
        return line

    def judge(self, call, told, code):
        if told.marks:
            self.tell("what has to stay changed:", *told.marks)
        refusal = call.refusal()
        if refusal is not None:
            self.count["refused"] += 1
            if told.code != refusal:
                self.tell("answer", told.code, "wanted", refusal, call.parts)
            return
        if told.code not in (0, 1):
            self.tell("answer", told.code, call.parts)
            return
        self.count["runs"] += 1
        self.count["raced"] += call.is_raced
        if len(told.loads) != min(told.load_count, call.rows):
            self.tell("rows", len(told.loads), told.load_count, call.rows)
        if told.behind[1]:
            self.tell("bytes behind the entry point's buffers", told.behind)
        # (of a raced message of which not each load was told nothing is known of the others)
        if told.load_count <= call.rows or not call.is_raced:
            self.judge_run(call, told, code)

    def judge_run(self, call, told, code):
        words, bytes_at = layout_of(call.parts)
        is_whole = told.load_count <= call.rows
        values, last = {}, -1
        for part, word, value in told.loads:
            number = words.index((part, word)) if (part, word) in words else -1
            if number <= last:
                self.tell("order of loads", told.loads, call.parts)
            if not call.is_raced and call.words[word] != value:
                self.tell("value of a load", told.loads)
            last, values[number] = number, value
        message = bytearray(self.rng.getrandbits(8) for _ in bytes_at)
        for at, (number, place) in enumerate(bytes_at):
            if not is_whole:
                message[at] = call.words[words[number][1]] >> (8 * place) & 255
            elif number in values:
                message[at] = values[number] >> (8 * place) & 255
        run = Run(code, bytes(message))
        wanted = run.outcome(0, call.args, call.values)
        touched = sorted({bytes_at[at][0] for at in run.touched})
        if told.outcome() != wanted:
            self.tell("outcome", told.outcome(), "wanted", wanted, "raced", call.is_raced)
        if told.load_count != len(touched) or is_whole and sorted(values) != touched:
            self.tell("loaded", sorted(values), "wanted", touched)
        if told.steps != run.steps or told.steps > weight(code, code.entries[0]) * (len(bytes_at) + 1):
            self.tell("steps", told.steps, "wanted", run.steps)
        if told.code == 0 and told.reason != 6:
            self.tell("reason of an accepted message", told.reason)

    def soak(self, codes):
        while self.count["codes"] < codes:
            made = CodeMaker(self.rng.randrange(2**40))
            code = made.made(self.rng.choice([0, 0, 0, 1]), copies=self.rng.random() < 0.7, newer=self.rng.random() < 0.5)
            image = image_of(code)
            if not self.ask(u32(0, len(image)) + image).startswith("open 0"):
                continue
            self.count["codes"] += 1
            tables = IMAGES.Code(image)
            plain, (_, params, cells, *_) = code_of_image(tables), tables.entries[0]
            for _ in range(RUNS_OF_A_CODE):
                call = Call(self.rng, params, cells)
                self.judge(call, Told(self.ask(call.written())), plain)
        self.run.stdin.close()
        if self.run.wait():
            self.tell("status", self.run.returncode)


def soaked(program, codes, seed):
    """The counts, and how many things were wrong."""
    soak = Soak(program, seed)
    soak.soak(codes)
    return soak.count, soak.wrong
