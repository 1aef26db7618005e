"""Inputs made at random: module texts that are nearly right, and jobs for them. The same seed makes the same inputs."""

import json
import random
import re
from typing import Any

from ring_inputs import RingMaker

NUMBER_TYPES = ["UINT%d%s" % (bits, order) for bits in (8, 16, 32, 64) for order in ("", "BE")]
NUMBERS = [0, 1, 2, 3, 4, 7, 8, 15, 16, 100, 127, 128, 255, 256, 1000, 65535, 65536, 2**32 - 1, 2**32, 2**63, 2**64 - 1]
WHITE_SPACE = [" "] * 5 + ["\n", "\t", "\r\n", "/* c */", "/**/", "/* %% */", "// line\n", ""]
STRAY_TOKENS = (
    "@ # #define {:act {:act- {:check [:byte-size [:byte-sizes == = { } ; , ( ) casetype 0x 12a 0xg $ é * / -> && UINT8 x 7 /* \0"
    " . A.T0 module where unit all_bytes all_zeros sizeof this if return abort field_pos true PUINT8 18446744073709551616 : ? ! ~ enum case"
).split(" ")
OTHER_VALUES: list[Any] = [None, 1, [], [1], {}, "a", 1.5, -1, 2**64, True, [[0, 0]], [[0, 0, "00"]], [[0.0, 0, "0" * 16]], [300], [0, 0]]


class Maker(RingMaker):
    def __init__(self, seed):
        self.random = random.Random(seed)
        # Values are drawn apart, so that modules stay as they are without them; so is whether a text has parts, what it copies, and which
        # fields have no bytes.
        self.drawn = random.Random("values of %d" % seed)
        self.parted = random.Random("parts of %d" % seed)
        self.copied = random.Random("copies of %d" % seed)
        self.given = random.Random("fields without bytes of %d" % seed)

    def chance(self, share):
        return self.random.random() < share

    def pick(self, choices):
        return self.random.choice(choices)

    # ---- Modules. What was declared so far is remembered, so most names that are written stand for something.

    def fresh(self):
        self.count += 1
        return "%s%d" % (self.pick("abfkxyz"), self.count)

    def number(self):
        value = self.pick(NUMBERS[:12] * 3 + NUMBERS + [self.random.randrange(300), self.random.randrange(2**64)])
        if self.chance(0.005):
            value = 2**64 + self.random.randrange(3)
        if self.chance(0.2):
            return self.pick(["0x%x", "0X%X", "0x00%x"]) % value
        return "0" * self.pick([0, 0, 0, 0, 0, 2]) + str(value)

    def name(self, names):
        return self.pick(names) if names and not self.chance(0.01) else self.pick(["zz", "P", "a1"] + self.types)

    def value(self, depth=0):
        """A number's tokens."""
        roll = self.random.random()
        if roll < 0.45 and self.values:
            return [self.name(self.values)]
        if roll < 0.7 or depth > 2:
            return [self.number()] if not self.constants or self.chance(0.7) else [self.name(self.constants)]
        if roll < 0.75:
            return ["sizeof", "(", self.pick(NUMBER_TYPES[:4] + ["this"] + self.types), ")"]
        if roll < 0.8 and self.start:
            return ["field_pos"]
        if roll < 0.84:
            return ["(", *self.test(depth + 1), "?", *self.value(depth + 1), ":", *self.value(depth + 1), ")"]
        if roll < 0.86:
            return ["~", *self.value(depth + 1)]
        if roll < 0.93:
            return ["(", *self.value(depth + 1), ")", self.pick("&|%/"), self.pick(["1", "3", "15", "7"])]
        return ["(", *self.value(depth + 1), self.pick(["+", "-", "*", "<<", ">>", "^", "/", "%"]), *self.value(depth + 1), ")"]

    def safe_difference(self):
        one, other = self.name(self.values), self.name(self.values)
        return [one, "<=", other, "&&", other, "-", one, self.pick(["<", ">=", "=="]), self.number()]

    def test(self, depth=0):
        """A truth value's tokens."""
        roll = self.random.random()
        if roll < 0.6 or depth > 2:
            return [*self.value(depth + 1), self.pick(["==", "!=", "<", "<=", ">", ">="]), *self.value(depth + 1)]
        if roll < 0.7 and self.values:
            return self.safe_difference()
        if roll < 0.8:
            return ["(", *self.test(depth + 1), ")", self.pick(["&&", "||"]), "(", *self.test(depth + 1), ")"]
        if roll < 0.85:
            return ["!", "(", *self.test(depth + 1), ")"]
        if roll < 0.9 and self.values:
            one, other = self.name(self.values), self.name(self.values)
            return ["is_range_okay", "(", one, ",", other, ",", self.number(), ")"]
        return [self.pick(["true", "true", "false"])]

    def statement(self, depth):
        roll = self.random.random()
        if roll < 0.5 and self.cells:
            cell, fields = self.pick(self.cells)
            right = ["field_ptr"] if self.chance(0.3) else self.value()
            if fields:
                return [cell, "->", self.pick(fields), "=", *right, ";"]
            return ["*", cell, "=", *right, ";"]
        if roll < 0.65 and self.cells:
            name = self.fresh()
            cell = self.pick(self.cells)[0]
            self.values.append(name)
            return ["var", name, "=", "*", cell, ";"]
        if roll < 0.8 and depth < 3:
            other = ["else", "{", *self.statements(depth + 1), "}"] if self.chance(0.5) else []
            return ["if", "(", *self.test(), ")", "{", *self.statements(depth + 1), "}", *other]
        return ["abort", ";"] if self.chance(0.2) else []

    def statements(self, depth):
        before = list(self.values)
        found = [token for _ in range(self.random.randrange(3)) for token in self.statement(depth)]
        self.values = before
        return found

    def action(self):
        self.start = True
        word = self.pick(["{:act", "{:act", "{:check", "{:on-success"])
        before = list(self.values)
        found = [token for _ in range(self.random.randrange(3)) for token in self.statement(0)]
        if word == "{:check" or (word == "{:on-success" and self.chance(0.5)):
            found += ["return", *self.test(), ";"]
        self.start, self.values = False, before
        return [word, *found, "}"]

    def applied(self, name):
        """A type with arguments."""
        parameters = self.parameters.get(name, [])
        if not parameters:
            return [name]
        arguments = []
        for kind in parameters:
            own = [cell for cell, fields in self.cells if bool(fields) == (kind == "row")]
            if kind not in ("value", "cell", "row"):
                own = [name for name, room in self.buffers if room == kind or self.copied.random() < 0.05]
            argument = self.value(1) if kind == "value" else [self.pick(own)] if own else ["zz"]
            arguments += [","] * bool(arguments) + argument
        return [name, "(", *arguments, ")"]

    def size(self):
        roll = self.random.random()
        if roll < 0.4 or not self.values:
            return [self.pick("0123468")]
        return [self.name(self.values)] if roll < 0.7 else [self.name(self.values), self.pick("&%"), self.pick("37")]

    def field(self, last):
        name, roll = self.fresh(), self.random.random()
        head, tail, readable = [self.pick(NUMBER_TYPES[:2] * 3 + NUMBER_TYPES)], [], True
        if roll < 0.15:
            self.unit = self.unit if self.unit and self.chance(0.7) else self.pick(NUMBER_TYPES)
            head, tail = [self.unit], [":", self.pick(["1", "2", "3", "4", "7", "8", "9", "0"][: 8 if self.chance(0.05) else 7])]
        elif roll < 0.25 and self.types:
            head = self.applied(self.pick(self.types))
            readable = head[0] in self.numbers
            if self.chance(0.3):
                tail, readable = [self.pick(["[:byte-size", "[:byte-size-single-element-array"]), *self.size(), "]"], False
        elif roll < 0.42:
            word = self.pick(["[", "[:byte-size", "[:byte-size-single-element-array", "[:zeroterm-byte-size-at-most"])
            tail, readable = [word, *self.size(), "]"], False
            head = ["UINT8"] if word == "[" or self.chance(0.5) else head
            head = ["unit"] if self.chance(0.03) else head
        elif roll < 0.47 and (last or self.chance(0.1)):
            head, readable = [self.pick(["all_bytes", "all_zeros", "all_zeros"])], False
        elif roll < 0.49:
            head, readable = ["unit"], False
        if roll >= 0.15:
            self.unit = None
        if head[0] in NUMBER_TYPES and not tail and self.given.random() < 0.08:
            head, tail = self.source(head)
        if readable:
            self.values.append(name)
        refinement = ["{", *self.test(), "}"] if self.chance(0.4) and (readable or self.chance(0.01)) else []
        action = self.action() if self.chance(0.2) else []
        return head + [name] + tail + refinement + self.with_copy(head, tail, action) + [";"]

    def source(self, head):
        """A field without bytes: its type, and what gives it its value, mostly one that fits."""
        numbers = [cell for cell, fields in self.cells if not fields]
        roll = self.given.random()
        if roll < 0.35:
            wide = [kind for kind in NUMBER_TYPES if kind.startswith(("UINT32", "UINT64"))]
            left = ["(", "bytes_left", ")"] if roll < 0.02 else ["bytes_left"]
            return [self.given.choice(wide) if roll > 0.03 else head[0]], ["=", *left]
        if roll < 0.5 and numbers:
            return [self.given.choice(NUMBER_TYPES)], ["=", "*", self.given.choice(numbers)]
        if roll < 0.52 or not self.values:
            return head, ["=", self.given.choice([*"01234", "255", "256", "zz", "true"])]
        mask = self.given.choice([[], [], ["&", "15"], ["%", "8"], ["+", "1"], [">>", "1"]])
        return [self.given.choice(NUMBER_TYPES)], ["=", self.given.choice(self.values), *mask]

    def with_copy(self, head, tail, action):
        """What a field does, or a copy in its place: mostly of bytes, and mostly into a copy buffer."""
        is_bytes = head == ["UINT8"] and tail[:1] in (["["], ["[:byte-size"])
        if not self.buffers or self.copied.random() >= (0.8 if is_bytes else 0.01):
            return action
        if is_bytes and self.copied.random() < 0.7:
            tail[1:-1] = [self.copied.choice("0012348")] if not self.values or self.copied.random() < 0.5 else [self.copied.choice(self.values), "&", "3"]
        names = [name for name, _ in self.buffers] * 20 + ["zz", *self.values[:1], *[cell for cell, _ in self.cells[:1]]]
        return ["{:copy", self.copied.choice(names), "}"]

    def fields(self):
        before, count, self.unit = list(self.values), self.pick([1, 1, 2, 2, 3, 4, 5]), None
        found = [token for place in range(count) for token in self.field(place == count - 1)]
        self.values = before
        return found

    def head(self, name):
        self.values, self.cells, self.start, kinds, tokens = [], [], False, [], []
        for _ in range(self.pick([0, 0, 1, 2])):
            own, roll = self.fresh(), self.random.random()
            if roll < 0.5:
                tokens += [",", self.pick(NUMBER_TYPES[:6]), own]
                self.values.append(own)
                kinds.append("value")
            elif roll < 0.8 or not self.records:
                tokens += [",", "mutable", self.pick(NUMBER_TYPES[:6] + ["PUINT8"]), "*", own]
                self.cells.append((own, None))
                kinds.append("cell")
            else:
                record = self.pick(sorted(self.records))
                tokens += [",", "mutable", record, "*", own]
                self.cells.append((own, self.records[record]))
                kinds.append("row")
        self.buffers = []
        while self.copied.random() < 0.25:
            name, room = "c%d" % len(self.buffers), self.copied.choice(["1", "3", "4", "8", "8", "8"] * 4 + ["0", "255", "0x10000", "65537"])
            self.buffers.append((name, room))
            at = self.copied.randrange(len(kinds) + 1)
            starts = [place for place, token in enumerate(tokens) if token == ","] + [len(tokens)]
            tokens[starts[at] : starts[at]] = [",", "mutable", "UINT8", "*", name, "[", room, "]"]
            kinds.insert(at, room)
        self.own_kinds = kinds
        tokens = ["(", *tokens[1:], ")"] if tokens else []
        return tokens + (["where", "(", *self.test(), ")"] if self.values and self.chance(0.3) else [])

    def definition(self):
        roll, name = self.random.random(), "T%d" % len(self.types)
        if roll < 0.12:
            constant = "K%d" % len(self.constants)
            self.constants.append(constant)
            return ["#define", constant, self.number()]
        if roll < 0.22:
            members, tokens = [], []
            for _ in range(self.pick([1, 2, 3])):
                member = "M%d" % self.fresh_member()
                members.append(member)
                tokens += [member] + (["=", self.pick("012345679")] if self.chance(0.5) else []) + [","]
            self.constants += members
            self.types.append(name)
            self.numbers.add(name)
            return [self.pick(NUMBER_TYPES[:4]), "enum", name, "{", *tokens[: len(tokens) - self.chance(0.7)], "}"]
        if roll < 0.28:
            target = self.pick(NUMBER_TYPES + self.types)
            if target in NUMBER_TYPES or target in self.numbers:
                self.numbers.add(name)
            self.types.append(name)
            return ["typedef", target, name, ";"]
        if roll < 0.35:
            record = "R%d" % len(self.records)
            slots = [self.fresh() for _ in range(self.pick([1, 2, 3]))]
            self.records[record] = slots
            tokens = [token for slot in slots for token in (self.pick(NUMBER_TYPES[:6] + ["PUINT8"]), slot, ";")]
            return ["output", "typedef", "struct", "_" + record, "{", *tokens, "}", record, ";"]
        entry = self.chance(0.5)
        head = self.head(name)
        if roll < 0.5 and self.values:
            tokens, values = [], self.random.sample(range(6), self.pick([1, 2, 3]))
            switch = self.pick(self.values)
            for value in values:
                tokens += ["case", str(value), ":", *self.fields()]
            if self.chance(0.5):
                tokens += ["default", ":", *self.fields()]
            found = ["casetype", "_" + name, *head, "{", "switch", "(", switch, ")", "{", *tokens, "}", "}", name, ";"]
        else:
            found = ["typedef", "struct", "_" + name, *head, "{", *self.fields(), "}", name, ";"]
        self.types.append(name)
        self.parameters[name] = self.own_kinds
        if entry:
            self.entries.append(name)
        return ["entrypoint"] * entry + found

    def fresh_member(self):
        self.count += 1
        return self.count

    def begin(self):
        self.count, self.types, self.numbers, self.constants, self.records = 0, [], set(), [], {}
        self.parameters, self.entries, self.values, self.cells, self.start, self.unit = {}, [], [], [], False, None
        self.buffers = []

    def definitions(self):
        tokens = []
        for _ in range(self.pick([1, 1, 2, 3, 4])):
            tokens += self.definition()
        if not self.entries and self.chance(0.9):
            tokens += ["entrypoint", "typedef", "struct", "_P", *self.head("P"), "{", *self.fields(), "}", "P", ";"]
            self.parameters["P"] = self.own_kinds
            self.entries.append("P")
        return tokens

    def part_names(self):
        """Names of parts, of which two are the same now and then; some are those of other things too."""
        names = self.random.sample(["A", "B", "C", "module", "T0", "P", "x1", "K0", "_a"], self.pick([1, 2, 2, 3, 4]))
        return [self.pick(names) for _ in names] if self.chance(0.04) else names

    def in_part(self, part):
        """What a part defined, as the parts behind it name it: types, those of numbers, constants, records, parameters, entry points."""
        full = "%s.%%s" % part
        own = {name for name in self.types + self.constants + list(self.records) + self.entries if "." not in name}
        plain = lambda names: [full % name for name in names if name in own]  # noqa: E731
        found = [plain(self.types), set(plain(self.numbers)), plain(self.constants), plain(self.entries)]
        return found + [{full % name: given[name] for name in given if name in own} for given in (self.records, self.parameters)]

    def parts(self):
        """The tokens of a text of several parts: each names what the parts that were made before it define, and they stand in any order."""
        texts, known = [], [[], set(), [], [], {}, {}]
        for part in self.part_names():
            self.begin()
            self.types, self.numbers, self.constants = list(known[0]), set(known[1]), list(known[2])
            self.records, self.parameters = dict(known[4]), dict(known[5])
            tokens = self.definitions() if self.chance(0.92) else []
            own = self.in_part(part)
            known = [had + new if isinstance(had, list) else had | new for had, new in zip(known, own)]
            texts.append(["module", part, *tokens])
        if self.chance(0.04):
            # A name of a part that stands where the parts are made later, or nowhere, or of one that defines nothing so.
            text = self.pick(texts)
            text += ["typedef", "%s.%s" % (self.pick([text[1] for text in texts] + ["Q"]), self.pick(["T0", "P", "K0", "zz"])), "Q0", ";"]
        self.random.shuffle(texts)
        self.types, self.numbers, self.constants, self.entries, self.records, self.parameters = known
        tokens = [token for text in texts for token in text]
        # A dot is a token, so a blank may stand beside it.
        return [piece for token in tokens for piece in (token.replace(".", " . ").split() if "." in token and self.chance(0.3) else [token])]

    def module(self):
        if self.parted.random() < 0.2:
            tokens = self.parts()
        else:
            self.begin()
            tokens = self.definitions()
        place = self.random.randrange(len(tokens)) if tokens else 0
        if self.chance(0.03):
            del tokens[place]
        elif self.chance(0.04):
            tokens.insert(place, self.pick(STRAY_TOKENS))
        elif self.chance(0.02):
            tokens.insert(place, "/*")
        elif self.chance(0.03):
            tokens[place] = self.pick(tokens)
        # Mostly a space between two tokens; where nothing stands there, two may be read as one.
        return "".join(token + (self.pick(WHITE_SPACE) if self.chance(0.04) else " ") for token in tokens)

    # ---- Jobs.

    def digits(self, count):
        return "".join(self.pick("0123456789abcdefABCDEF") for _ in range(count))

    def content(self, count):
        few = "".join("%02x" % self.pick([0, 0, 1, 2, 3, 4, 5, 255]) for _ in range(count))
        return self.pick([self.digits(2 * count), few, few, "00" * count])

    def store(self, words):
        word = self.random.randrange(max(1, words)) if self.chance(0.97) else words + self.random.randrange(3)
        text = self.digits(16) if self.chance(0.5) else self.content(8)[:16]
        return [self.pick([0, 0, 1, 1, 2, 3, 2**64 - 1]), word, text if self.chance(0.99) else text[1:]]

    def cut(self, length):
        """The length in pieces, of which some are empty."""
        count = self.pick([1, 2, 2, 3, 3, 4, 6]) if length else self.pick([0, 1, 2])
        places = sorted(self.pick([0, length, self.random.randrange(length + 1)]) for _ in range(count - 1))
        return [after - before for before, after in zip([0, *places], [*places, length])] if count else []

    def stretches(self, length, given):
        """Stretches of a message of this length in so many bytes: in any order, of any alignment, some over each other."""
        sizes = self.cut(length)
        ends = given if self.chance(0.97) else given + 2
        found = [[self.random.randrange(max(0, ends - size) + 1), size] for size in sizes]
        if self.chance(0.3):
            # The pieces of a message that lies in one piece.
            found = [[sum(sizes[:number]), size] for number, size in enumerate(sizes)]
        if self.chance(0.02):
            found += [[self.pick([0, given]), 0]] * (self.pick([63, 64, 65]) - len(found))
        if found and self.chance(0.02):
            number = self.random.randrange(len(found))
            found[number] = self.pick([[], found[number][:1], found[number] + [0], [found[number][0], 2**64], [2**64 - 1, 0], None, 7, "00"])
        return found

    def job(self):
        entry = self.pick(self.entries) if self.entries and self.chance(0.97) else self.pick(["Q", "", "p"])
        count = self.pick([0, 1, 2, 3, 4, 7, 8, 9, 10, 15, 16, 17, 20, 24, 31, 33, 48, 64])
        length = max(0, count - self.pick([0, 0, 0, 0, 1, 2, 5]))
        job = {"entry": entry, "length": length, "bytes": self.content(count)}
        values = [kind for kind in self.parameters.get(entry, []) if kind == "value"]
        if values or self.chance(0.1):
            job["args"] = [self.pick([0, 1, 2, 3, 5, 100, 255] + [256, 2**64] * self.chance(0.05)) for _ in values]
        if self.chance(0.1):
            job["cells"] = [self.pick([0, 1, 7, 300])] * self.pick([0, 1, 2])
        words = -(-length // 8)
        if self.chance(0.3):
            job["stretches"] = self.stretches(length, count)
            job["length"] += self.pick([1, 2**32]) * self.chance(0.02)
            words = -(-count // 8)
        if self.chance(0.5):
            job["stores"] = [self.store(words) for _ in range(self.random.randrange(6))]
        if self.chance(0.02):
            del job[self.pick(sorted(job))]
        if self.chance(0.03):
            name = self.pick(["bytes", "length", "entry", "stretches", "stores", "args", "cells", "zz", "A", "é", ""])
            job[name] = self.pick(OTHER_VALUES)
        if self.chance(0.03):
            job["length"] = self.pick([count + 1, 2**32 + count, 2**64 - 1, count])
        if self.drawn.random() < 0.08:
            job = self.with_value(job)
        text = json.dumps(job, ensure_ascii=self.chance(0.5))
        if self.chance(0.03):
            place = self.random.randrange(len(text))
            text = text[:place] + self.pick(["", "}", '"', ",", "[", " ", "x", "\n"]) + text[place + 1 :]
        return text

    def json_value(self, depth=0):
        """A part of a job's value, nearly always one that some type may have."""
        roll = self.drawn.random()
        if roll < 0.02:
            return self.drawn.choice([True, {}, -1, 1.5, 2**64, "0", "0g"])
        if roll < 0.6:
            return self.drawn.choice([0, 0, 1, 2, 3, 4, 7, 255, 256, 65536, 2**32, 2**64 - 1])
        if roll < 0.8 or depth > 3:
            return self.drawn.choice(["", "", "00", "aB", "0001", "ff" * 3, "00" * 8, None, None])
        return [self.json_value(depth + 1) for _ in range(self.drawn.choice([0, 1, 1, 2, 2, 3, 4]))]

    def with_value(self, job):
        """A job with a value in the place of what says where its message lies; some of that stays now and then."""
        stays = self.drawn.choice(["bytes", "length", "stretches"]) if self.drawn.random() < 0.05 else None
        kept = {name: part for name, part in job.items() if name not in ("bytes", "length", "stretches") or name == stays}
        listed = [self.json_value(1) for _ in range(self.drawn.choice([1, 1, 1, 2, 2, 3, 4, 5]))]
        if self.drawn.random() < 0.5:
            listed = [self.drawn.randrange(6) for _ in listed]
        return {**kept, "value": listed if self.drawn.random() < 0.95 else self.json_value()}

    def post_list(self, length, given):
        """Stretches of a post; nearly always within the buffer."""
        found = self.stretches(min(length, given), given)
        if self.chance(0.9):
            found = [stretch for stretch in found if isinstance(stretch, list) and len(stretch) == 2 and sum(stretch) <= given][:64]
        return found

    def script(self, words, rings=(), given=0):
        """Stores to a few words of the buffer, and messages in it, of which many overlap; and of rings, descriptors of messages in so many
        bytes."""
        steps = []
        for _ in range(self.pick([0, 1, 2, 3, 4, 6, 8])):
            if rings and self.chance(0.4):
                steps += self.ring_stores(rings, given)
            elif self.chance(0.45):
                word = self.random.randrange(max(1, words)) if words and self.chance(0.999) else words
                text = self.content(8)[:16]
                steps.append(["store", word, text if self.chance(0.999) else self.pick(["", text[1:], text[1:] + "g"])])
            else:
                base = self.random.randrange(words + 1)
                length = max(0, self.pick([8 * (words - base), 8 * (words - base), 24, 16, 9, 8, 4, 2, 1, 0]) - self.pick([0, 0, 1, 5]))
                length = min(length, 8 * (words - base)) if self.chance(0.998) else length + self.pick([1, 8, 2**32, 2**63])
                steps.append(["post", base, length] if self.chance(0.7) else ["post", self.post_list(length, 8 * words)])
            if self.chance(0.002):
                steps[-1] = self.pick([steps[-1][:2], steps[-1] + [0], ["stor", 0, "0" * 16], ["post", 0, "0"], "post", [0, 0, 0], {}, ["post", [0]], ["post", {}]])
        return steps

    def near(self, module):
        """A module text with another number or two, which may not be accepted."""
        for _ in range(self.pick([0, 1, 1, 2])):
            places = [place.span() for place in re.finditer(r"\b\d+\b", module)]
            if places:
                start, end = self.pick(places)
                module = module[:start] + str(self.pick(NUMBERS[:12])) + module[end:]
        return module

    def swaps(self, module, near):
        """What is to take a module's place, one after the other: of texts near it, or something else."""
        found = [self.pick(near) for _ in range(self.pick([1, 1, 2, 3, 5, 16]))]
        if self.chance(0.02):
            return found * 17
        if self.chance(0.08):
            others = ["typedef", "", "é", module + "%%\n", re.sub(r"\bentrypoint\b", "", module), re.sub(r"\b([fxyz]\d+)\b", r"\1_", module)]
            found[self.random.randrange(len(found))] = self.pick(others if self.chance(0.7) else OTHER_VALUES)
        return found

    def shared(self, wants_rings):
        """A buffer, its rings, which stand behind it, and how many bytes stand before them."""
        count = self.pick([0, 1, 8, 9, 16, 17, 24, 24, 32, 40, 64])
        text, rings = self.content(count), []
        given = 8 * -(-count // 8)
        for _ in range(self.pick([1, 1, 1, 2, 3]) if wants_rings else 0):
            text += "00" * (-(len(text) // 2) % 8)
            ring, digits = self.ring(len(text) // 16, given)
            rings.append(ring)
            text += digits
        return text, rings, given

    def host_job(self, most, swaps=None, wants_rings=False):
        """A job of up to so many guests and workers, which has these swaps, and now rings."""
        entry = self.pick(self.entries) if self.entries and self.chance(0.99) else self.pick(["Q", "", "p"])
        buffer, rings, given = self.shared(wants_rings)
        words = -(-len(buffer) // 16)
        values = [kind for kind in self.parameters.get(entry, []) if kind == "value"]
        job = {
            "entry": entry,
            "buffer": buffer,
            "workers": 1 + self.random.randrange(most),
            "guests": [{"script": self.script(words, rings, given)} for _ in range(1 + self.random.randrange(most))],
        }
        if wants_rings:
            job["rings"] = self.rings_wrong(rings) if self.chance(0.08) else rings
        if values or self.chance(0.1):
            job["args"] = [self.pick([0, 1, 2, 3, 5, 100, 255] + [256, 2**64] * self.chance(0.12)) for _ in values]
        if swaps is not None:
            job["swaps"] = swaps
        if self.chance(0.01):
            del job[self.pick(sorted(job))]
        if self.chance(0.02):
            job.update(self.pick([{"workers": 0}, {"workers": 17}, {"guests": []}, {"guests": [{"script": []}] * 17}]))
        if self.chance(0.02):
            name = self.pick(["buffer", "workers", "guests", "entry", "args", "rings", "swaps", "cells", "length", "zz", "A", "é", ""])
            job[name] = self.pick(OTHER_VALUES + [[{}], [{"script": 0}]])
        if self.chance(0.02):
            guest = self.pick(job["guests"]) if isinstance(job.get("guests"), list) and job["guests"] else {}
            guest[self.pick(["script", "scripts", "é", "", "a"])] = self.pick(OTHER_VALUES)
        text = json.dumps(job, ensure_ascii=self.chance(0.5))
        if self.chance(0.01):
            place = self.random.randrange(len(text))
            text = text[:place] + self.pick(["", "}", '"', ",", "[", " ", "x", "\n"]) + text[place + 1 :]
        return text

    def input(self):
        """A command and its input."""
        if self.chance(0.25):
            text = bytearray(self.module().encode())
            command = "check"
        else:
            marker = "%%\n" if self.chance(0.96) else self.pick(["%%", "%% \n", "%%\r\n", "\n%%\n", "%%\n%%\n", ""])
            text = bytearray((self.module() + ("\n" if self.chance(0.97) else "") + marker + self.job()).encode())
            command = "run"
        if text and self.chance(0.02):
            text[self.random.randrange(len(text))] = self.random.randrange(256)
        return command, bytes(text)
