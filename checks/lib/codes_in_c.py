"""Codes that no module has, as C that the library writes of their images: by hand, at random, and with names that C has for itself.

Those by hand and at random are of checks/machine. Each runs over words that stay, and over words that others change before some loads: what its
function tells, and which words it loads, is what td_try_code answers. The function for messages in pieces tells the same of the message behind
some bytes of a word. Then it tries itself on C that is changed in one place: each has to be found."""

import os
import random
import re

from code_run import run_answers, run_numbers, words_of
from codes import IMAGES, code_of_lines, image_of
from compiled_c import InPieces, Validator
from program import built_programs
from scripts import script

# Names that C, C++, their headers or the written code have for themselves.
AWKWARD = (
    "int register class template uint8_t INT32_MAX NULL errno linux message length outcome td_run TD_LOAD _Bool __x r0 c0 start end"
    " run position bool true validate E2BIG _ name_ name A.b routine_0_T"
).split()
# Of codes by hand, what is changed in the C, and into what.
TRIALS = (
    ("two fetches in one word", "run->next = word + 1;", "run->next = word;"),
    ("fetch big-endian", "r0 = td_big_2(run, pos);", "r0 = td_little_2(run, pos);"),
    ("sub wraps", "r1 = r2 - r0;", "r1 = r0 - r2;"),
    ("a callee sets its caller's cell", "td_0_t(run, pos, end, r0, c1)", "td_0_t(run, pos, end, r0, c0)"),
)
# How many numbers stand behind each mark of td_try_code's answer.
SIZES = {"f": 4, "c": 1, "b": 1, "l": 2}


def told(line):
    """What C tells of an answer: after a rejection neither cells nor copies."""
    verdict, *words = line.split()
    at = 1 if verdict == "accept" else 2
    kept, words = [verdict, *words[:at]], words[at:]
    while words:
        size = SIZES[words[0]] + 1
        if verdict == "accept" or words[0] not in "cb":
            kept += words[:size]
        words = words[size:]
    return " ".join(kept)


class Codes:
    """Codes as C, in a folder, by a compiler that watches loads; what is wrong goes to a tally."""

    def __init__(self, tally, writer, compiler):
        self.tally, self.writer, self.compiler = tally, writer, compiler

    def built(self, name, title, image):
        """The tables of an image, its functions with their loads watched, and those for messages in pieces; None if there is a complaint."""
        complaint = self.writer.complaint(name, image)
        made = [] if complaint else [kind(self.writer.folder, name, IMAGES.Code(image), self.compiler) for kind in (watched, InPieces)]
        complaint = complaint or "".join(one.complaint for one in made)
        self.tally.counts["compiled"] += len(made)
        if complaint:
            self.tally.tell("%s: %s" % (title, complaint))
        return None if complaint else made

    def runs(self, title, validators, given, plans, lines):
        """A code's run by each plan of stores, and the same message in a piece that begins within a word."""
        args, cells, memory, lead = given
        plain, pieces = validators
        for stores, line in zip(plans, lines):
            ended = plain.run(0, args, cells, memory, len(memory), stores=stores)
            self.tally.expect(title, told(line), told(ended.line(plain.code)))
            self.tally.expect(title + ": what a rejection leaves", True, ended.leaves(cells))
        still = plain.run(0, args, cells, memory, len(memory))
        self.tally.expect(title + ": in pieces", still.without_loads(), pieces.run(0, args, cells, memory, lead).without_loads())

    def by_hand(self, pool):
        """An answer that tells of no run has to be the writer's refusal."""

        def check(pair):
            number, (name, code, memory, args, cells, wanted) = pair
            title, image = "hand%d" % number, code.image()
            if wanted[0] not in "ar":
                return self.tally.expect(name + " is refused", wanted, self.writer.complaint(title, image))
            validators = self.built(title, name, image)
            if validators:
                self.tally.counts["codes"] += 1
                self.runs(name, validators, (args, cells, memory, number % 8), [[]], [wanted])
            return None

        list(pool.map(check, enumerate(script("machine").HAND)))

    def at_random(self, pool, count, seed):
        """Each with a run over words that stay, and one over words that others change."""
        draw, cases, made = random.Random(seed), [], script("machine")
        while len(cases) < count:
            code, _, (entry, args, cells, memory) = made.random_case(draw)
            code.entries = [code.entries[entry]]
            words = words_of(memory)
            stores = [(draw.randrange(4), draw.randrange(len(words)), draw.choice([0, 1, 257, draw.randrange(2**64)])) for _ in words]
            cases.append((code.image(), (args, cells, memory, draw.randrange(8)), [[], stores]))
        verifier = built_programs("c", "td_try_code")[0]
        answers = run_answers(verifier, [(image, [numbers_in(*given[:3], stores) for stores in plans]) for image, given, plans in cases])
        rows = list(enumerate(zip(cases, answers)))
        accepted = [row for row in rows if not row[1][1][0].startswith("I6")]
        for number, ((image, _, _), lines) in (row for row in rows if row not in accepted):
            self.tally.expect("a code at random is refused", lines[0], self.writer.complaint("code%d" % number, image))
        built = pool.map(lambda row: self.built("code%d" % row[0], "a code at random", row[1][0][0]), accepted)
        for (_, ((_, given, plans), lines)), validators in zip(accepted, built):
            if validators:
                self.tally.counts["codes"] += 1
                self.runs("a code at random", validators, given, plans, lines)

    def trials(self):
        """Each change of a code's C is found by its run."""
        by_name = {row[0]: row[1:] for row in script("machine").HAND}
        for number, (name, old, new) in enumerate(TRIALS):
            code, memory, args, cells, wanted = by_name[name]
            title, image = "trial%d" % number, code.image()
            self.writer.complaint(title, image)
            with open(os.path.join(self.writer.folder, title + ".c"), "r+", encoding="ascii") as file:
                text = file.read()
                self.tally.expect("the C of %s has `%s`" % (name, old), True, old in text)
                file.seek(0)
                file.truncate()
                file.write(text.replace(old, new, 1))
            validator = watched(self.writer.folder, title, IMAGES.Code(image), self.compiler)
            found = told(validator.run(0, args, cells, memory, len(memory)).line(validator.code))
            self.tally.expect("changed C of %s is found" % name, True, found != told(wanted))

    def awkward_names(self):
        image, own = awkward_image()
        for validators in filter(None, [self.built("class_", "awkward names", image)]):
            ended = validators[0].run(0, list(range(1, 14)), [0] * own, bytes(range(8)), 8)
            self.tally.expect("awkward names of an image", ("accept", [13] + [0] * (own - 2) + [1]), (ended.reason, ended.cells))


def watched(folder, name, code, compiler):
    return Validator(folder, name, code, compiler, True)


def numbers_in(args, cells, memory, stores):
    return run_numbers(0, args, cells, len(memory), words_of(memory), stores)


def awkward_image():
    """Code of which parameters, cells, records and their fields have names that C has for itself, and how many cells it has."""
    lines = ["name T"] + ["name " + name for name in AWKWARD]
    numbers = range(1, len(AWKWARD) + 1)
    cells = " ".join(["cell %d - 64" % k for k in numbers[13:]] + ["cell %d %d 16" % (k, j) for k in (1, 14) for j in numbers[:20]][:30])
    entry = "entry 0 %s %s" % (" ".join("param %d 64" % k for k in numbers[:13]), cells)
    own = len(re.findall("cell", cells))
    lines += ["routine 13 %d 14" % own, "Set 12 0", "Set 0 %d" % (own - 1), "Fetch 0 0 8 0", "Return", entry]
    return image_of(code_of_lines(lines)), own
