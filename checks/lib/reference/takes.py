"""The takes of a host job's rings: what they are where nobody stores, and whether a report of a host, with its takes, can be right."""

import functools

from .hosts import Told, Version, Wrong, judge_replies, lines_and_cells, loads_of, name_in, replies_of, version_in
from .layouts import Layout, plain
from .modules import module_of
from .orders import have_one_order
from .rings import TEXT, WAITING
from .runs import Memory

DESCRIPTOR = plain(16)
# No guest's store stands before the loads of a ring.
NO_STORE = (0, 0)


@functools.cache
def descriptor():
    known = module_of(TEXT)[1]
    return Version(known.types, known.entries[0])


def take_of(job, ring, taken, made, memory_of):
    """The lines of a take after its first two, and how many descriptors were taken then. `memory_of` gives the memory of a message of a
    layout: of the descriptor's, whose first word of the buffer it is told, and then of the message's, where there is one."""
    standing = ring.standing(taken, made)
    if standing != WAITING:
        return standing + "\n", taken
    room = [8 * len(job.words), ring.most]
    lines, (place, size, _) = lines_and_cells(descriptor(), room, memory_of(DESCRIPTOR, ring.first_word(taken)))
    if lines.startswith("accept"):
        layout = Layout([(place, size)])
        lines += "message %d\n" % taken + lines_and_cells(job.versions[0], job.arguments, memory_of(layout, 0))[0]
    return lines, taken + 1


def still_takes(job):
    """The lines of all takes where nobody stores to the buffer."""
    lines = []
    for number, ring in enumerate(job.rings, 1):
        taken = 0
        for take in range(1, ring.takes + 1):
            made = job.words[ring.base]
            more, taken = take_of(job, ring, taken, made, lambda layout, first: Memory(layout, job.words[first:], []))
            lines.append("ring %d %d\nhead %016x\n%s" % (number, take, made, more))
    return "".join(lines)


def still_report(job):
    """The report of a host where nobody stores to the buffer and nothing takes the module's place."""
    lines = []
    for guest, number, layout, _ in job.posts():
        more = lines_and_cells(job.versions[0], job.arguments, Memory(layout, job.words, []))[0]
        lines.append("reply %d %d\n%s" % (guest, number, more))
    return "".join(lines) + still_takes(job)


def takes_in(report):
    """The takes of a report: for each its ring and number, and the lines behind these."""
    takes = []
    lines = report.splitlines(keepends=True)
    first = next((at for at, line in enumerate(lines) if line.startswith("ring ")), len(lines))
    for line in lines[first:]:
        words = line.split()
        if words[0] == "ring":
            takes.append((name_in(line), []))
        else:
            takes[-1][1].append(line)
    return takes


class TakeTold:
    """What a take's lines tell: the count, the lines of the descriptor's run, or the one in its place, and those of the message's. Each
    load that is told on the way is gathered by its word of the buffer, the count first."""

    def __init__(self, lines):
        words = lines[0].split() if lines else []
        if len(words) != 2 or words[0] != "head":
            raise Wrong("no line tells the count")
        self.made, lines = int(words[1], 16), lines[1:]
        at = next((at for at, line in enumerate(lines) if line.startswith("message ")), len(lines))
        self.descriptor, self.message, self.loads = lines[:at], lines[at + 1 :], []

    def kind(self):
        """What the take came to: a message, a bad descriptor, or none of either."""
        word = self.descriptor[0].split()[0] if self.descriptor else ""
        return {"accept": "message", "reject": "bad"}.get(word, word)

    def layout(self):
        """Where the message lies, by what the descriptor's run delivers."""
        cells = [int(line.split()[2]) for line in self.descriptor if line.startswith("out ")]
        return Layout([cells[:2]])

    def memory_of(self, layout, first):
        """The memory that the lines tell: the descriptor's, or of the message, whose layout is another."""
        loads = loads_of(layout, self.descriptor if layout is DESCRIPTOR else self.message)
        if None in [number for number, _ in loads]:
            raise Wrong("a word is loaded that it hasn't")
        self.loads += [(first + layout.buffer_word(number), value) for number, value in loads]
        return Told(layout, loads)


def judge_take(job, ring, taken, lines):
    """How many descriptors were taken after a take, and its loads, where it can be one."""
    told = TakeTold(lines)
    told.loads = [(ring.base, told.made)]
    wanted, after = take_of(job, ring, taken, told.made, told.memory_of)
    wanted = "head %016x\n" % told.made + wanted
    if "".join(lines) != wanted:
        raise Wrong("%r, but %r is wanted" % ("".join(lines), wanted))
    for word, value in told.loads:
        if not any(event[0] == value for event in job.values_of(word, {})):
            raise Wrong("%016x can't stand in word %d" % (value, word))
    return after, told.loads


def judge_takes(job, takes):
    """The loads of each ring's reader in turn, where these takes can be the job's."""
    if [name for name, _ in takes] != [(number, take) for number, ring in enumerate(job.rings, 1) for take in range(1, ring.takes + 1)]:
        raise Wrong("the takes aren't those of the rings")
    takes, chains = iter(takes), []
    for number, ring in enumerate(job.rings, 1):
        taken, chain = 0, []
        for take in range(1, ring.takes + 1):
            try:
                taken, loads = judge_take(job, ring, taken, next(takes)[1])
            except Wrong as wrong:
                raise Wrong("ring %d %d: %s" % (number, take, wrong)) from None
            chain += loads
        if not have_one_order(job, [(NO_STORE, chain)]):
            raise Wrong("ring %d: no order of the stores has its loads, one after the other" % number)
        chains.append((NO_STORE, chain))
    return chains


def chains_of_replies(job, report):
    """The loads of each reply, after the stores that its guest made before the post."""
    for (guest, _, layout, made), (_, lines) in zip(job.posts(), replies_of(report)):
        loads = loads_of(layout, version_in(lines, len(job.versions))[1])
        yield (guest, made), [(layout.buffer_word(number), value) for number, value in loads]


def chains_of_one_worker(replies):
    """The loads of each guest's replies in turn, as one worker makes them: it takes a guest's posts in their order."""
    chains = {}
    for (guest, made), loads in replies:
        chains.setdefault(guest, ((guest, made), []))[1].extend(loads)
    return list(chains.values())


def judge(job, report):
    """Raises `Wrong` where this can't be the report of the job: where its replies can't be (`judge_replies`); where there is another take
    than those of the rings, one that isn't what the words that it loaded say, a load of what can't stand in its word; or where no
    order of all stores has the loads of each ring's reader in turn, beside those of the others and of the replies; and, where there is
    one worker, those of a guest's replies in turn."""
    judge_replies(job, report)
    chains, replies = judge_takes(job, takes_in(report)), list(chains_of_replies(job, report))
    in_turn = chains_of_one_worker(replies) if job.workers == 1 else []
    if not have_one_order(job, chains + replies + in_turn):
        raise Wrong("no order of the stores has all loads")
