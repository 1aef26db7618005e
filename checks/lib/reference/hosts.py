"""Host jobs, and whether a report of one can be right."""

import collections

from limits import (
    MOST_COPIES,
    MOST_GUESTS,
    MOST_MESSAGE,
    MOST_POSTS,
    MOST_STORES,
    MOST_STRETCHES,
    MOST_SWAPS,
    MOST_WORDS,
    MOST_WORKERS,
)

from .errors import JobError, ModuleError
from .jobs import (
    arguments_in,
    arguments_of,
    bytes_of,
    check_names,
    entry_of,
    is_digits,
    is_stretch,
    is_whole,
    object_of,
    require,
    words_of,
)
from .layouts import Layout, at_word
from .modules import module_of
from .rings import rings_of
from .runs import Memory, outcome_of

FIELDS = {"entry", "args", "buffer", "workers", "guests", "rings", "swaps"}

# A module that a message may be validated by: the types of its text, and the number of the entry point's among them.
Version = collections.namedtuple("Version", "types entry")


class HostJob:
    """The versions, of which the first is the job's module, the arguments, the words of the buffer, the number of workers, the
    guests' scripts, lists of `("store", word, value)` and `("post", layout)`, and the rings."""

    def __init__(self, versions, arguments, words, workers, scripts, rings):
        self.versions, self.arguments, self.words, self.workers, self.scripts, self.rings = versions, arguments, words, workers, scripts, rings

    def posts(self):
        """The guest, the number, the layout, and how many stores the guest made before it, of each post in the order of a report."""
        for guest, script in enumerate(self.scripts, 1):
            number, made = 0, 0
            for step in script:
                if step[0] == "store":
                    made += 1
                else:
                    number += 1
                    yield guest, number, step[1], made

    def values_of(self, word, made):
        """What a load of a word of the buffer may give where each guest has made at least so many stores: events, each a value, the guest
        that stores it and its number among the guest's stores; the opening value's guest is 0."""
        opening, found = [(self.words[word], 0, 0)], []
        for guest, script in enumerate(self.scripts, 1):
            stores = [step for step in script if step[0] == "store"]
            events = [(value, guest, at) for at, (_, to, value) in enumerate(stores, 1) if to == word]
            # Of a guest's stores that were made the last one alone can still stand, and the opening value can't.
            over = [at for _, _, at in events if at <= made.get(guest, 0)]
            opening = [] if over else opening
            found += [event for event in events if not over or event[2] >= over[-1]]
        return opening + found


def stands_in_turn(events, values):
    """Whether loads of one word, one after the other, may give these values: in some order of all scripts' steps."""

    def follows(done, last, left):
        if not left:
            return True
        for event in events:
            value, guest, at = event
            # What stands there still; else a store that comes later, by its guest's script. The opening word comes first alone.
            is_later = last is None or (guest and at > done.get(guest, 0))
            if value == left[0] and (event == last or is_later) and follows({**done, guest: at}, event, left[1:]):
                return True
        return False

    return follows({}, None, values)


def scatter_of(stretches, path, words):
    require(isinstance(stretches, list) and all(map(is_stretch, stretches)), "J2", path)
    require(all(sum(stretch) <= 8 * words for stretch in stretches), "J7", path)
    require(len(stretches) <= MOST_STRETCHES, "J8", path)
    require(sum(size for _, size in stretches) <= MOST_MESSAGE, "J8", path)
    return Layout(stretches)


def step_of(step, path, words):
    require(isinstance(step, list) and len(step) in (2, 3), "J2", path)
    if len(step) == 2:
        require(step[0] == "post", "J2", path)
        return "post", scatter_of(step[1], path, words)
    verb, first, second = step
    if verb == "store":
        require(is_whole(first) and isinstance(second, str), "J2", path)
        require(is_digits(second, 16), "J5", path)
        require(first < words, "J6", path)
        return verb, first, int.from_bytes(bytes.fromhex(second), "little")
    require(verb == "post" and is_whole(first) and is_whole(second), "J2", path)
    require(first + -(-second // 8) <= words, "J7", path)
    require(second <= MOST_MESSAGE, "J8", path)
    return verb, at_word(first, second)


def script_of(guest, path, words):
    require(isinstance(guest, dict), "J2", path)
    script = guest.get("script")
    require(isinstance(script, list), "J2", path + ".script")
    steps = [step_of(step, "%s.script[%d]" % (path, index), words) for index, step in enumerate(script)]
    check_names(guest, {"script"}, path.replace("%", "%%") + ".%s")
    return steps


def taken_and_filled(made):
    """What all versions of an entry point have in common: name and bits of each argument; name, field and bits of each cell; name and
    room of each copy buffer."""
    return [(parameter.name, parameter.bits) for parameter in arguments_in(made)], list(made.cells), list(made.buffers)


def swap_of(text, made):
    """The version that a module text is of this entry point; None where it can't take the place of the job's module."""
    try:
        known = module_of(text.encode())[1]
        entry = entry_of({"entry": made.name}, known)
    except (ModuleError, JobError):
        return None
    return Version(known.types, entry) if taken_and_filled(known.types[entry]) == taken_and_filled(made) else None


def swaps_of(job, made):
    """The versions that are published after the job's module, in their order."""
    swaps, found = job.get("swaps", []), []
    require(isinstance(swaps, list), "J2", "swaps")
    require(len(swaps) <= MOST_SWAPS, "J8", "swaps")
    for index, text in enumerate(swaps):
        path = "swaps[%d]" % index
        require(isinstance(text, str), "J2", path)
        found.append(swap_of(text, made))
        require(found[-1], "J9", path)
    return found


def host_job_of(text, known):
    job = object_of(text)
    entry = entry_of(job, known)
    arguments = arguments_of(job, known.types[entry])
    words = words_of(bytes_of(job, "buffer"))
    workers = job.get("workers")
    require(is_whole(workers), "J2", "workers")
    require(1 <= workers <= MOST_WORKERS, "J8", "workers")
    guests = job.get("guests")
    require(isinstance(guests, list), "J2", "guests")
    require(1 <= len(guests) <= MOST_GUESTS, "J8", "guests")
    scripts = [script_of(guest, "guests[%d]" % index, len(words)) for index, guest in enumerate(guests)]
    rings = rings_of(job, len(words))
    versions = [Version(known.types, entry), *swaps_of(job, known.types[entry])]
    check_names(job, FIELDS)
    steps = [step for script in scripts for step in script]
    posts = [step for step in steps if step[0] == "post"]
    require(len(posts) <= MOST_POSTS, "J8", "posts")
    require(len(steps) - len(posts) <= MOST_STORES, "J8", "stores")
    require(sum(len(layout.words) for _, layout in posts) + sum(ring.words() for ring in rings) <= MOST_WORDS, "J8", "words")
    rooms = sum(room for _, room in known.types[entry].buffers)
    require((len(posts) + sum(ring.takes for ring in rings)) * rooms <= MOST_COPIES, "J8", "copies")
    return HostJob(versions, arguments, words, workers, scripts, rings)


class Wrong(Exception):
    """What is wrong with a report."""


class Told(Memory):
    """A message of which only the loads that a report tells are known."""

    def __init__(self, layout, loads):
        super().__init__(layout, [], [])
        self.told = dict(loads)

    def load(self, number):
        if number not in self.told:
            raise Wrong("message word %d is read, but wasn't loaded" % number)
        return self.loaded.setdefault(number, self.told[number])


def name_in(line):
    """The two numbers of a line that begins a reply or a take."""
    word, *numbers = line.split()
    name = int(numbers[0]), int(numbers[1])
    if line != "%s %d %d\n" % (word, *name):
        raise Wrong("a line that no report has")
    return name


def replies_of(report):
    """The replies of a report: for each its guest and number, and the lines of its run. Behind them stand the takes of rings."""
    replies = []
    for line in report.splitlines(keepends=True):
        words = line.split()
        if line.startswith("ring "):
            break
        if words[0] == "reply":
            replies.append((name_in(line), []))
        elif not replies:
            raise Wrong("a line before the first reply")
        else:
            replies[-1][1].append(line)
    return replies


def loads_of(layout, lines):
    """The loads that lines tell of a message of this layout: the number of the message word, None where it has no such word, and
    the value."""
    loads = [line.split()[1:] for line in lines if line.startswith("load ")]
    return [(layout.number_of([int(word) for word in words]), int(value, 16)) for *words, value in loads]


def version_in(lines, count):
    """The number of a reply's version, and the lines of its run. A line tells it where there are several."""
    if count == 1:
        return 0, lines
    number = next((number for number in range(count) if lines[:1] == ["version %d\n" % number]), None)
    if number is None:
        raise Wrong("no line tells which of the %d versions it is under" % count)
    return number, lines[1:]


def workers_needed(numbers):
    """By how few workers a guest's replies may be, under versions of these numbers: its posts are taken in order, and what one worker
    looks at never falls. Each goes to the worker who saw the latest version among those that saw no later one."""
    seen = []
    for number in numbers:
        able = [at for at, last in enumerate(seen) if last <= number]
        at = max(able, key=seen.__getitem__) if able else len(seen)
        seen[at : at + 1] = [number]
    return len(seen)


def lines_and_cells(version, arguments, memory):
    """The lines of the run's report of a message in this memory, from cells of zeros, and the cells after it."""
    zeros = [0] * len(version.types[version.entry].cells)
    lines, cells = outcome_of(version.types, version.entry, arguments, zeros, memory)
    return lines + memory.lines(), cells


def judge_loads(job, guest, made, layout, loads):
    """Whether the loads for a post that the guest made after so many stores fit an order of all stores, as far as is told by one load
    after the other: who loads what a guest stored finds the guest's stores before it made, and so from there on."""
    numbers = [number for number, _ in loads]
    if None in numbers or numbers != sorted(set(numbers)):
        raise Wrong("the loaded words don't rise within the message")
    given, least = {}, {guest: made}
    for number, value in loads:
        word = layout.buffer_word(number)
        events = [event for event in job.values_of(word, least) if event[0] == value]
        if not events:
            raise Wrong("%016x can't stand in word %d then" % (value, word))
        by = events[0][1]
        if by and all(event[1] == by for event in events):
            least[by] = max(least.get(by, 0), min(at for _, _, at in events))
        given.setdefault(word, []).append(value)
    for word, values in given.items():
        if len(values) > 1 and not stands_in_turn(job.values_of(word, {guest: made}), values):
            raise Wrong("no order of the stores has %s in word %d, one after the other" % (", ".join("%016x" % value for value in values), word))


def judge_reply(job, post, lines):
    """The number of the version that a reply to a post is under, where it can be one."""
    guest, _, layout, made = post
    number, lines = version_in(lines, len(job.versions))
    loads = loads_of(layout, lines)
    judge_loads(job, guest, made, layout, loads)
    wanted = lines_and_cells(job.versions[number], job.arguments, Told(layout, loads))[0]
    if "".join(lines) != wanted:
        raise Wrong("%r, but %r is wanted" % ("".join(lines), wanted))
    return number


def judge_replies(job, report):
    """Raises `Wrong` where these can't be the replies of the job: another reply than one for each post, a version that there isn't, a
    load of what can't stand in its word then, words that don't rise, loads of one word that fit no order of the stores, another run than
    its version's of a message that carries the loads, or versions of a guest's replies that fall too often for the workers there are."""
    posts, replies = list(job.posts()), replies_of(report)
    if [name for name, _ in replies] != [(guest, number) for guest, number, _, _ in posts]:
        raise Wrong("the replies aren't the posts'")
    numbers = collections.defaultdict(list)
    for post, (_, lines) in zip(posts, replies):
        try:
            numbers[post[0]].append(judge_reply(job, post, lines))
        except Wrong as wrong:
            raise Wrong("reply %d %d: %s" % (*post[:2], wrong)) from None
    for guest, own in numbers.items():
        if workers_needed(own) > job.workers:
            raise Wrong("guest %d: versions %s fall more often than %d workers can have them" % (guest, " ".join(map(str, own)), job.workers))
