"""Traces of what guests store, as lines (docs/tools.md has the format), and what of them a job can say."""

import re
from collections.abc import Callable
from dataclasses import dataclass
from typing import Any

from limits import MOST_GUESTS, MOST_MESSAGE, MOST_POSTS, MOST_STORES, MOST_STRETCHES, grouped

from .running import Wrong

NUMBER = re.compile(r"0|[1-9][0-9]{0,18}")
MEMORY_ORDER = re.compile(r"[0-9a-fA-F]{16}")
AS_NUMBER = re.compile(r"0[xX][0-9a-fA-F]{1,16}")
STRETCH = re.compile(r"(0|[1-9][0-9]{0,18}),(0|[1-9][0-9]{0,18})")
FORMS = "`GUEST store WORD VALUE`, `GUEST post WORD LENGTH`, `GUEST post PLACE,SIZE ..` or `load`"


# The error of a line, by its number and what is wrong.
Said = Callable[[int, str], Wrong]


@dataclass(frozen=True)
class Step:
    """A line of a trace: its number, its guest (0 of a `load`), its verb (`store`, `post`, `load`), the word, and the value's digits or the length. Of a
    post of stretches the word is None, and these stand in the place of the length."""

    line: int
    guest: int
    verb: str
    word: int | None
    value: Any


def digits_of(text: str) -> str | None:
    """The 16 digits of a value in memory order; None where it is none. `0x..` is a number, whose byte of least weight lies first."""
    if MEMORY_ORDER.fullmatch(text):
        return text
    if AS_NUMBER.fullmatch(text):
        return int(text, 16).to_bytes(8, "little").hex()
    return None


def step_of(words: list[str], line: int, wrong: Said) -> Step:
    if words == ["load"]:
        return Step(line, 0, "load", None, None)
    is_listed = len(words) > 2 and words[1] == "post" and all(map(STRETCH.fullmatch, words[2:]))
    if not is_listed and (len(words) != 4 or words[1] not in ("store", "post")):
        raise wrong(line, "is none of %s" % FORMS)
    guest, verb = words[:2]
    if not NUMBER.fullmatch(guest) or not 1 <= int(guest) <= MOST_GUESTS:
        raise wrong(line, "`%s` is no guest: they are numbered from 1 to %d" % (guest, MOST_GUESTS))
    if is_listed:
        return Step(line, int(guest), verb, None, stretches_of(words[2:], line, wrong))
    word, value = words[2:]
    if not NUMBER.fullmatch(word):
        raise wrong(line, "`%s` is no word: words of 8 bytes are numbered from 0" % word)
    if verb == "store":
        digits = digits_of(value)
        if digits is None:
            raise wrong(line, "`%s` is no value: 16 hexadecimal digits in memory order, or a number that begins with 0x" % value)
        return Step(line, int(guest), verb, int(word), digits)
    if not NUMBER.fullmatch(value) or int(value) > MOST_MESSAGE:
        raise wrong(line, "`%s` is no length of a message: at most %s bytes" % (value, grouped(MOST_MESSAGE)))
    return Step(line, int(guest), verb, int(word), int(value))


def stretches_of(texts: list[str], line: int, wrong: Said) -> list[list[int]]:
    found = [[int(number) for number in text.split(",")] for text in texts]
    if len(found) > MOST_STRETCHES or sum(size for _, size in found) > MOST_MESSAGE:
        raise wrong(line, "a message has at most %d stretches and %s bytes" % (MOST_STRETCHES, grouped(MOST_MESSAGE)))
    return found


def steps_of(name: str, path: str, data: bytes) -> list[Step]:
    """The steps of a trace. Empty lines, and what stands behind a `#`, are left out."""

    def wrong(line: int, words: str) -> Wrong:
        return Wrong("%s: the trace '%s', line %d: %s" % (name, path, line, words))

    try:
        text = data.decode("ascii")
    except UnicodeDecodeError as error:
        raise wrong(data[: error.start].count(b"\n") + 1, "a byte that isn't ASCII") from None
    steps = []
    for line, row in enumerate(text.split("\n"), 1):
        words = row.split("#")[0].split()
        if words:
            steps.append(step_of(words, line, wrong))
    stores = [step for step in steps if step.verb == "store"]
    if len(stores) > MOST_STORES:
        said = "this is store number %s, and a job has at most %s" % (grouped(MOST_STORES + 1), grouped(MOST_STORES))
        raise wrong(stores[MOST_STORES].line, said)
    return steps


def stores_of(name: str, path: str, steps: list[Step], words: int, what: str = "the message") -> list[list[Any]]:
    """The stores of a run job: those before the first `load` come before load 0, and so on. Which guest made them isn't said there.
    `what` has so many words."""
    stores: list[list[Any]] = []
    before = 0
    for step in steps:
        if step.verb == "load":
            before += 1
        elif step.verb == "post":
            said = "%s: the trace '%s', line %d: a run job has one message, and no posts: take --host, or the line out"
            raise Wrong(said % (name, path, step.line))
        elif step.word is not None and step.word >= words:
            said = "%s: the trace '%s', line %d: %s has %d words, and no word %d"
            raise Wrong(said % (name, path, step.line, what, words, step.word))
        else:
            stores.append([before, step.word, step.value])
    return stores


def guests_of(name: str, path: str, steps: list[Step], words: int, has_rings: bool = False) -> list[dict[str, Any]]:
    """The guests of a host job, each with the script of its steps in their order. Where it has rings, they may post nothing."""
    scripts: list[list[Any]] = [[] for _ in range(max([step.guest for step in steps], default=0))]
    for step in steps:
        place = (name, path, step.line)
        if step.verb == "load":
            raise Wrong("%s: the trace '%s', line %d: when a host's workers load isn't said in a job: take the line out" % place)
        if step.word is None:
            past = [stretch for stretch in step.value if sum(stretch) > 8 * words]
            if past:
                raise Wrong("%s: the trace '%s', line %d: the buffer has %d bytes, and `%d,%d` passes them" % (*place, 8 * words, *past[0]))
            scripts[step.guest - 1].append([step.verb, step.value])
            continue
        count = -(-step.value // 8) if step.verb == "post" else 1
        if step.word + count > words:
            said = "%s: the trace '%s', line %d: the buffer has %d words, and no word %d"
            raise Wrong(said % (*place, words, step.word + count - 1))
        scripts[step.guest - 1].append([step.verb, step.word, step.value])
    posts = [step for step in steps if step.verb == "post"]
    if not posts and not (has_rings and scripts):
        raise Wrong("%s: the trace '%s' posts no message: a line `1 post 0 LENGTH` posts one that begins at word 0" % (name, path))
    if len(posts) > MOST_POSTS:
        said = "%s: the trace '%s', line %d: this is post number %s, and a job has at most %s"
        raise Wrong(said % (name, path, posts[MOST_POSTS].line, grouped(MOST_POSTS + 1), grouped(MOST_POSTS)))
    return [{"script": script} for script in scripts]
