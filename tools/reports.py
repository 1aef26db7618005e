"""Reports and error lines of td, read strictly, as values that JSON spells (docs/report-json.md)."""

import re

from limits import MOST_GUESTS, MOST_RINGS, MOST_STRETCHES, MOST_SWAPS

LARGEST = 2**64 - 1
MOST_DIGITS = len(str(LARGEST))
NUMBER = re.compile(r"0|[1-9][0-9]*")
NAME = r"[A-Za-z_][A-Za-z0-9_]*"
# A type of a module of several parts has the part's name before its own.
SITE = re.compile(r"(%s(?:\.%s)?)\.(%s)" % (NAME, NAME, NAME))
CELL = re.compile(r"%s(\.%s)?" % (NAME, NAME))
BUFFER = re.compile(NAME)
VALUE = re.compile(r"[0-9a-f]{16}")
BYTES = re.compile(r"([0-9a-f]{2})+")
REASONS = ("notenough", "constraint", "impossible", "listsize", "action", "padding")
MODULE_ERROR = re.compile(r"error ([A-Z][0-9]) ([1-9][0-9]*):([1-9][0-9]*) (.+)")
INPUT_ERROR = re.compile(r"error (Z[0-9]) (.+)")
# A name in a job is printed raw, and may have line feeds or be empty.
JOB_ERROR = re.compile(r"error (J(?:10|[1-9]))(?: (.*))?", re.DOTALL)
OTHER_ERROR = re.compile(r"error (read|memory)")
COUNTS = re.compile(r"ok definitions ([0-9]+) entries ([0-9]+)")


class NoReport(Exception):
    """Why a text is no report: a line's number, from 1, and the words."""


def number(text, line):
    if not NUMBER.fullmatch(text) or len(text) > MOST_DIGITS or int(text) > LARGEST:
        raise NoReport(line, "`%s` isn't a number" % text)
    return int(text)


class Lines:
    """The lines of a report, taken one by one."""

    def __init__(self, lines):
        self.lines, self.at = lines, 0

    def words(self, kind, *counts):
        """The words after the kind of the next line, where it is of this kind and has so many; None where it is of another."""
        if self.at == len(self.lines) or self.lines[self.at].split(" ")[0] != kind:
            return None
        words = self.lines[self.at].split(" ")[1:]
        self.at += 1
        if len(words) not in counts:
            raise NoReport(self.at, "a line `%s` has %s words behind it" % (kind, " or ".join(map(str, counts))))
        return words

    def number(self, text):
        return number(text, self.at)

    def wrong(self, words):
        raise NoReport(self.at, words)


def digits_of(lines, words):
    """The digits of bytes at a line's end; where there is no byte, nothing stands there."""
    if words and not BYTES.fullmatch(words[0]):
        lines.wrong("`%s` isn't lower-case hexadecimal digits, two for each byte" % words[0])
    return "".join(words)


def bytes_of(lines):
    """The bytes that were written of a value; nothing where the message is of none."""
    words = lines.words("bytes", 0, 1)
    return {} if words is None else {"bytes": digits_of(lines, words)}


def verdict_of(lines):
    accepted = lines.words("accept", 1)
    if accepted:
        return {"verdict": "accept", "position": lines.number(accepted[0])}
    rejected = lines.words("reject", 2)
    if not rejected:
        raise NoReport(lines.at + 1, "`accept` or `reject` is missing")
    if rejected[0] not in REASONS:
        lines.wrong("`%s` is no reason" % rejected[0])
    return {"verdict": "reject", "reason": rejected[0], "position": lines.number(rejected[1])}


def frames_of(lines):
    found = []
    while words := lines.words("frame", 2):
        site = SITE.fullmatch(words[0])
        if not site:
            lines.wrong("`%s` is no TYPE.FIELD" % words[0])
        found.append({"type": site[1], "field": site[2], "start": lines.number(words[1])})
    return found


def cells_of(lines):
    found = []
    while words := lines.words("out", 2):
        if not CELL.fullmatch(words[0]):
            lines.wrong("`%s` is no name of a cell" % words[0])
        found.append({"name": words[0], "value": lines.number(words[1])})
    return found


def copies_of(lines):
    """What each copy buffer holds; nothing where the entry point has none."""
    found = []
    while words := lines.words("copy", 1, 2):
        if not BUFFER.fullmatch(words[0]):
            lines.wrong("`%s` is no name of a copy buffer" % words[0])
        found.append({"name": words[0], "bytes": digits_of(lines, words[1:])})
    return {"copies": found} if found else {}


def load_of(lines, words):
    """A load: of a message of stretches with the number of the stretch."""
    *numbers, value = words
    numbers = [lines.number(word) for word in numbers]
    if len(numbers) == 2 and numbers[0] >= MOST_STRETCHES:
        lines.wrong("a message has no stretch %d: at most %d, from 0" % (numbers[0], MOST_STRETCHES))
    if not VALUE.fullmatch(value):
        lines.wrong("`%s` isn't 16 lower-case hexadecimal digits" % value)
    return {**dict(zip(("stretch", "word")[-len(numbers) :], numbers)), "value": value}


def loads_of(lines):
    found = []
    while words := lines.words("load", *((2, 3) if not found else (2 + ("stretch" in found[0]),))):
        load = load_of(lines, words)
        before = found[-1] if found else None
        if before and before["word"] >= load["word"] and before.get("stretch") == load.get("stretch"):
            lines.wrong("word %d is loaded after word %d: loaded words rise" % (load["word"], before["word"]))
        if before and before.get("stretch", 0) > load.get("stretch", 0):
            lines.wrong("stretch %d is loaded after stretch %d: stretches rise" % (load["stretch"], before["stretch"]))
        found.append(load)
    return found


def run_of(lines, written={}):
    """The lines of one run."""
    run = {**written, **verdict_of(lines)}
    frames = frames_of(lines)
    if (run["verdict"] == "reject") != bool(frames):
        raise NoReport(lines.at + 1, "a rejection has frames, and nothing else has")
    if frames:
        run["frames"] = frames
    return {**run, "out": cells_of(lines), **copies_of(lines), "loads": loads_of(lines)}


def version_of(lines, before):
    """The version that a reply is under, as a field: all replies of a report have one, or none has."""
    words = lines.words("version", 1)
    if before is not None and ("version" in before) != bool(words):
        raise NoReport(lines.at + (not words), "all replies have a line `version`, or none has")
    if not words:
        return {}
    version = lines.number(words[0])
    if version > MOST_SWAPS:
        lines.wrong("there is no version %d: at most %d, from 0" % (version, MOST_SWAPS))
    return {"version": version}


def replies_of(lines):
    found = []
    while words := lines.words("reply", 2):
        reply = {"guest": lines.number(words[0]), "number": lines.number(words[1])}
        before = (found[-1]["guest"], found[-1]["number"]) if found else (0, 0)
        now = reply["guest"], reply["number"]
        is_next = found and now == (before[0], before[1] + 1)
        if not is_next and not (before[0] < now[0] <= MOST_GUESTS and now[1] == 1):
            lines.wrong("reply %d %d doesn't follow %d %d: replies stand by guest and number, from 1" % (now + before))
        version = version_of(lines, found[-1] if found else None)
        found.append({**reply, **version, **run_of(lines)})
    return found


def head_of(lines):
    words = lines.words("head", 1)
    if words is None:
        raise NoReport(lines.at + 1, "`head` is missing, the count that a take found")
    if not VALUE.fullmatch(words[0]):
        lines.wrong("`%s` isn't 16 lower-case hexadecimal digits" % words[0])
    return words[0]


def next_of(lines):
    """What a take came to: nothing that waits, or a descriptor, and the message of one that was accepted."""
    for word in ("idle", "overrun"):
        if lines.words(word, 0) is not None:
            return {"next": word}
    descriptor = run_of(lines)
    words = lines.words("message", 1)
    if (descriptor["verdict"] == "accept") != (words is not None):
        raise NoReport(lines.at + (words is None), "a descriptor that is accepted has a message, and no other has")
    if words is None:
        return {"next": "bad", "descriptor": descriptor}
    return {"next": "message", "descriptor": descriptor, "message": {"number": lines.number(words[0]), **run_of(lines)}}


def takes_of(lines):
    found = []
    while words := lines.words("ring", 2):
        now = lines.number(words[0]), lines.number(words[1])
        before = (found[-1]["ring"], found[-1]["number"]) if found else (0, 0)
        is_next = found and now == (before[0], before[1] + 1)
        if not is_next and not (before[0] < now[0] <= MOST_RINGS and now[1] == 1):
            lines.wrong("ring %d %d doesn't follow %d %d: takes stand by ring and number, from 1" % (now + before))
        found.append({"ring": now[0], "number": now[1], "head": head_of(lines), **next_of(lines)})
    return found


def host_of(lines):
    """The replies, and the takes where there are any."""
    replies, takes = replies_of(lines), takes_of(lines)
    return {"replies": replies, "takes": takes} if takes else {"replies": replies}


def error_of(text):
    """The value of an error line; None where it is none."""
    module, whole = MODULE_ERROR.fullmatch(text), INPUT_ERROR.fullmatch(text)
    job, other = JOB_ERROR.fullmatch(text), OTHER_ERROR.fullmatch(text)
    if module and module[1][0] not in "JZ":
        error = {"code": module[1], "line": number(module[2], 1), "column": number(module[3], 1), "words": module[4]}
    elif whole:
        error = {"code": whole[1], "words": whole[2]}
    elif job:
        error = {"code": job[1], "path": job[2] or ""}
    elif other:
        error = {"words": other[1]}
    else:
        return None
    return {"kind": "error", "error": error}


def value_of(written):
    """What a report or an error line says."""
    try:
        text = written.decode("utf-8")
    except UnicodeDecodeError:
        raise NoReport(1, "it isn't UTF-8") from None
    if not text.endswith("\n"):
        raise NoReport(text.count("\n") + 1, "the last line isn't ended: it was cut short, or nothing was written")
    error = error_of(text[:-1])
    if error:
        return error
    lines = Lines(text[:-1].split("\n"))
    counts = COUNTS.fullmatch(text[:-1])
    if counts:
        return {"kind": "check", "definitions": number(counts[1], 1), "entries": number(counts[2], 1)}
    if lines.lines[0].startswith(("reply ", "ring ")):
        value = {"kind": "host", **host_of(lines)}
    else:
        value = {"kind": "run", **run_of(lines, bytes_of(lines))}
    if lines.at < len(lines.lines):
        raise NoReport(lines.at + 1, "this line has no place here")
    return value
