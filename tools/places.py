"""Places of a text as a terminal shows them, and what was written with the bytes escaped that a terminal doesn't print."""

import unicodedata
from collections.abc import Callable

# Of a long line so many characters are shown before the place, and from it on.
MOST_BEFORE, MOST_AFTER = 90, 60


class NoPlace(Exception):
    """The module has no such line, or its line no such column."""


def visible(part: bytes) -> str:
    """A part of a line as a terminal shows it: a tab as one blank, each byte or character that doesn't print as a dot."""
    text = part.decode("utf-8", "surrogateescape")
    return "".join(" " if char == "\t" else char if char.isprintable() else "." for char in text)


def escaped(part: bytes) -> str:
    """Bytes as text of one line: what doesn't print is escaped, and so is the backslash, so that two names are never shown alike."""
    shown = []
    for char in part.decode("utf-8", "surrogateescape"):
        code = ord(char)
        if char == "\\":
            shown.append("\\\\")
        elif char.isprintable():
            shown.append(char)
        elif 0xDC80 <= code <= 0xDCFF:
            shown.append("\\x%02x" % (code - 0xDC00))
        else:
            shown.append({"\n": "\\n", "\r": "\\r", "\t": "\\t"}.get(char, "\\u{%x}" % code))
    return "".join(shown)


def width(text: str) -> int:
    """How many places of a terminal's line a text takes."""
    places = 0
    for char in text:
        wide = unicodedata.east_asian_width(char) in "WF"
        places += 0 if unicodedata.category(char) in ("Mn", "Me") else 2 if wide else 1
    return places


def shown(text: bytes, number: int, column: int, called: Callable[[int], str] = str) -> str:
    """The line of this number with a caret under the byte of this column; `called` gives the number that is shown for a line's. Of a place
    at the end of the text, on an empty line, the last line that isn't empty stands above it."""
    lines = (text if text.endswith(b"\n") else text + b"\n").split(b"\n")
    if not 1 <= number <= len(lines) or not 1 <= column <= len(lines[number - 1]) + 1:
        raise NoPlace
    line = lines[number - 1]
    before, after = visible(line[: column - 1]), visible(line[column - 1 :].rstrip(b"\r"))
    if len(before) > MOST_BEFORE:
        before = ".. " + before[3 - MOST_BEFORE :]
    if len(after) > MOST_AFTER:
        after = after[: MOST_AFTER - 3] + " .."
    rows = []
    ends = not after and not b"".join(lines[number:])
    if ends and not before.strip():
        above = [place for place in range(1, number) if lines[place - 1].strip()][-1:]
        rows = ["%*s | %s" % (len(called(number)), called(place), visible(lines[place - 1])[: MOST_BEFORE + MOST_AFTER]) for place in above]
    head = called(number) + " | "
    caret = " " * (len(head) + width(before)) + "^" + (" the text ends here" if ends else "")
    return "\n".join(rows + [(head + before + after).rstrip(), caret])


def line_and_column(text: bytes, at: int) -> tuple[int, int]:
    """The place of a byte, as td names it."""
    before = text[:at]
    return before.count(b"\n") + 1, at - (before.rfind(b"\n") + 1) + 1


def place_of(text: bytes, at: int) -> str:
    return "%d:%d" % line_and_column(text, at)
