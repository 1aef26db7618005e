"""Texts that td-link joined: from which file each line is, by the lines `//@ NUMBER FILE` before them. They are comments of the text."""

import re

from reference.errors import ModuleError
from reference.tokens import KEYWORDS, NUMBER_TYPES, WORD, after_trivia, word

from .places import line_and_column

# The next line is this one of the file; 0 where it is none of it, but names the part.
ORIGIN = re.compile(rb"//@ (0|[1-9][0-9]{0,17}) (.+)")


class Unnamed(Exception):
    """A file is one part, and its name is no name of one."""


def first_word(text):
    """The word with which the tokens of a text begin; an empty one where they begin with none."""
    at = 0
    try:
        while at < len(text):
            after = after_trivia(text, at)
            if after is None:
                return word(text, at)[0][1] if WORD.match(text, at) else ""
            at = after
    except ModuleError:
        pass
    return ""


def part_name(path):
    """The name of the part that a file is, from its own: up to the first dot."""
    name = path.replace("\\", "/").rsplit("/", 1)[-1].split(".")[0]
    if not WORD.fullmatch(name.encode("utf-8", "surrogateescape")) or name in KEYWORDS or name in NUMBER_TYPES:
        raise Unnamed(name)
    return name


def ended(text):
    return text if not text or text.endswith(b"\n") else text + b"\n"


def joined(files):
    """One text of several files, each a path as bytes, as it is named, and its text. A file that doesn't begin with `module` is one part."""
    lines = b""
    for path, text in files:
        if first_word(text) != "module":
            lines += b"//@ 0 %s\nmodule %s\n" % (path, part_name(path.decode("utf-8", "surrogateescape")).encode())
        lines += b"//@ 1 %s\n" % path + ended(text)
    return lines


def origin(text, number):
    """The file and its line, of a line of a text; None where the text is of no files, or the line stands before the first."""
    lines = text.split(b"\n")[: number - 1]
    for place in range(len(lines) - 1, -1, -1):
        found = ORIGIN.fullmatch(lines[place].rstrip(b"\r"))
        if found:
            return found[2], int(found[1]) + number - place - 2
    return None


def place_in_file(text, number, column):
    """A place of a text as that of its file: `FILE:LINE:COLUMN`, or the file alone where its name is what stands there; None where the
    text is of no files."""
    found = origin(text, number)
    if found is None:
        return None
    path, line = found
    path = path.decode("utf-8", "surrogateescape")
    return "%s:%d:%d" % (path, line, column) if line else "%s (the name of its part)" % path


def place_of(text, at):
    """The place of a byte, as td names it, or that of its file."""
    line, column = line_and_column(text, at)
    return place_in_file(text, line, column) or "%d:%d" % (line, column)
