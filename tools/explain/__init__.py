"""The page of help of an error line: what td-explain prints, and what td-why prints after the page's name."""

import re

from ..places import NoPlace, line_and_column
from . import copies, habits, images, jobs, names, safety, sizes, sorts, tokens
from .reading import Module

MODULE_ERROR = re.compile(r"error ([A-IK-Y][0-9]) ([0-9]{1,18}):([0-9]{1,18}) .*")
# A name of a job is printed raw, so a path may have any bytes.
OTHER_ERROR = re.compile(r"error (J[0-9]{1,2}|Z[0-9])(?: (.*))?", re.DOTALL)
OTHERS = {
    "error read": "Standard input couldn't be read: it is a folder, it is closed, or its device fails.",
    "error memory": "The program was out of memory, and wrote nothing but this line. The same input gives its answer where there is enough.",
    "usage: ": "The words after the program's name are no command, and nothing was read. `td check`, `tidy`, `code`, `pack`, `run` and"
    " `host` take no word more; `td bench N` takes a number from 1 to 10,000. `tdc` takes `c NAME`, `header NAME` or `parts NAME`.",
}
BY_CODE = {
    "L": tokens.help_of,
    "P": habits.help_of,
    "N": names.help_of,
    "Y": sorts.help_of,
    "K": sizes.help_of,
    "X": sizes.help_of,
    "A": safety.help_of,
}


# These codes may be told of a copy buffer or of a copied field.
COPYING = ("A2", "N1", "N4", "Y2", "Y4")


class Unknown(Exception):
    """The line is none that td writes."""


def refused(text, number, column, code):
    """The module whose refusal this is, read with a line feed at its end where the line is of such a text (td-run adds one); None
    where the second reading refuses neither so."""
    for one in [text] if text.endswith(b"\n") else [text, text + b"\n"]:
        module = Module(one)
        if module.error and module.error.code == code and line_and_column(one, module.error.at) == (number, column):
            return module
    return None


def help_of(text, line, job=None):
    """The lines of help for an error line (text without its line feed): sentences, and `mend:` before what to write instead."""
    other = OTHER_ERROR.fullmatch(line)
    if other:
        said = jobs.help_of(text, other[1], other[2] or "", job)
        if not said:
            raise Unknown
        return said
    match = MODULE_ERROR.fullmatch(line)
    if match is None:
        image = images.help_of(line)
        if image is not None:
            return image
        other = next((said for words, said in OTHERS.items() if line.startswith(words)), None)
        if other is None:
            raise Unknown
        return [other]
    code, number, column = match[1], match[2], match[3]
    if code[0] not in BY_CODE:
        raise Unknown
    module = refused(text, int(number), int(column), code)
    if module is None:
        return ["No more is said: " + otherwise(text)]
    return (code in COPYING and copies.help_of(module)) or BY_CODE[code[0]](module) or ["No more is known of this place than that line says."]


def otherwise(text):
    """What the second reading says of a text of which it doesn't say what the line says."""
    error = Module(text).error
    if error is None:
        return "a second reading accepts this text, so the line is of another one."
    place = "%d:%d" % line_and_column(text, error.at)
    return "a second reading refuses this text by `error %s %s %s`, so the line is of another one." % (error.code, place, error.words)


__all__ = ["NoPlace", "Unknown", "help_of"]
