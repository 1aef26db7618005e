"""Help on the codes of images and of code: td-image's line, and what the programs for trials answer."""

import os
import re

from .. import TOP

LINE = re.compile(r"(?:td-image: )?([IV][0-9])(?: at (\d+))?(?:[: ].*)?", re.DOTALL)
PAGES = {"I": "docs/language/images.md", "V": "docs/language/code.md"}


def row_of(page, code):
    """The cells of the row of a table that begins with a code; None where there is none."""
    with open(os.path.join(TOP, page), encoding="utf-8") as file:
        for line in file:
            cells = [cell.strip() for cell in line.strip().strip("|").split("|")]
            if cells[0] == code and len(cells) > 1:
                return cells[1:]
    return None


def help_of(line):
    """The lines of help; None where the line has no code of an image."""
    match = LINE.fullmatch(line)
    if match is None:
        return None
    code, page = match[1], PAGES[match[1][0]]
    cells = row_of(page, code)
    if cells is None:
        return None
    lines = ["%s of %s: %s." % (code, page, cells[0].rstrip("."))]
    if code[0] == "I" and match[2]:
        lines.append("The place is a byte of the image, from 0: `td-image IMAGE` shows what stands before it.")
    if code[0] == "V":
        lines.append("The rule is asked of one instruction: `td-image IMAGE` lists them by their numbers.")
    return lines + ["mend: make the image again by `td pack <MODULE >IMAGE`; one that was cut, edited or made by another version isn't read."]
