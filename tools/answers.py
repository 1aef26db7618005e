"""What td wrote, line by line, and how td-why and td-explain answer to it."""

import os
import re
import sys
import threading

from . import TOP, linked
from .explain import Unknown, help_of
from .places import NoPlace, escaped, shown, visible

# A job's error has a path, which may look like a place.
ERROR = re.compile(rb"error (?:(J[0-9]{1,2}|Z[0-9])|([A-Z][0-9]) ([0-9]{1,18}):([0-9]{1,18}))(?: .*)?", re.DOTALL)
# Lines that td-explain explains; of others it prints what they are.
EXPLAINED = re.compile(rb"(error |usage: |td-image: |[IV][0-9]( |$)).*", re.DOTALL)
# A name of a job is printed raw, line feeds too, so all that follows belongs to it.
RAW = b"error J2 "
# The second reading is slow: a text of 4 MiB takes it a minute.
SECONDS = 60
STACK = 512 * 1024 * 1024


def lines_of(written):
    """What td wrote as lines, without their ends; the name that a J2 tells isn't cut at a line feed of its own."""
    lines = written.split(b"\n")
    if lines[-1] == b"":
        lines.pop()
    for number, line in enumerate(lines):
        if line.startswith(RAW):
            return lines[:number] + [b"\n".join(lines[number:])]
    return lines


def page_of(code):
    """The page of a code, as this folder or from the root names it; None where there is none."""
    page = os.path.join(TOP, "errors", code, "README.md")
    if not os.path.exists(page):
        return None
    return os.path.relpath(page) if page.startswith(os.getcwd() + os.sep) else page


def with_room(work):
    """What `work` gives, called with a stack for deep expressions; None where it takes too long. Its faults are handed on."""
    found, faults = [], []

    def call():
        try:
            found.append(work())
        except BaseException as fault:  # noqa: BLE001 - raised again below
            faults.append(fault)

    sys.setrecursionlimit(100_000)
    threading.stack_size(STACK)
    thread = threading.Thread(target=call, daemon=True)
    try:
        thread.start()
    except RuntimeError:
        # There is no room for so large a stack: what is usual does for most texts.
        threading.stack_size(0)
        thread = threading.Thread(target=call, daemon=True)
        thread.start()
    thread.join(SECONDS)
    if faults:
        raise faults[0]
    return found[0] if found else None


def help_lines(text, line, job=None):
    said = with_room(lambda: help_of(text, line.decode("utf-8", "surrogateescape"), job))
    return said if said is not None else ["No more is said: it would take longer than %d seconds." % SECONDS]


def place_lines(text, line):
    """The line of an error's place with its caret, behind the place in its file where the text was made of several; none where the line
    names no place."""
    match = ERROR.fullmatch(line)
    if not match or not match[3]:
        return []
    number, column = int(match[3]), int(match[4])

    def called(place):
        origin = linked.origin(text, place)
        return str(origin[1] if origin else place)

    row = shown(text, number, column, called)
    in_file = linked.place_in_file(text, number, column)
    return [row] if in_file is None else [visible(os.fsencode(in_file)), row]


def page_line(line):
    match = ERROR.fullmatch(line)
    page = page_of((match[1] or match[2]).decode()) if match else None
    return ["see " + page] if page else []


def explain(name, path, text, written, job):
    """Prints the page of help of what td wrote; td-explain's status."""
    lines = lines_of(written)
    errors = [line for line in lines if EXPLAINED.fullmatch(line)]
    for line in lines:
        if line not in errors:
            print(escaped(line))
    try:
        for line in errors:
            print("\n".join([escaped(line), *place_lines(text, line)]))
            print("\n".join(["  " + said for said in help_lines(text, line, job)] + page_line(line)))
    except NoPlace:
        print("%s: the file '%s' has no such place: the line is of another module" % (name, path), file=sys.stderr)
        return 2
    except Unknown:
        print("%s: td writes no such line: %s" % (name, escaped(line)), file=sys.stderr)
        return 2
    return 1 if errors else 0
