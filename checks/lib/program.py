"""The built program, for the checks that are written in Python."""

import functools
import os
import resource
import subprocess
import sys
from collections.abc import Sequence

TOP = os.path.dirname(os.path.dirname(os.path.dirname(os.path.abspath(__file__))))
PROGRAM = os.path.join(TOP, "crates/td/out/td")
SECONDS = 60
# The status of a run, and what it wrote to its two outputs.
Ended = tuple[int, bytes, bytes]


def built_programs(check: str, name: str = "td") -> list[str]:
    """The program of this name, and that of the second compiler where it is there. Ends the check where there is none."""
    first = os.path.join(TOP, "crates", name, "out", name)
    # The gate builds a program by two compilers, and leaves what the second one made here.
    programs = [program for program in (first, first + ".by-rattle") if os.access(program, os.X_OK)]
    if first not in programs:
        sys.exit("%s: %s isn't built" % (check, os.path.relpath(first, TOP)))
    return programs


def answers(program: str, lines: Sequence[str]) -> list[str]:
    """What a program that answers each line of its input wrote to these, line by line."""
    text = "".join(line + "\n" for line in lines).encode()
    ended = subprocess.run([program], input=text, stdout=subprocess.PIPE, check=True, timeout=10 * SECONDS)
    found = ended.stdout.decode().splitlines()
    if len(found) != len(lines):
        sys.exit("%s: %d answers to %d lines" % (program, len(found), len(lines)))
    return found


def run(program: str, words: Sequence[str], text: bytes, limit: tuple[int, int] | None = None) -> Ended:
    """The status of a run with these words and this input, and what it wrote to its two outputs. A limit is a resource of the
    system (as `resource.RLIMIT_STACK`) and how much of it the program has."""
    set_limit = None if limit is None else functools.partial(resource.setrlimit, limit[0], (limit[1], limit[1]))
    ended = subprocess.run([program, *words], input=text, capture_output=True, check=False, timeout=SECONDS, preexec_fn=set_limit)
    return ended.returncode, ended.stdout, ended.stderr


def shown(ended: Ended) -> str:
    """What a run wrote, in one line, for a message."""
    status, out, err = ended
    wrote = "; ".join((out + err).decode(errors="backslashreplace").splitlines())
    return "status %d: %s" % (status, wrote if len(wrote) <= 400 else wrote[:400] + " ..")
