"""How a script begins and ends: help and version, signals, standard input, and an output that can't be written."""

import io
import os
import signal
import sys
from collections.abc import Callable
from typing import NoReturn

from . import TOP
from .running import Wrong

# What a script does; None is the status 0.
Main = Callable[[], "int | None"]
# The second one is td's own, too.
NOT_READ, NOT_WRITTEN = 2, 4


def is_typed() -> bool:
    """Whether standard input is a keyboard, so that a script would wait and say nothing."""
    return sys.stdin is not None and sys.stdin.isatty()


def read_input(name: str) -> bytes:
    """All of standard input."""
    try:
        # Where it is closed Python has none.
        return sys.stdin.buffer.read()
    except (AttributeError, OSError):
        raise Wrong("%s: can't read standard input" % name) from None


def status_of(name: str, main: Main) -> int | None:
    """The status of a script's main function, or of an output that couldn't be written."""
    try:
        status = main()
        sys.stdout.flush()
    except Wrong as wrong:
        print(wrong, file=sys.stderr)
        return wrong.status
    except OSError as error:
        if error.filename is not None:
            print("%s: can't read the file '%s'" % (name, error.filename), file=sys.stderr)
            return NOT_READ
        # Python writes what is left again when it ends.
        os.dup2(os.open(os.devnull, os.O_WRONLY), sys.stdout.fileno())
        print("%s: can't write standard output: %s" % (name, error.strerror), file=sys.stderr)
        return NOT_WRITTEN
    return status


def version() -> str:
    with open(os.path.join(TOP, "VERSION"), encoding="utf-8") as file:
        return file.read().strip()


def answer_of(name: str, main: Main, help_text: str) -> Main:
    """What prints the help text or the version, where the one word asks for it; else a script's main function."""
    words = sys.argv[1:]
    if words in (["-h"], ["--help"]):
        return lambda: print(help_text)
    return (lambda: print(name, version())) if words == ["--version"] else main


def end(name: str, main: Main, help_text: str) -> NoReturn:
    """Ends as a script's main function says, or prints its help text or the version. One that is interrupted, or of which nobody
    reads the output on, ends by the signal, as other programs do."""
    signal.signal(signal.SIGPIPE, signal.SIG_DFL)
    # What began with the signal ignored, as in the background of a shell script, goes on ignoring it.
    if signal.getsignal(signal.SIGINT) is signal.default_int_handler:
        signal.signal(signal.SIGINT, signal.SIG_DFL)
    if sys.stdout is None:
        print("%s: standard output is closed" % name, file=sys.stderr)
        sys.exit(NOT_WRITTEN)
    if isinstance(sys.stdout, io.TextIOWrapper):
        sys.stdout.reconfigure(errors="replace")
    sys.exit(status_of(name, answer_of(name, main, help_text)))
