"""What the program answers to its words and its input: the exit status, and what is written to the two outputs."""

import sys
import threading
from collections.abc import Callable
from typing import TypeVar

from limits import MOST_INPUT

from .canonical import canonical
from .errors import JobError, ModuleError
from .hosts import Wrong, host_job_of
from .jobs import Job, job_of
from .modules import module_of
from .runs import Memory, outcome_of
from .scopes import Known
from .takes import judge

# The exit status, and what is written to standard output and to standard error.
Answer = tuple[int, bytes, bytes]
T = TypeVar("T")
TOO_LONG = 1, b"", b"error Z1 input too long\n"


def written_line(written: bytes | None) -> str:
    """The bytes that were written of a value, where the job has one."""
    return "" if written is None else " ".join(["bytes"] + [written.hex()] * (written != b"")) + "\n"


def report_of(known: Known, job: Job) -> str:
    number, arguments, cells, layout, words, stores, written = job
    memory = Memory(layout, words, stores)
    lines = outcome_of(known.types, number, arguments, cells, memory)[0]
    return written_line(written) + lines + memory.lines()


def parts_of(text: bytes) -> tuple[bytes, bytes] | None:
    """The module text and the job, parted by the first line that is exactly `%%`; None where no line is."""
    at = 0
    while at <= len(text):
        end = text.find(b"\n", at)
        end = len(text) if end < 0 else end
        if text[at:end] == b"%%":
            return text[:at], text[end + 1 :]
        at = end + 1
    return None


def refusal(text: bytes, error: ModuleError) -> Answer:
    before = text[: error.at]
    column = error.at - (before.rfind(b"\n") + 1) + 1
    line = "error %s %d:%d %s\n" % (error.code, before.count(b"\n") + 1, column, error.words)
    return 1, b"", line.encode()


def checked(text: bytes) -> Answer:
    try:
        trees, known = module_of(text)
    except ModuleError as error:
        return refusal(text, error)
    return 0, b"ok definitions %d entries %d\n" % (len(trees), len(known.entries)), b""


def tidied(text: bytes) -> Answer:
    try:
        return 0, canonical(text).encode(), b""
    except ModuleError as error:
        return refusal(text, error)


def of_input(text: bytes, answered: Callable[[Known, bytes], Answer]) -> Answer:
    """What is answered to the module and the job of an input, or what refuses it."""
    parts = parts_of(text)
    if parts is None:
        return 1, b"", b"error Z2 no job\n"
    try:
        known = module_of(parts[0])[1]
        return answered(known, parts[1])
    except ModuleError as error:
        return refusal(parts[0], error)
    except JobError as error:
        line = " ".join(["error", error.code] + [error.path] * (error.path != ""))
        return 1, b"", line.encode() + b"\n"


def reported(text: bytes) -> Answer:
    return of_input(text, lambda known, job: (0, report_of(known, job_of(job, known)).encode(), b""))


def hosted(text: bytes, report: bytes) -> Answer:
    """Whether a report can be what `td host` writes: the status 0, and else 3 with what is wrong; or what refuses the input."""

    def judged(known: Known, text: bytes) -> Answer:
        job = host_job_of(text, known)
        try:
            judge(job, report.decode())
        except Wrong as wrong:
            return 3, b"", b"%s\n" % str(wrong).encode()
        except (ValueError, IndexError):
            return 3, b"", b"a line that no report has\n"
        return 0, b"", b""

    return of_input(text, judged) if len(text) <= MOST_INPUT else TOO_LONG


def answer(text: bytes, command: str = "run") -> Answer:
    """The exit status, and what is written to standard output and to standard error."""
    if len(text) > MOST_INPUT:
        return TOO_LONG
    return {"run": reported, "check": checked, "tidy": tidied}[command](text)


def with_room(work: Callable[[], T]) -> T:
    """Calls `work` with a stack for expressions of 257 levels."""
    sys.setrecursionlimit(100_000)
    threading.stack_size(512 * 1024 * 1024)
    found: list[T] = []
    thread = threading.Thread(target=lambda: found.append(work()))
    thread.start()
    thread.join()
    return found[0]
