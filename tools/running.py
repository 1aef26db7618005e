"""Running the program on a module and a job: what td-run, td-fields, td-draw and td-test share."""

import json
import os
import signal
import subprocess
from collections.abc import Sequence
from typing import Any

from . import TOP
from limits import MOST_MESSAGE, grouped

Ended = subprocess.CompletedProcess[bytes]
HEXADECIMAL = set("0123456789abcdefABCDEF")


class Wrong(Exception):
    """What is printed to standard error, and the status."""

    def __init__(self, said: str, status: int = 2) -> None:
        super().__init__(said)
        self.status = status


def usage_of(document: str) -> str:
    """The lines of a script's head that say how it is called."""
    return document[document.index("usage:") :].split("\n\n")[0]


def read(name: str, path: str, usage: str) -> bytes:
    try:
        with open(path, "rb") as file:
            return file.read()
    except OSError:
        raise Wrong("%s: can't read the file '%s'\n%s" % (name, path, usage)) from None


def read_both(name: str, module: str, job: str, usage: str) -> tuple[bytes, bytes]:
    """A format and a job, out of their files. That they stand in the wrong order is said by their ends."""
    if module.endswith(".json") and job.endswith(".3d"):
        raise Wrong("%s: '%s' is the job, and stands behind the format\n%s" % (name, module, usage))
    return read(name, module, usage), read(name, job, usage)


def is_of_host(job: bytes) -> bool:
    """Whether a job is one of `td host`: it has guests."""
    fields = fields_of(job)
    return fields is not None and "guests" in fields


def joined(module: bytes, job: bytes) -> bytes:
    """An input of `run`: the module as its file has it, ended by a line feed; the marker; the job."""
    return module + (b"" if not module or module.endswith(b"\n") else b"\n") + b"%%\n" + job


def fields_of(job: bytes) -> dict[str, Any] | None:
    """The fields of a job; None where it is no JSON object, which the program then says."""
    try:
        value = json.loads(job.decode("utf-8"))
    except (ValueError, RecursionError):
        return None
    return value if isinstance(value, dict) else None


def is_bytes(text: object) -> bool:
    return isinstance(text, str) and len(text) % 2 == 0 and set(text) <= HEXADECIMAL


def length_of(fields: dict[str, Any], content: str) -> int:
    """The length of a message: that of its bytes, or of its stretches together where they can be read."""
    stretches: Any = fields.get("stretches")
    is_list = isinstance(stretches, list) and all(isinstance(pair, list) and len(pair) == 2 and type(pair[1]) is int for pair in stretches)
    return sum(size for _, size in stretches) if is_list else len(content) // 2


def filled(name: str, job: bytes, data: bytes | None = None, path: str | None = None) -> bytes:
    """The job with the bytes of a file, where there is one, and with the length of its message where it has none. All else stays as it
    is written."""
    fields = fields_of(job)
    more: dict[str, Any] = {}
    if data is not None:
        if fields is None:
            raise Wrong("%s: the job isn't a JSON object, so the bytes of '%s' have no place in it" % (name, path))
        if "bytes" in fields:
            raise Wrong("%s: the job has `bytes` of its own, so those of '%s' have no place in it" % (name, path))
        if len(data) > MOST_MESSAGE and "stretches" not in fields:
            said = "%s: the file '%s' has %d bytes, and a message at most %s: `td-job --skip N --length N` takes a part of it"
            raise Wrong(said % (name, path, len(data), grouped(MOST_MESSAGE)))
        more["bytes"] = data.hex()
    if fields is not None and "length" not in fields and is_bytes(more.get("bytes", fields.get("bytes"))):
        more["length"] = length_of(fields, more.get("bytes", fields.get("bytes")))
    if not more:
        return job
    opening = job.index(b"{") + 1
    text = ",".join("%s:%s" % (json.dumps(field), json.dumps(value)) for field, value in more.items())
    return job[:opening] + text.encode() + (b"," if fields else b"") + job[opening:]


def program() -> str:
    return os.environ.get("TD") or os.path.join(TOP, "td")


def started(name: str, words: Sequence[str], text: bytes, by: str | None = None, **outputs: Any) -> Ended:
    """Runs the program, or another one that is named. It may end before it took its input, and that doesn't end the script."""
    path = by or program()
    before = signal.signal(signal.SIGPIPE, signal.SIG_IGN)
    try:
        return subprocess.run([path, *words], input=text, check=False, **outputs)
    except OSError:
        raise Wrong("%s: can't start the program '%s'" % (name, path), 127) from None
    finally:
        signal.signal(signal.SIGPIPE, before)


def run(name: str, words: Sequence[str], text: bytes, capture: bool = True) -> Ended:
    """Runs the program; its standard error is ours where `capture` is False or the output alone is captured."""
    return started(name, words, text, stdout=subprocess.PIPE if capture else None)


def run_apart(name: str, words: Sequence[str], text: bytes) -> Ended:
    """Runs the program; both of its outputs are kept."""
    return started(name, words, text, capture_output=True)


def status(code: int) -> int:
    """The status of a program that a signal ended is that of a shell."""
    return 128 - code if code < 0 else code
