"""The module texts of this repository, with the jobs beside them, and texts made at random."""

import glob
import json
import os
from collections.abc import Iterator
from typing import Any

from inputs import Maker
from program import TOP

MADE = 400
SEED = 1
# A module text, and its job or None.
Input = tuple[bytes, bytes | None]
MARKER = b"\n%%\n"


def parts(text: bytes) -> Input:
    """The module text and the job of an input; no job where no line is the marker."""
    if text.startswith(MARKER[1:]):
        return b"", text[len(MARKER) - 1 :]
    module, marker, job = text.partition(MARKER)
    return (module + b"\n", job) if marker else (text, None)


def inputs_of_cases(path: str) -> Iterator[Input]:
    """The modules of a file of cases, each on a line of its own or on the lines below the word."""
    with open(path, "rb") as file:
        lines = file.read().split(b"\n")
    for at, line in enumerate(lines):
        if line == b"module":
            below = [below[4:] for below in lines[at + 1 :]]
            count = next((n for n, below in enumerate(lines[at + 1 :]) if below and not below.startswith(b"    ")), len(below))
            yield b"\n".join(below[:count]) + b"\n", None
        elif line.startswith(b"module "):
            yield line[len(b"module ") :] + b"\n", None


def found_inputs() -> Iterator[tuple[str, bytes, bytes | None]]:
    """Each input of the repository, and where it stands."""
    for path in sorted(glob.glob(os.path.join(TOP, "cases/**/*.txt"), recursive=True)):
        for module, job in inputs_of_cases(path):
            yield os.path.relpath(path, TOP), module, job
    for path in sorted(glob.glob(os.path.join(TOP, "examples/*/input")) + glob.glob(os.path.join(TOP, "errors/*/*"))):
        if os.path.isfile(path) and not path.endswith(".md"):
            with open(path, "rb") as file:
                yield (os.path.relpath(path, TOP), *parts(file.read()))
    for path in sorted(glob.glob(os.path.join(TOP, "examples/*/*.3d")) + glob.glob(os.path.join(TOP, "formats/*/*.3d"))):
        with open(path, "rb") as file:
            yield os.path.relpath(path, TOP), file.read(), None
    maker = Maker(SEED)
    for count in range(MADE):
        yield ("made %d" % count, *parts(maker.input()[1]))


def plain_jobs() -> Iterator[tuple[str, dict[str, Any], str]]:
    """Text, job and report of each job of examples/ and formats/ that has no stores and isn't refused."""
    for path in sorted(glob.glob(TOP + "/examples/*/*.json") + glob.glob(TOP + "/formats/*/*.json")):
        folder, report = os.path.dirname(path), path[: -len("json")] + "report"
        texts = glob.glob(folder + "/*.3d")
        if len(texts) != 1 or not os.path.exists(report):
            continue
        with open(path, encoding="utf-8") as file, open(report, encoding="utf-8") as lines:
            try:
                job = json.load(file)
            except ValueError:
                continue
            wanted = lines.read()
        if isinstance(job, dict) and set(job) <= {"entry", "args", "bytes", "length", "stretches"} and wanted.startswith(("accept", "reject")):
            yield texts[0], job, wanted
