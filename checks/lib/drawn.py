"""Messages that are drawn near those of the jobs of examples/ and formats/, and what `td run` reports of them."""

import glob
import json
import os
import random
from collections.abc import Iterator
from typing import Any

from code_run import words_of
from program import TOP, run, shown
from reference.layouts import Layout

MOST_BYTES = 8_192
Job = dict[str, Any]
# Entry point, arguments, opening cells, memory and length.
Message = tuple[int, list[int], list[int], bytes, int]
Store = tuple[int, int, int]


def in_one_piece(job: Job) -> Job:
    """A job of stretches as one of their bytes: the C takes a message in one piece."""
    if "stretches" not in job:
        return job
    content = Layout(job["stretches"]).message(bytes.fromhex(job["bytes"]))
    return {**{name: value for name, value in job.items() if name not in ("stretches", "stores")}, "bytes": content.hex()}


def texts() -> Iterator[tuple[str, bytes, list[Job]]]:
    """The folders that have a module and jobs: name, text, and the jobs of `td run`."""
    for path in sorted(glob.glob(os.path.join(TOP, "examples/*/*.3d")) + glob.glob(os.path.join(TOP, "formats/*/*.3d"))):
        folder = os.path.dirname(path)
        jobs = []
        for file in sorted(glob.glob(os.path.join(folder, "*.json"))):
            with open(file, encoding="utf-8") as opened:
                job = json.load(opened)
            if "bytes" in job:
                jobs.append(in_one_piece(job))
        if jobs:
            with open(path, "rb") as opened:
                yield os.path.relpath(folder, TOP), opened.read(), jobs


class Drawer:
    """Draws messages for an image, near those of jobs."""

    def __init__(self, draw: random.Random, code: Any, jobs: list[Job]) -> None:
        self.draw, self.code = draw, code
        names = [code.name(code.routines[entry[0]][0]) for entry in code.entries]
        self.jobs = [(names.index(job["entry"]), job) for job in jobs if job["entry"] in names]

    def number(self, usual: int, bits: int) -> int:
        roll = self.draw.random()
        value = usual if roll < 0.85 else usual + self.draw.choice([-1, 1, 4, 8]) if roll < 0.95 else self.draw.randrange(2**64)
        return value % 2 ** (bits or 32)

    def content(self, whole: bytes) -> bytes:
        content = bytearray(whole[:MOST_BYTES])
        roll = self.draw.random()
        if roll < 0.25 and content:
            del content[self.draw.randrange(len(content)) :]
        if roll > 0.4 and content:
            for _ in range(self.draw.randrange(1, 4)):
                at = min(self.draw.randrange(len(content)), self.draw.randrange(len(content)))
                content[at] = self.draw.choice([0, 1, 2, 4, 255, content[at] ^ 1 << self.draw.randrange(8), self.draw.randrange(256)])
        return bytes(content)

    def message(self) -> Message:
        """Entry point, arguments, cells, memory and length."""
        entry, job = self.draw.choice(self.jobs)
        _, params, own_cells = self.code.entries[entry][:3]
        whole = bytes.fromhex(job["bytes"])
        memory = self.content(whole)
        arguments = list(job.get("args", []))
        if len(memory) != len(whole) and self.draw.random() < 0.5:
            arguments = [len(memory) if value == len(whole) else value for value in arguments]
        arguments = [self.number(value, bits) for value, (_, bits) in zip(arguments, params)]
        cells = [self.number(0, bits) for _, _, bits in own_cells]
        length = min(len(memory), job.get("length", len(whole)))
        return entry, arguments, cells, memory, length

    def stores(self, memory: bytes, length: int) -> list[Store]:
        """Stores to words of a message, each before some load."""
        words, found = words_of(memory)[: -(-length // 8)], []
        for _ in range(self.draw.randrange(1, 9) if words else 0):
            word = self.draw.randrange(len(words))
            value = self.draw.choice([words[word] ^ self.draw.randrange(256) << 8 * self.draw.randrange(8), self.draw.choice(words), 0])
            found.append((self.draw.randrange(12), word, value))
        return found


def job_text(code: Any, entry: int, arguments: list[int], cells: list[int], memory: bytes, length: int, stores: list[Store], lead: int = 0) -> bytes:
    """The job of a message; one behind other bytes is a stretch of the memory."""
    name = code.name(code.routines[code.entries[entry][0]][0])
    planned = [[before, word, value.to_bytes(8, "little").hex()] for before, word, value in stores]
    job = {"entry": name, "args": arguments, "cells": cells, "bytes": memory.hex(), "length": length, "stores": planned}
    return json.dumps({**job, "stretches": [[lead, length]]} if lead else job).encode()


def lines_of(program: str, text: bytes, job: bytes) -> list[str]:
    """The lines that `td run` writes, or in their place what went wrong."""
    ended = run(program, ["run"], text.rstrip(b"\n") + b"\n%%\n" + job)
    return ended[1].decode().splitlines() if ended[0] == 0 and not ended[2] else [shown(ended)]
