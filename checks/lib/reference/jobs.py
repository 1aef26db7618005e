"""Jobs: which fields, in which order, and what each must be."""

import json
import math
from collections.abc import Iterable, Iterator, Sequence
from typing import Any, NamedTuple

from limits import MOST_MESSAGE, MOST_STORES, MOST_STRETCHES

from .errors import JobError
from .layouts import Layout, plain
from .scopes import Known
from .writing import Refused, written

HEXADECIMAL = set("0123456789abcdefABCDEF")
FIELDS = {"entry", "args", "cells", "bytes", "length", "stretches", "value", "stores"}


# A JSON object, and a store: the load that it comes before, the word, and the value.
Fields = dict[str, Any]
Store = tuple[int, int, int]


class Job(NamedTuple):
    """The entry point's type, its arguments and cells, the message's layout, the words of memory, the stores, and the bytes that were
    written of a value; None where the job has none."""

    entry: int
    arguments: list[int]
    cells: list[int]
    layout: Layout
    words: list[int]
    stores: list[Store]
    written: bytes | None


def is_whole(value: Any) -> bool:
    return type(value) is int and 0 <= value < 2**64


def is_digits(text: str, count: int | None = None) -> bool:
    even = len(text) % 2 == 0 if count is None else len(text) == count
    return even and set(text) <= HEXADECIMAL


def finite(spelling: str) -> float:
    """A number with a sign, a point or an exponent, or of 2^64 and more: one past the range of doubles is no JSON to `serde_json`."""
    value = float(spelling)
    if math.isinf(value):
        raise ValueError
    return value


def whole_or_float(spelling: str) -> float:
    return finite(spelling) if spelling.startswith("-") or int(spelling) >= 2**64 else int(spelling)


def refuse_constant(_: str) -> None:
    raise ValueError


def require(holds: object, code: str, path: str) -> None:
    if not holds:
        raise JobError(code, path)


def numbers_of(job: Fields, name: str, limits: Sequence[int], may_lack: bool) -> list[int]:
    """A list of numbers, each below its limit."""
    require(name in job or may_lack, "J2", name)
    numbers = job.get(name, [0] * len(limits))
    require(isinstance(numbers, list), "J2", name)
    require(len(numbers) == len(limits), "J4", name)
    for index, (number, limit) in enumerate(zip(numbers, limits)):
        path = "%s[%d]" % (name, index)
        require(is_whole(number), "J2", path)
        require(number < limit, "J4", path)
    return list(numbers)


def stores_of(job: Fields, words: int) -> list[Store]:
    stores = job.get("stores", [])
    require(isinstance(stores, list), "J2", "stores")
    require(len(stores) <= MOST_STORES, "J8", "stores")
    for index, store in enumerate(stores):
        path = "stores[%d]" % index
        require(isinstance(store, list) and len(store) == 3 and isinstance(store[2], str), "J2", path)
        require(is_whole(store[0]) and is_whole(store[1]), "J2", path)
        require(is_digits(store[2], 16), "J5", path)
        require(store[1] < words, "J6", path)
    return [(before, word, int.from_bytes(bytes.fromhex(text), "little")) for before, word, text in stores]


def object_of(text: bytes) -> Fields:
    """The fields of a job; none where it is another value than an object."""
    try:
        job = json.loads(text.decode("utf-8"), parse_int=whole_or_float, parse_float=finite, parse_constant=refuse_constant)
        if b"\\ud" in text.lower():
            # A lone surrogate is no character: a text with one has no bytes.
            json.dumps(job, ensure_ascii=False).encode()
    except ValueError:
        raise JobError("J1", "job") from None
    return job if isinstance(job, dict) else {}


def entry_of(job: Fields, known: Known) -> int:
    """The number of the entry point's type."""
    require(isinstance(job.get("entry"), str), "J2", "entry")
    entries = [number for number in known.entries if known.types[number].name == job["entry"]]
    require(entries, "J3", "entry")
    return entries[0]


def arguments_in(made: Any) -> list[Any]:
    """The parameters that take values."""
    return [parameter for parameter in made.parameters if not parameter.mutable and parameter.room is None]


def arguments_of(job: Fields, made: Any) -> list[int]:
    limits = [2**parameter.bits for parameter in arguments_in(made)]
    return numbers_of(job, "args", limits, not limits)


def bytes_of(job: Fields, name: str) -> bytes:
    require(isinstance(job.get(name), str), "J2", name)
    require(is_digits(job[name]), "J5", name)
    return bytes.fromhex(job[name])


def words_of(memory: bytes) -> list[int]:
    """The words that bytes fill, zero bytes making the last one whole."""
    memory += bytes(-len(memory) % 8)
    return [int.from_bytes(memory[i : i + 8], "little") for i in range(0, len(memory), 8)]


def is_stretch(value: Any) -> bool:
    return isinstance(value, list) and len(value) == 2 and all(map(is_whole, value))


def stretches_of(job: Fields, given: int, length: int) -> Layout:
    """The stretches of a message of this length in so many bytes."""
    stretches = job["stretches"]
    require(isinstance(stretches, list), "J2", "stretches")
    require(len(stretches) <= MOST_STRETCHES, "J8", "stretches")
    for index, stretch in enumerate(stretches):
        path = "stretches[%d]" % index
        require(is_stretch(stretch), "J2", path)
        require(sum(stretch) <= given, "J7", path)
    require(sum(size for _, size in stretches) == length, "J7", "stretches")
    return Layout(stretches)


def layout_of(job: Fields, given: int) -> tuple[Layout, int]:
    """The message in so many bytes, and how many of their words may be stored to."""
    length: Any = job.get("length")
    is_listed = "stretches" in job
    require(is_whole(length), "J2", "length")
    require(is_listed or length <= given, "J7", "length")
    require(length <= MOST_MESSAGE, "J8", "length")
    if is_listed:
        return stretches_of(job, given, length), -(-given // 8)
    layout = plain(length)
    return layout, len(layout.words)


def parts_in(value: Any) -> Iterator[Any]:
    """A value, and all that stand in it."""
    yield value
    for inner in value if isinstance(value, list) else []:
        yield from parts_in(inner)


def as_value(value: Any) -> Any:
    """The texts of a value as bytes."""
    if isinstance(value, list):
        return [as_value(inner) for inner in value]
    return bytes.fromhex(value) if isinstance(value, str) else value


def path_in(path: Iterable[int]) -> str:
    return "value" + "".join("[%d]" % place for place in path)


def written_of(job: Fields, types: list[Any], entry: int, arguments: list[int], cells: list[int]) -> bytes:
    """The bytes that are written of a job's value."""
    for name in ("bytes", "length", "stretches"):
        require(name not in job, "J2", name)
    parts = list(parts_in(job["value"]))
    require(all(part is None or is_whole(part) or isinstance(part, (str, list)) for part in parts), "J2", "value")
    require(all(is_digits(part) for part in parts if isinstance(part, str)), "J5", "value")
    try:
        return written(types, entry, arguments, cells, as_value(job["value"]))
    except Refused as refused:
        is_long = refused.code == "E5"
        raise JobError(*("J8", "value") if is_long else ("J10", "%s %s" % (path_in(refused.path), refused.code))) from None


def check_names(value: Fields, fields: set[str], path: str = "%s") -> None:
    others = sorted(set(value) - fields, key=str.encode)
    require(not others, "J2", path % others[0] if others else "")


def job_of(text: bytes, known: Known) -> Job:
    job = object_of(text)
    entry = entry_of(job, known)
    made = known.types[entry]
    arguments = arguments_of(job, made)
    cells = numbers_of(job, "cells", [2 ** (bits or 32) for _, _, bits in made.cells], True)
    told = written_of(job, known.types, entry, arguments, cells) if "value" in job else None
    if told is None:
        memory = bytes_of(job, "bytes")
        layout, words = layout_of(job, len(memory))
    else:
        memory, layout = told, plain(len(told))
        words = len(layout.words)
    stores = stores_of(job, words)
    check_names(job, FIELDS)
    return Job(entry, arguments, cells, layout, words_of(memory), stores, told)
