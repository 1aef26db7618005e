"""The layout of a message: the stretches of a buffer that it is made of, and its words."""

from bisect import bisect_right
from collections.abc import Iterable, Sequence

BYTES = 8


class Layout:
    """Stretches of a buffer, `(place, size)` each, in bytes. `is_listed` tells whether a report has the stretch of each load: of a
    message that is given by a list of stretches."""

    def __init__(self, stretches: Iterable[Sequence[int]], is_listed: bool = True) -> None:
        self.stretches: list[tuple[int, int]] = [(place, size) for place, size in stretches]
        self.is_listed = is_listed
        # Each message word: the stretch, from 0, and the word of the buffer, of which it holds a byte.
        self.words = [(number, word) for number, stretch in enumerate(self.stretches) for word in words_of_stretch(*stretch)]
        self.ends: list[int] = []
        self.firsts: list[int] = []
        self.length, count = 0, 0
        for stretch in self.stretches:
            self.length += stretch[1]
            self.ends.append(self.length)
            self.firsts.append(count)
            count += len(words_of_stretch(*stretch))

    def where(self, place: int) -> tuple[int, int]:
        """The message word in which a byte of the message stands, and the byte's number in that word."""
        number = bisect_right(self.ends, place)
        at, size = self.stretches[number]
        byte = at + place - (self.ends[number] - size)
        return self.firsts[number] + byte // BYTES - at // BYTES, byte % BYTES

    def message(self, memory: bytes) -> bytes:
        """The message's bytes in a buffer that stays."""
        return b"".join(memory[place : place + size] for place, size in self.stretches)

    def buffer_word(self, number: int) -> int:
        return self.words[number][1]

    def number_of(self, words: Sequence[int]) -> int | None:
        """The number of the message word that a load's line names; None where the message has no such word."""
        if len(words) != 1 + self.is_listed:
            return None
        number, word = words if self.is_listed else (0, words[0] + self.words[0][1] if self.words else 0)
        if number >= len(self.stretches) or word not in words_of_stretch(*self.stretches[number]):
            return None
        return self.firsts[number] + word - self.stretches[number][0] // BYTES

    def load_line(self, number: int, value: int) -> str:
        shown = "%d %d" % self.words[number] if self.is_listed else "%d" % number
        return "load %s %016x\n" % (shown, value)


def words_of_stretch(place: int, size: int) -> range:
    """The words of the buffer that hold a byte of a stretch."""
    return range(place // BYTES, (place + size - 1) // BYTES + 1) if size else range(0)


def plain(length: int) -> Layout:
    """A message that is the first bytes of a buffer."""
    return Layout([(0, length)], False)


def at_word(base: int, length: int) -> Layout:
    """A message that begins at a word of a buffer."""
    return Layout([(BYTES * base, length)], False)
