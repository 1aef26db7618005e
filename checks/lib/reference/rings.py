"""Rings of descriptors in a guest's memory: their fields in a host job, and where their descriptors stand."""

from dataclasses import dataclass
from typing import Any

from limits import MOST_ENTRIES, MOST_MESSAGE, MOST_RINGS, MOST_TAKES

from .jobs import check_names, is_whole, require

FIELDS = ("base", "entries", "most", "takes")
DESCRIPTOR_WORDS = 2
# How a take finds a ring: the words of the report, and where a descriptor waits.
IDLE, OVERRUN, WAITING = "idle", "overrun", "waiting"
# A descriptor is a message as any other, by this text.
TEXT = b"""
output typedef struct _DESC_OUT { UINT32 Place; UINT32 Size; UINT16 Id; } DESC_OUT;
entrypoint typedef struct _DESC(UINT32 room, UINT32 most, mutable DESC_OUT *r) {
  UINT32 place { place <= room } {:act r->Place = place;};
  UINT32 size { size <= room - place && size <= most } {:act r->Size = size;};
  UINT16 id {:act r->Id = id;}; UINT16 flags { flags == 0 }; UINT32 reserved; } DESC;
"""


@dataclass(frozen=True)
class Ring:
    """The word of the count, how many descriptors there is room for, how long a message may be, and how often the ring is looked at."""

    base: int
    entries: int
    most: int
    takes: int

    def end(self) -> int:
        return self.base + 1 + DESCRIPTOR_WORDS * self.entries

    def first_word(self, number: int) -> int:
        """The word of the buffer in which descriptor `number` begins."""
        return self.base + 1 + DESCRIPTOR_WORDS * (number % self.entries)

    def standing(self, taken: int, made: int) -> str:
        if made == taken:
            return IDLE
        return WAITING if 0 < made - taken <= self.entries else OVERRUN

    def words(self) -> int:
        """How many words its takes count for in a job's total."""
        return self.takes * (self.most // 8 + DESCRIPTOR_WORDS)


def ring_of(ring: Any, path: str, words: int) -> Ring:
    require(isinstance(ring, dict), "J2", path)
    for name in FIELDS:
        require(is_whole(ring.get(name)), "J2", "%s.%s" % (path, name))
    check_names(ring, set(FIELDS), path + ".%s")
    found = Ring(*[ring[name] for name in FIELDS])
    require(found.end() <= words, "J7", path)
    require(1 <= found.entries <= MOST_ENTRIES and found.most <= MOST_MESSAGE and found.takes <= MOST_TAKES, "J8", path)
    return found


def rings_of(job: dict[str, Any], words: int) -> list[Ring]:
    rings = job.get("rings", [])
    require(isinstance(rings, list), "J2", "rings")
    require(len(rings) <= MOST_RINGS, "J8", "rings")
    return [ring_of(ring, "rings[%d]" % index, words) for index, ring in enumerate(rings)]
