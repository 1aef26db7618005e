"""Whether the loads of several readers, each one after the other, fit one order of all guests' stores."""

import collections
from typing import Any

# The source of a load that finds what the buffer was opened with.
OPENING = None
# The guest and the number of its last store before a reader's loads, and these, a word and a value each.
Chain = tuple[tuple[int, int], list[tuple[int, int]]]


class Steps:
    """The stores to words that somebody loads, and the loads: each a number, with the numbers of steps that follow it."""

    def __init__(self, job: Any, chains: list[Chain]) -> None:
        self.follows: list[set[int]] = []
        self.stores: dict[int, list[tuple[int, int]]] = collections.defaultdict(list)
        self.up_to: dict[int, list[int]] = {}
        self.lasts: dict[tuple[int, int], int | None] = {}
        self.loads: list[tuple[int, int, list[int | None]]] = []
        loaded = {word for _, loads in chains for word, _ in loads}
        for guest, script in enumerate(job.scripts, 1):
            self.add_script(guest, [step[1:] for step in script if step[0] == "store"], loaded)
        for after, loads in chains:
            last = self.lasts.get(after)
            for word, value in loads:
                if word not in self.stores and job.words[word] == value:
                    # Nobody stores there, so it was loaded at some time or other.
                    continue
                last = self.add(last)
                sources = [OPENING] * (job.words[word] == value) + [store for store, stored in self.stores[word] if stored == value]
                self.loads.append((last, word, sources))

    def add(self, before: int | None) -> int:
        self.follows.append(set())
        step = len(self.follows) - 1
        if before is not None:
            self.follows[before].add(step)
        return step

    def add_script(self, guest: int, stores: list[tuple[int, int]], loaded: set[int]) -> None:
        own: list[int] = []
        for number, (word, value) in enumerate(stores, 1):
            if word in loaded:
                own = [*own, self.add(own[-1] if own else None)]
                self.stores[word].append((own[-1], value))
                self.up_to[own[-1]] = own
            self.lasts[guest, number] = own[-1] if own else None

    def later(self) -> list[int] | None:
        """For each step all that come after it, as a mask of bits; None where steps come after themselves."""
        before = collections.Counter(step for steps in self.follows for step in steps)
        order = [step for step in range(len(self.follows)) if not before[step]]
        for step in order:
            before.subtract(self.follows[step])
            order += [after for after in self.follows[step] if not before[after]]
        if len(order) < len(self.follows):
            return None
        later = [0] * len(order)
        for step in reversed(order):
            for after in self.follows[step]:
                later[step] |= later[after] | 1 << after
        return later


def is_possible(source: int | None, load: int, others: list[int], later: list[int]) -> bool:
    """Whether a load may still find what a source stored: nothing else is known to stand between, and it isn't later."""
    between = [store for store in others if later[store] >> load & 1]
    if source is OPENING:
        return not between
    return not later[load] >> source & 1 and not any(later[source] >> store & 1 for store in between)


def implied(steps: Steps, source: int | None, load: int, others: list[int], later: list[int]) -> set[tuple[int, int]]:
    """What comes before what where a load finds what a source stored."""
    if source is OPENING:
        return {(load, store) for store in others}
    found = {(store, load) for store in steps.up_to[source]}
    found |= {(load, store) for store in others if later[source] >> store & 1}
    return found | {(store, source) for store in others if store != source and later[store] >> load & 1}


def have_one_order(job: Any, chains: list[Chain]) -> bool:
    """Whether some order of all steps may have these loads, as far as follows of what must come before what. A chain is the guest and the
    number of its last store that come before it, and the loads of one reader in turn, `(word, value)` each."""
    steps = Steps(job, chains)
    while True:
        later = steps.later()
        if later is None:
            return False
        loads, new = [], set()
        for load, word, sources in steps.loads:
            others = [store for store, _ in steps.stores[word]]
            left = [source for source in sources if is_possible(source, load, others, later)]
            if not left:
                return False
            new |= set.intersection(*[implied(steps, source, load, others, later) for source in left])
            loads.append((load, word, left))
        new = {(first, second) for first, second in new if second not in steps.follows[first]}
        if not new and loads == steps.loads:
            return True
        steps.loads = loads
        for first, second in new:
            steps.follows[first].add(second)
