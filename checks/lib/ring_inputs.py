"""Rings of descriptors made at random, for host jobs, and what guests store to them."""

from typing import Any

from limits import MOST_MESSAGE

OTHERS: list[Any] = [None, 1, [], [1], {}, "a", 1.5, -1, 2**64, True]


class RingMaker:
    """What a maker of inputs has for rings. `random`, `chance` and `pick` are the maker's own."""

    def descriptor(self, given):
        """The two words of a descriptor, in memory order: nearly always of a message that ends within so many bytes."""
        place = self.pick([0, 8, 8, self.random.randrange(given + 1), given, given + 1])
        size = self.pick([0, 1, 4, 8, 16, max(0, given - place)])
        flags = self.pick([0, 0, 0, 0, 0, 0, 0, 1])
        numbers = [(place, 4), (size, 4), (self.random.randrange(2**16), 2), (flags, 2), (0, 4)]
        digits = b"".join(number.to_bytes(width, "little") for number, width in numbers).hex()
        return [digits[:16], digits[16:]]

    def count_word(self, entries):
        """A count of descriptors, in memory order: of some that wait, or of more than there can be."""
        return self.pick([0, 1, 1, 2, 2, entries, entries + 1, 2**63]).to_bytes(8, "little").hex()

    def ring(self, base, given):
        """A ring at a word of the buffer, for messages in the bytes before it, and the text of its words."""
        entries = self.pick([1, 1, 2, 2, 3, 4])
        ring = {"base": base, "entries": entries, "most": self.pick([8, 64, 64, given, 0, MOST_MESSAGE]), "takes": self.pick([0, 1, 2, 3, 3, 5])}
        return ring, self.count_word(entries) + "".join(word for _ in range(entries) for word in self.descriptor(given))

    def ring_stores(self, rings, given):
        """Stores by which a guest makes a descriptor: its words, and the count, now and then before them."""
        ring = self.pick(rings)
        entry = self.random.randrange(ring["entries"])
        words = [["store", ring["base"] + 1 + 2 * entry + at, text] for at, text in enumerate(self.descriptor(given))]
        count = ["store", ring["base"], self.count_word(ring["entries"])]
        return self.pick([[*words, count], [*words, count], [count, *words], [count], words[:1], words[1:]])

    def rings_wrong(self, rings):
        """What stands in the place of rings, which is refused."""
        name, many = self.pick(["base", "entries", "most", "takes"]), [*rings, {"base": 0, "entries": 1, "most": 0, "takes": 0}]
        spoilt = dict(self.pick(many))
        roll = self.random.random()
        if roll < 0.4:
            spoilt.update(self.pick([{"base": spoilt["base"] + 64}, {"base": 2**32}, {"entries": 0}, {"entries": 1025}, {"most": 1_048_577}, {"takes": 4097}]))
        elif roll < 0.55:
            del spoilt[name]
        elif roll < 0.7:
            spoilt[name] = self.pick(OTHERS)
        elif roll < 0.8:
            spoilt[self.pick(["bases", "", "é", "Most", "ring"])] = 0
        else:
            return self.pick([many * 17, {}, None, 0, [0], [*rings, None], [[]]])
        return [*rings, spoilt]
