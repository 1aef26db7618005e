"""A run drawn as text: the message word by word, with its loads and others' stores."""

from reference.layouts import BYTES, Layout, plain, words_of_stretch

# So many words in a row at which nothing happens are still shown one by one.
MOST_QUIET = 4
NOTHING = ".."


def in_memory_order(value):
    return ["%02x" % byte for byte in value.to_bytes(BYTES, "little")]


class Drawing:
    """A job's message: its layout, and of each message word the place of its first byte and its bytes, `..` where it has none."""

    def __init__(self, job):
        self.job, self.layout = job, Layout(job["stretches"]) if "stretches" in job else plain(job["length"])
        content = bytes.fromhex(job["bytes"])
        self.firsts, self.rows = [], []
        for number, (place, size) in enumerate(self.layout.stretches):
            before = self.layout.ends[number] - size
            for word in words_of_stretch(place, size):
                own = range(max(place, BYTES * word), min(place + size, BYTES * word + BYTES))
                self.firsts.append(before + own[0] - place)
                self.rows.append(["%02x" % content[at] if at in own else NOTHING for at in range(BYTES * word, BYTES * word + BYTES)])

    def word_at(self, place):
        """The message word of a place; behind the message's last byte it is the one behind its words, but for a word that it fills in
        part."""
        if place < self.layout.length:
            return self.layout.where(place)[0]
        is_in_part = self.rows and self.rows[-1][-1] == NOTHING and not self.layout.is_listed
        return len(self.rows) - bool(is_in_part)

    def head(self):
        names = "stretch  word  byte" if self.layout.is_listed else "word  byte"
        return names + "  memory                   load"

    def indent(self):
        return " " * (22 if self.layout.is_listed else 12)

    def row(self, number, load=None):
        """A word's row: its numbers, the place of its first byte, its bytes in memory, and its load, where it has one."""
        is_there = number < len(self.rows)
        memory = self.rows[number] if is_there else [NOTHING] * BYTES
        first = self.firsts[number] if is_there else self.layout.length
        if not self.layout.is_listed:
            names = "%4d %5d" % (number, BYTES * number)
        else:
            names = "%7d %5d %5d" % (*self.layout.words[number], first) if is_there else "%7s %5s %5d" % ("", "", first)
        row = "%s  %s" % (names, " ".join(memory))
        if load is None:
            return row
        order, value = load
        given = in_memory_order(value)
        is_same = all(byte in (NOTHING, there) for byte, there in zip(memory, given))
        return row + "  load %d" % order + ("" if is_same else ": " + " ".join(given))

    def stores(self, loads):
        """What is written of the stores: the message words of each, none where the message has nothing of its word; and the note."""
        by_word = {}
        for number, (_, word) in enumerate(self.layout.words):
            by_word.setdefault(word, []).append(number)
        for before, word, text in self.job.get("stores", []):
            moment = "load %d" % before + ("" if before < loads else ", which never comes")
            stored = " ".join(text[k : k + 2] for k in range(0, 2 * BYTES, 2))
            yield by_word.get(word, []), "store before %s: %s" % (moment, stored), word

    def notes(self, lines, loads):
        """What is written beside each word, and what belongs to none."""
        notes, others = {}, []
        for numbers, note, word in self.stores(loads):
            for number in numbers:
                notes.setdefault(number, []).append(note)
            if not numbers:
                others.append("word %d of the memory, of which the message has no byte: %s" % (word, note))
        for line in lines:
            words = line.split()
            if words[0] == "frame":
                notes.setdefault(self.word_at(int(words[2])), []).append("%s begins at byte %s" % (words[1], words[2]))
            if words[0] in ("accept", "reject"):
                notes.setdefault(self.word_at(int(words[-1])), []).append(line)
        return notes, others


def with_bytes(job, first):
    """The job with the bytes that were written of its value, which the report's first line has."""
    word, _, digits = first.partition(" ")
    return {**job, "bytes": digits, "length": len(digits) // 2} if word == "bytes" else job


def drawn(report, job):
    """The rows of the message's words, and the cells and copies."""
    lines = report.splitlines()
    drawing = Drawing(with_bytes(job, lines[0]))
    loads = [line.split()[1:] for line in lines if line.startswith("load ")]
    order = {}
    for number, (*words, value) in enumerate(loads):
        order[drawing.layout.number_of([int(word) for word in words])] = number, int(value, 16)
    notes, others = drawing.notes(lines, len(loads))
    busy = sorted(order.keys() | notes.keys())
    count = max([len(drawing.rows)] + [word + 1 for word in notes])
    rows, word = [drawing.head()], 0
    for end in busy + [count]:
        quiet = end - word
        for place in range(word, end if quiet <= MOST_QUIET else word + 1):
            rows.append(drawing.row(place))
        if quiet > MOST_QUIET:
            rows.append("  ..     %d more words at which nothing happens" % (quiet - 1))
        if end < count:
            rows.append(drawing.row(end, order.get(end)))
            rows += [drawing.indent() + note for note in notes.get(end, [])]
        word = end + 1
    return "\n".join(rows + others + [line for line in lines if line.startswith(("out ", "copy "))])
