"""Reports of host jobs as histories made at random give them: an order of all guests' steps, and moments in it at which others load."""

from reference.hosts import lines_and_cells
from reference.runs import Memory
from reference.takes import take_of


class Moments(Memory):
    """A message of a layout, from a word of the buffer on, whose words are loaded at rising moments of a history. The last one stands in
    `now`, which a reader's messages share."""

    def __init__(self, history, layout, first, now):
        super().__init__(layout, [], [])
        self.history, self.first, self.now = history, first, now

    def load(self, number):
        if number not in self.loaded:
            self.now[0] = self.history.later(self.now[0])
            self.loaded[number] = self.history.word(self.first + self.layout.buffer_word(number), self.now[0])
        return self.loaded[number]


class History:
    """All stores in one order. A moment is how many of them were made by then; of each post it is known."""

    def __init__(self, job, random):
        self.job, self.random, self.stores, self.posted = job, random, [], {}
        scripts = [list(script) for script in job.scripts]
        numbers = [0] * len(scripts)
        while any(scripts):
            guest = random.choice([guest for guest, script in enumerate(scripts) if script])
            step = scripts[guest].pop(0)
            if step[0] == "store":
                self.stores.append(step[1:])
            else:
                numbers[guest] += 1
                self.posted[guest + 1, numbers[guest]] = len(self.stores)
        self.published = sorted(random.randint(0, len(self.stores)) for _ in job.versions[1:])

    def later(self, moment):
        return self.random.choice([moment, self.random.randint(moment, len(self.stores))])

    def word(self, word, moment):
        """What stands in a word of the buffer at a moment."""
        return next((value for to, value in reversed(self.stores[:moment]) if to == word), self.job.words[word])

    def reply(self, guest, number, layout, now):
        """The lines of a reply of a worker who has come so far. It is under the version that was published when its post was made."""
        posted = self.posted[guest, number]
        now[0] = max(now[0], posted)
        version = sum(moment <= posted for moment in self.published)
        lines = "reply %d %d\n" % (guest, number) + ("version %d\n" % version if self.published else "")
        return lines + lines_and_cells(self.job.versions[version], self.job.arguments, Moments(self, layout, 0, now))[0]

    def replies(self):
        """The lines of each reply: some worker takes each post, all of them in the order in which they were made."""
        posts = {(guest, number): layout for guest, number, layout, _ in self.job.posts()}
        workers = [[0] for _ in range(self.job.workers)]
        found = {name: self.reply(*name, posts[name], self.random.choice(workers)) for name in self.posted}
        return [found[name] for name in posts]

    def takes(self, number, ring):
        """The lines of all takes of a ring."""
        lines, taken, now = "", 0, [0]
        for take in range(1, ring.takes + 1):
            now[0] = self.later(now[0])
            made = self.word(ring.base, now[0])
            more, taken = take_of(self.job, ring, taken, made, lambda layout, first: Moments(self, layout, first, now))
            lines += "ring %d %d\nhead %016x\n%s" % (number, take, made, more)
        return lines

    def report(self):
        return "".join(self.replies() + [self.takes(number, ring) for number, ring in enumerate(self.job.rings, 1)])
