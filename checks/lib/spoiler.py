"""Images that are changed at random, and what a second reading says of an image."""

from codes import IMAGES, has_newer, u32, upgraded
from reference import code as rules


def second_reading(image):
    """What the second reading says of an image, and its tables where it accepts it. One of another version than that in which its
    code is written, the code of version 1 upgraded, is another image when it is written again."""
    try:
        code = IMAGES.Code(image)
    except IMAGES.Fault as fault:
        return fault.code if fault.code in ("I1", "I2") else "%s at %d" % (fault.code, fault.at), None
    answer = "ok" if code.version == (4 if has_newer(code) else 3) else "older"
    code = upgraded(code) if code.version == 1 else code
    refusal = rules.refusal(code)
    return ("I6 " + refusal, None) if refusal else (answer, code)


def second_answer(image):
    return second_reading(image)[0]


class Spoiler:
    """Changes images at random."""

    def __init__(self, draw):
        self.random = draw

    def place(self, image, step):
        return step * self.random.randrange(len(image) // step)

    def byte(self, image):
        at = self.random.randrange(len(image))
        value = self.random.choice([0, 1, 2, 127, 128, 255, image[at] ^ 1 << self.random.randrange(8), self.random.randrange(256)])
        return image[:at] + bytes([value]) + image[at + 1 :]

    def number(self, image):
        at = self.random.randrange(len(image) - 3)
        value = int.from_bytes(image[at : at + 4], "little") + self.random.choice([-1, 1, 2, 65536, 2**31])
        return image[:at] + u32(value % 2**32) + image[at + 4 :]

    def cut(self, image):
        return image[: self.random.randrange(len(image))]

    def longer(self, image):
        return image + bytes(self.random.randrange(256) for _ in range(self.random.randrange(1, 9)))

    def removed(self, image):
        at = self.random.randrange(len(image))
        return image[:at] + image[at + self.random.choice([1, 2, 4, 8, 24]) :]

    def put_in(self, image):
        at = self.random.randrange(len(image))
        return image[:at] + bytes(self.random.choice([1, 2, 4, 8, 24])) + image[at:]

    def swapped(self, image):
        """Two fields of four bytes, each in the other's place."""
        one, other = sorted([self.random.randrange(len(image) - 7), self.random.randrange(len(image) - 7)])
        other = max(other, one + 4)
        return image[:one] + image[other : other + 4] + image[one + 4 : other] + image[one : one + 4] + image[other + 4 :]

    def spoiled(self, image):
        change = self.random.choice([self.byte] * 4 + [self.number] * 3 + [self.swapped, self.cut, self.longer, self.removed, self.put_in])
        return change(image)


class FieldSpoiler(Spoiler):
    """Changes one image, of which it knows the fields: at each change one field or two, or the bytes as any image's."""

    def __init__(self, draw, image):
        super().__init__(draw)
        self.image = image
        self.fields = fields_of(image)
        self.rows = 24 * int.from_bytes(image[32:36], "little")

    def field(self, image):
        """A field with another value: near its own, at the end of its range, or that of another field."""
        at, size = self.random.choice(self.fields)
        value, most = int.from_bytes(image[at : at + size], "little"), 2 ** (8 * size) - 1
        other, other_size = self.random.choice(self.fields)
        taken = int.from_bytes(image[other : other + other_size], "little")
        value = self.random.choice([value - 1, value + 1, value + 2, 0, 1, most, taken, self.random.randrange(256)])
        return image[:at] + (value & most).to_bytes(size, "little") + image[at + size :]

    def fields_swapped(self, image):
        """Two fields of one size, each in the other's place."""
        one, size = self.random.choice(self.fields)
        other = self.random.choice([at for at, count in self.fields if count == size])
        return exchanged(image, one, other, size)

    def rows_swapped(self, image):
        """Two instructions, each in the other's place."""
        first = len(image) - self.rows
        one, other = (first + 24 * self.random.randrange(self.rows // 24) for _ in range(2))
        return exchanged(image, one, other, 24)

    def drawn(self):
        changes = [self.field] * 4 + [self.byte] * 3 + [self.fields_swapped] * 2 + [self.rows_swapped]
        change = self.random.choice(changes + [self.number, self.swapped, self.cut, self.longer, self.removed, self.put_in])
        image = change(self.image)
        if self.random.random() < 0.2 and len(image) > 8:
            image = self.byte(image)
        return image


def exchanged(image, one, other, size):
    """The image with two stretches of one size, which are one or lie apart, each in the other's place."""
    changed = bytearray(image)
    changed[one : one + size], changed[other : other + size] = image[other : other + size], image[one : one + size]
    return bytes(changed)


def fields_of(image):
    """The first byte and the size of each field of an image."""
    found = []

    class NotingReader(IMAGES.Reader):
        def taken(self, count, what):
            found.append((self.at, count))
            return super().taken(count, what)

    IMAGES.Code(image, NotingReader)
    return found
