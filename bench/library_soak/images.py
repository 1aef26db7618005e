"""Images that are changed at random, given to the library for C: `soaked(PROGRAM, IMAGES, SEED)`. td-image and the second reading of the verifier
say what has to be answered; of an image that is read everything is looked up, and each entry point is run."""

import collections
import random
import subprocess

from codes import IMAGES, CodeMaker, image_of
from reference.code import refusal

# Numbers at limits.
EDGES = [0, 1, 2**32 - 1, 2**31, 65535, 65536, 65537, 16, 17, 64, 65, 80, 81]
MOST_SHOWN = 8


def image(rng):
    version = rng.choice([4, 4, 3, 3, 2, 1])
    made = CodeMaker(rng.getrandbits(40)).made(rng.choice([0, 0, 1, 2]), copies=version >= 3, newer=version == 4)
    return image_of(made, version)


def changed(rng, image):
    image = bytearray(image)
    for _ in range(rng.choice([0, 1, 1, 1, 2, 5])):
        if not image:
            break
        way, at = rng.random(), rng.randrange(min(len(image), 200)) if rng.random() < 0.5 else rng.randrange(len(image))
        if way < 0.4:
            image[at] = rng.choice([0, 1, 2, 255, 128, rng.randrange(256), image[at] ^ 1 << rng.randrange(8)])
        elif way < 0.6:
            image[at : at + 4] = rng.choice(EDGES).to_bytes(4, "little")
        elif way < 0.7:
            del image[at : at + rng.randrange(1, 9)]
        elif way < 0.8:
            image[at:at] = bytes(rng.randrange(256) for _ in range(rng.randrange(1, 9)))
        elif way < 0.9:
            del image[at:]
        else:
            image += bytes(rng.randrange(3) for _ in range(rng.randrange(1, 5)))
    return bytes(image)


def wanted(image):
    """The answer, the place and the rule."""
    try:
        breach = refusal(IMAGES.Code(image))
    except IMAGES.Fault as fault:
        code = 10 + int(fault.code[1])
        return code, 0 if code in (11, 12) else fault.at, 0
    return (16, int(breach.split()[-1]), int(breach[1])) if breach else (0, 0, 0)


def soaked(program, count, seed):
    """How many images had each answer, and how many things were wrong."""
    rng = random.Random(seed)
    images = [changed(rng, image(rng)) for _ in range(count)]
    asked = b"".join(len(image).to_bytes(4, "little") + image for image in images)
    run = subprocess.run([program], input=asked, stdout=subprocess.PIPE, check=False)
    lines, answers, wrong = run.stdout.decode().splitlines(), collections.Counter(), 0
    if run.returncode or len(lines) != len(images):
        print("library_soak: status %d, %d answers to %d images" % (run.returncode, len(lines), len(images)))
        wrong += 1
    for line, given in zip(lines, images):
        *marks, code, place, rule = line.split()
        answers[int(code)] += 1
        if marks or (int(code), int(place), int(rule)) != wanted(given):
            wrong += 1
            if wrong <= MOST_SHOWN:
                print("library_soak: image %s: %s, wanted %s" % (given[:40].hex(), line, wanted(given)))
    return answers, wrong
