"""What is written instead of copies and copy buffers that the grammar doesn't have. A rule gives None where it doesn't fit."""

import re

from types import SimpleNamespace as Advice

from reference.tokens import ACTION_WORDS, COPY_WORD


def advise(said, *edits):
    return Advice(said=said, edits=edits)


def copied_pointer(here):
    """`{:copy *b}`, `{:copy &b}` and `{:copy(b)}`."""
    if here.kind not in ("*", "&", "(") or here.kind_at(-1) != COPY_WORD or here.kind_at(1) != "NAME":
        return None
    end = here.end(2 if here.kind == "(" and here.kind_at(2) == ")" else 1)
    return advise("A copy names its buffer alone: write `{:copy %s}`." % here.word(1), (here.begin(), end, " " + here.word(1)))


def copy_word(here):
    """`{ :copy b}`, `{: copy b}` and `{:copy-all b}`."""
    if here.kind != ":" or here.kind_at(-1) != "{":
        return None
    word = re.match(rb"\s*(copy[A-Za-z0-9_-]*)", here.module.text[here.end() :])
    if word is None:
        return None
    buffer = re.match(rb"\s*([A-Za-z_][A-Za-z0-9_]*)", here.module.text[here.end() + word.end() :])
    write = "write `{:copy %s}`." % (buffer[1].decode() if buffer else "b")
    if word[1] == b"copy":
        said = "`{:copy` is one word, and a blank stands behind it: " + write
    else:
        said = "There is no `{:%s`: a copy takes all bytes of its field, and `{:copy` is its word: %s" % (word[1].decode(), write)
    return advise(said, (here.begin(-1), here.end() + word.end(), COPY_WORD))


def first_action(here):
    """The offset of the word of the action that ends before the place."""
    words = (COPY_WORD, *ACTION_WORDS)
    return next((at for at in range(-1, here.first_of("field"), -1) if here.kind_at(at) in words and here.matching(at) == -1), None)


def copy_and_action(here):
    """A second action where one of both is a copy."""
    if here.innermost() != "field" or here.kind not in (COPY_WORD, *ACTION_WORDS) or here.kind_at(-1) != "}":
        return None
    first, end = first_action(here), here.matching(0)
    if first is None or end is None or COPY_WORD not in (here.kind, here.kind_at(first)):
        return None
    if here.kind == here.kind_at(first):
        said = "A field has one action, and a copy is one, so its bytes go to one buffer: take the `%s` out." % here.source(0, end)
        return advise(said, (here.begin(), here.end(end), ""))
    action = here.source(0, end) if here.kind != COPY_WORD else here.source(first, -1)
    said = "A field has one action, and a copy is one: put the statements behind it, in a field that takes no byte, `unit then %s;`." % action
    if here.kind != COPY_WORD:
        return advise(said, (here.begin(), here.begin(), "; unit then "))
    return advise(said, (here.begin(first), here.end(-1), ""), (here.end(end), here.end(end), "; unit then " + action))


def room_of_another(here):
    """`mutable UINT16 *b[4]`."""
    if here.kind != "[" or here.innermost() != "head" or here.kind_at(-1) != "NAME" or here.kind_at(-2) != "*":
        return None
    first = next(at for at in range(-3, -here.index - 1, -1) if here.kind_at(at) == "mutable") + 1
    room = here.source(1, here.matching(0) - 1) if here.matching(0) is not None else "64"
    said = "Only `UINT8` has room behind its name, by that word: a copy buffer is bytes, `mutable UINT8 *%s[%s]`." % (here.word(-1), room)
    return advise(said, (here.begin(first), here.begin(-2), "UINT8 "))


def room_missing(here):
    """`mutable UINT8 *b[]`."""
    if here.kind != "]" or here.kind_at(-1) != "[" or here.innermost() not in ("parameter", "constant") or not here.inside("parameter"):
        return None
    return advise("A copy buffer has room for so many bytes, a constant: `mutable UINT8 *%s[64]`." % here.word(-2), (here.begin(), here.begin(), "64"))


RULES = [copied_pointer, copy_word, copy_and_action, room_of_another, room_missing]
