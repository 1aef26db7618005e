"""Tokens: triples of a kind, a value, and the byte at which the token begins."""

import re
from typing import Any

from .errors import ModuleError

# A kind, a value (of a number its value, else its spelling), and the place.
Token = tuple[str, Any, int]

KEYWORDS = set(
    "typedef struct casetype enum switch case default entrypoint output where mutable unit all_bytes all_zeros sizeof this"
    " if else return abort var field_pos field_ptr is_range_okay true false PUINT8".split()
)
# A number type's bytes, and whether the byte of most weight stands first.
NUMBER_TYPES = {"UINT%d%s" % (8 * width, order): (width, order == "BE") for width in (1, 2, 4, 8) for order in ("", "BE")}
PUNCTUATION = "&& || == != <= >= << >> -> + - * / % & | ^ ~ ! < > = ? : ; , . ( ) { } [ ]".split()
# These stand only where no letter, digit, `_` or `-` follows.
ACTION_WORDS = ("{:act", "{:check", "{:on-success")
COPY_WORD = "{:copy"
ARRAY_WORDS = ("[:byte-size", "[:byte-size-single-element-array", "[:zeroterm-byte-size-at-most")
MARKED_WORDS = ("#define", COPY_WORD) + ACTION_WORDS + ARRAY_WORDS
NUMBER = re.compile(rb"0[xX][0-9a-fA-F]+|[0-9]+")
WORD = re.compile(rb"[A-Za-z_][A-Za-z0-9_]*")
# A number of so many digits, the first of which isn't 0, is 2^64 or more.
MOST_DIGITS = 21


def follows(text: bytes, at: int, more: str = "") -> bool:
    """Whether a letter, a digit, `_` or one of `more` stands at a place."""
    return at < len(text) and text[at] < 128 and re.match(r"[A-Za-z0-9_%s]" % more, chr(text[at])) is not None


def after_trivia(text: bytes, at: int) -> int | None:
    """The place after the white space or comment that begins here; None where none does."""
    if text[at] in b" \t\r\n":
        return at + 1
    if text.startswith(b"//", at):
        end = text.find(b"\n", at)
        return len(text) if end < 0 else end
    if text.startswith(b"/*", at):
        end = text.find(b"*/", at + 2)
        if end < 0:
            raise ModuleError("L2", at, "open comment")
        return end + 2
    return None


def whole(digits: str) -> int:
    """The number that decimal digits spell; in place of one of 2^64 or more some such number, as Python reads no more than 4,300 digits."""
    return int(digits.lstrip("0")[:MOST_DIGITS] or "0")


def spelled(pattern: re.Pattern[bytes], text: bytes, at: int) -> str:
    """What of the text a pattern takes, at a place where it takes something."""
    found = pattern.match(text, at)
    return found.group().decode() if found else ""


def number(text: bytes, at: int) -> tuple[Token, int]:
    spelling = spelled(NUMBER, text, at)
    end = at + len(spelling)
    if follows(text, end):
        raise ModuleError("L1", end, "bad byte")
    value = int(spelling, 16) if spelling[:2] in ("0x", "0X") else whole(spelling)
    if value >= 2**64:
        raise ModuleError("L3", at, "number too large")
    return ("NUM", value, at), end


def word(text: bytes, at: int) -> tuple[Token, int]:
    spelling = spelled(WORD, text, at)
    kind = "INT" if spelling in NUMBER_TYPES else spelling if spelling in KEYWORDS else "NAME"
    return (kind, spelling, at), at + len(spelling)


def punctuation(text: bytes, at: int) -> tuple[Token, int]:
    """The longest sign or marked word that begins here."""
    begun = [s for s in PUNCTUATION if text.startswith(s.encode(), at)]
    begun += [w for w in MARKED_WORDS if text.startswith(w.encode(), at) and not follows(text, at + len(w), "-")]
    if not begun:
        raise ModuleError("L1", at, "bad byte")
    longest = max(begun, key=len)
    return (longest, longest, at), at + len(longest)


def tokens_of(text: bytes) -> list[Token]:
    tokens: list[Token] = []
    at = 0
    while at < len(text):
        after = after_trivia(text, at)
        if after is None:
            read = number if text[at] in b"0123456789" else word if WORD.match(text, at) else punctuation
            token, after = read(text, at)
            tokens.append(token)
        at = after
    return tokens
