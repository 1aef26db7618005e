"""Help on L1, L2, L3: bytes and numbers that are no tokens."""

import re

from ..places import visible

SUFFIX = re.compile(rb"(0[xX][0-9a-fA-F]+|[0-9]+)([A-Za-z_][A-Za-z0-9_]*)")
C_SUFFIX = re.compile(r"(?i)(u|l|ul|lu|ull|llu|ll|uy|us|y|s)")
LARGEST = 2**64 - 1
# Of a decimal number with more digits these are counted, and not its bits.
MOST_DIGITS = 4_000
DIRECTIVES = {
    "include": "There is one text: give both to `td-link`, which makes each a part, and write `Base.T` for the other's `T`.",
    "if": "There is no `#if`: run `cpp -P` over the text first, or take a parameter and a casetype.",
    "pragma": "There are no pragmas: take the line out.",
    "undef": "A constant stays: give the other one another name.",
    "define": "`#define` stands only where no letter, digit, `_` or `-` follows: write `#define NAME NUMBER`.",
}
SIGNS = {
    b'"': "There are no texts between quotes: compare bytes as numbers, each a field of its own, and write comments as `/* .. */`.",
    b"@": "There are no attributes: take them out.",
    b"$": "A name has letters, digits and `_` alone.",
    b"`": "A name has letters, digits and `_` alone.",
    b"\\": "A line isn't continued by a backslash: white space and line ends mean the same everywhere.",
}


def number_with_letters(module, at):
    """Of a letter directly after a number; None where it is another byte."""
    begun = next((found for found in SUFFIX.finditer(module.text) if found.start(2) == at), None)
    if begun is None:
        return None
    digits, letters = begun[1].decode(), begun[2].decode()
    said = ["A letter, a digit or `_` stands directly after the number `%s`." % digits]
    if C_SUFFIX.fullmatch(letters):
        mend, why = digits, "Numbers have no suffix: a literal takes the other side's type. Write `%s`." % digits
    elif digits == "0" and re.fullmatch(r"[bB][01]+", letters):
        mend, why = hex(int(letters[1:], 2)), "There are no binary numbers: `0%s` is `%s`."
        why %= (letters, mend)
    elif digits == "0" and re.fullmatch(r"[oO][0-7]+", letters):
        mend = hex(int(letters[1:], 8))
        why = "There are no octal numbers: `0%s` is `%s`." % (letters, mend)
    elif digits.isdecimal() and re.fullmatch(r"(_[0-9]+)+", letters):
        mend = digits + letters.replace("_", "")
        why = "Digits aren't grouped: write `%s`." % mend
    else:
        return said + ["mend: Put a space between them; hexadecimal digits stand after `0x`, and a name begins with a letter."]
    return said + ["mend: " + why]


def character(module, at):
    """Of a quote that begins a character; None where it doesn't."""
    found = re.match(rb"'([ -~])'", module.text[at : at + 3])
    if not found:
        return ["mend: There are no characters between quotes: write the number of the byte, `0x41` for A."]
    number = "0x%02x" % found[1][0]
    said = "There are no characters between quotes: %s is `%s`." % (visible(found[0]), number)
    return ["mend: " + said]


def bad_byte(module):
    text, at = module.text, module.error.at
    byte = text[at : at + 1]
    if text.count(0) > len(text) // 4 or text[:2] in (b"\xff\xfe", b"\xfe\xff"):
        return ["mend: The text is in UTF-16: save it as UTF-8 or ASCII."]
    if text.startswith(b"\xef\xbb\xbf") and at == 0:
        return ["mend: The text begins with a byte order mark (EF BB BF): save it without one."]
    letters = number_with_letters(module, at)
    if letters:
        return letters
    said = ["No token begins with the byte 0x%02x%s." % (byte[0], " (`%s`)" % byte.decode() if 32 < byte[0] < 127 else "")]
    if byte == b"'":
        return said + character(module, at)
    if byte == b"#":
        word = re.match(rb"#\s*([a-z]*)", text[at:])[1].decode()
        word = {"ifdef": "if", "ifndef": "if", "elif": "if", "else": "if", "endif": "if"}.get(word, word)
        return said + ["mend: " + DIRECTIVES.get(word, "`#` stands in `#define` alone: take it out.")]
    if byte == b'"' and re.search(rb"\{:act-with-comment\s*$", text[:at]):
        return said + ["mend: There is no `{:act-with-comment`: write `{:act` and the text as a comment, `/* .. */`."]
    if byte[0] >= 128:
        return said + ["mend: Names have ASCII letters, digits and `_` alone; in comments all bytes may stand."]
    if byte == b'"' and re.search(rb"(^|\n)\s*\{\s*$", text[:at]):
        return said + ["mend: This looks like a job: a line that is exactly `%%` stands before it in an input, and `td check` takes none."]
    return said + ["mend: " + SIGNS.get(byte, "Take it out; in comments all bytes may stand.")]


def open_comment(module):
    text, at = module.text, module.error.at
    said = ["The comment that begins here isn't ended: no `*/` follows up to the end of the text, %s." % module.place(len(text))]
    inner = text.find(b"/*", at + 2)
    before = text.rfind(b"*/", 0, at)
    outer = text.rfind(b"/*", 0, max(before, 0))
    if outer >= 0 and text.find(b"*/", outer + 2) == before and b"/*" in text[outer + 2 : before]:
        said.append("Comments don't nest: the one from %s ended at the first `*/`, %s." % (module.place(outer), module.place(before)))
    elif inner >= 0:
        said.append("A next `/*` stands at %s: the `*/` may be missing before it." % module.place(inner))
    return said + ["mend: end it by `*/`, or write it as `//` up to the line's end."]


def number_too_large(module):
    spelling = re.match(rb"0[xX][0-9a-fA-F]+|[0-9]+", module.text[module.error.at :])[0].decode()
    if spelling[:2] in ("0x", "0X") or len(spelling) <= MOST_DIGITS:
        takes = "takes %d bits, and the widest number type has 64" % int(spelling, 16 if spelling[:2] in ("0x", "0X") else 10).bit_length()
    else:
        takes = "has %d digits, and the widest number type has 64 bits" % len(spelling.lstrip("0"))
    return [
        "The number %s: the largest is %d (`0xffffffffffffffff`)." % (takes, LARGEST),
        "mend: test a longer value by its parts, each a field of up to 64 bits, or leave it as `UINT8 name[n]`.",
    ]


def help_of(module):
    return {"L1": bad_byte, "L2": open_comment, "L3": number_too_large}[module.error.code](module)
