"""The tokens of a file of written C, behind its directives (C11, 6.4 and 6.10), as far as that text uses them."""

import re
from collections.abc import Iterator, Mapping

TOKEN = re.compile(
    r'\s+|/\*.*?\*/|(?P<token>"[^"\\\n]*"|[A-Za-z_]\w*|\d+|->|\+\+|<<|>>|<=|>=|==|!=|[-+*/%&|^<>=?:;,.(){}\[\]])', re.S
)
# What a compiler for such a machine has defined by itself.
PREDEFINED = {"__BYTE_ORDER__": "1234", "__ORDER_LITTLE_ENDIAN__": "1234", "__SIZEOF_POINTER__": "8"}
# Two macros with a parameter are primitives: what they do isn't read.
PRIMITIVES = {"TD_LOAD", "TD_SWAP"}
NAME = re.compile(r"[A-Za-z_]\w*")


class Refused(Exception):
    """Why a text isn't read: no C, or C that such a text has no use for."""


def tokens_of(line: str) -> list[str]:
    found, at = [], 0
    while at < len(line):
        match = TOKEN.match(line, at)
        if not match:
            raise Refused("no token: %r" % line[at : at + 40])
        if match["token"]:
            found.append(match["token"])
        at = match.end()
    return found


class Directives:
    """Goes over a file's lines: which of them count, and what is defined by then."""

    def __init__(self, headers: Mapping[str, str]) -> None:
        self.headers = headers
        self.macros: dict[str, list[str]] = {name: [value] for name, value in PREDEFINED.items()}
        self.counts: list[bool] = []

    def tokens(self, text: str) -> Iterator[str]:
        """The tokens that are left of a file; of a header that it names, too."""
        plain = re.sub(r"/\*.*?\*/", lambda match: " " + "\n" * match[0].count("\n"), text, flags=re.S)
        depth = len(self.counts)
        for line in plain.split("\n"):
            if line.startswith("#"):
                yield from self.directive(line[1:].strip())
            elif all(self.counts):
                for token in tokens_of(line):
                    yield from self.expanded(token)
        if len(self.counts) != depth:
            raise Refused("a condition without its end")

    def expanded(self, token: str) -> Iterator[str]:
        """A macro's tokens in the place of its name."""
        if token in self.macros and token not in PRIMITIVES:
            for other in self.macros[token]:
                yield from self.expanded(other)
        else:
            yield token

    def directive(self, line: str) -> Iterator[str]:
        word, _, rest = line.partition(" ")
        if word in ("ifdef", "ifndef"):
            self.counts.append((rest in self.macros) == (word == "ifdef"))
        elif word == "if":
            self.counts.append(self.differ(rest))
        elif word == "else":
            self.counts[-1] = not self.counts[-1]
        elif word == "endif":
            self.counts.pop()
        elif all(self.counts):
            yield from self.counted(word, rest)

    def differ(self, condition: str) -> bool:
        """`a != b`, of names that are defined and numerals."""
        one, sign, other = condition.partition(" != ")
        if not sign:
            raise Refused("#if " + condition)
        return self.macros.get(one, [one]) != self.macros.get(other, [other])

    def counted(self, word: str, rest: str) -> Iterator[str]:
        """A directive that is no condition."""
        if word == "define":
            match = NAME.match(rest)
            if not match or match[0] in self.macros:
                raise Refused("#define " + rest)
            body = rest[match.end() :]
            if body.startswith("(") and match[0] not in PRIMITIVES:
                raise Refused("a macro with a parameter: " + match[0])
            self.macros[match[0]] = [] if match[0] in PRIMITIVES else tokens_of(body)
        elif word == "include" and rest.startswith('"'):
            if rest.strip('"') not in self.headers:
                raise Refused("#include " + rest)
            yield from self.tokens(self.headers[rest.strip('"')])
        elif word not in ("include", "pragma"):
            raise Refused("#%s %s" % (word, rest))
