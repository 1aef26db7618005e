"""What may stand at a place. The grammar is decided by one token: at the first token that is refused the parser has asked for each
token that may stand there, and for no other, so the list is exact (checks/explain compares it with a try of each token)."""

import os
import re

from reference.tokens import ACTION_WORDS, ARRAY_WORDS, COPY_WORD, KEYWORDS, PUNCTUATION
from reference.trees import LEVELS, Parser

from .. import TOP

GRAMMAR = os.path.join(TOP, "docs/language/grammar.md")
OPERATORS = [operator for level in LEVELS for operator in level]
CLASSES = {"NAME": "a name", "NUM": "a number", "INT": "a number type (`UINT8` ..)", "end": "the end of the text"}
# The methods of the parser that read a construct: its words, and its production in docs/language/grammar.md.
CONSTRUCTS = {
    "definition": ("a definition", "def"),
    "struct": ("a struct", "def"),
    "casetype": ("a casetype", "def"),
    "enum": ("an enum", "def"),
    "output": ("an output record", "def"),
    "head": ("the parameters or the `where` of a definition", "head"),
    "parameter": ("a parameter", "param"),
    "constant": ("a constant", "const"),
    "field": ("a field", "field"),
    "arguments": ("the arguments of a type", "type"),
    "statement": ("a statement", "stmt"),
    "right": ("what is assigned", "rhs"),
    "whole": ("an expression", "expr"),
}


class AskingParser(Parser):
    """Keeps the kinds of token for which it asked at the place where it stands, the constructs that are open, and the definitions."""

    def __init__(self, tokens, end):
        super().__init__(tokens, end)
        self.asked, self.asked_at, self.open, self.definitions = [], None, [], []
        # The first token of the last whole expression, and the one after its last.
        self.ended = None, None

    # `module` is a kind here, though it is a NAME: where it is asked for no other NAME may stand.
    def next_is(self, *kinds):
        if self.place != self.asked_at:
            self.asked, self.asked_at = [], self.place
        self.asked += [kind for kind in kinds if kind not in self.asked]
        return super().next_is(*kinds)

    def begins_part(self):
        self.next_is("module")
        return super().begins_part()

    def part(self):
        self.open = []
        return super().part()

    def definition(self):
        first = self.place
        self.open = [("definition", first)]
        tree = super().definition()
        self.definitions.append((tree, first, self.place - 1))
        self.open = []
        return tree


def watched(name):
    read = getattr(Parser, name)

    def call(self, *words):
        self.open.append((name, self.place))
        tree = read(self, *words)
        _, first = self.open.pop()
        if name == "whole":
            self.ended = first, self.place
        return tree

    return call


for construct in CONSTRUCTS:
    if construct != "definition":
        setattr(AskingParser, construct, watched(construct))


def may_stand(parser):
    """The kinds of token that may stand where the parser was refused, in the order of the page on tokens; `end` is the text's end."""
    kinds = set(parser.asked)
    signs = [sign for sign in PUNCTUATION if sign not in OPERATORS]
    order = list(CLASSES) + signs + sorted(KEYWORDS) + ["module", "#define"] + list(ARRAY_WORDS) + list(ACTION_WORDS) + [COPY_WORD] + OPERATORS
    found = [kind for kind in order if kind in kinds]
    # A definition may begin where a module may end.
    return found + ["end"] if [name for name, _ in parser.open] == ["definition"] and parser.open[0][1] == parser.place else found


def in_words(kinds):
    """Kinds of token as the manual names them: classes, signs, and operators together."""
    operators = [kind for kind in kinds if kind in OPERATORS]
    words = [CLASSES.get(kind, "`%s`" % kind) for kind in kinds if kind not in operators or len(operators) < 4]
    if len(operators) >= 4:
        words.append("an operator (%s)" % " ".join("`%s`" % operator for operator in operators))
    return ", ".join(words[:-1]) + " or " + words[-1] if len(words) > 1 else words[0]


def productions():
    """The productions of docs/language/grammar.md, by their names."""
    with open(GRAMMAR, encoding="utf-8") as file:
        block = [line[4:] for line in file.read().splitlines() if line.startswith("    ")]
    found, name = {}, None
    for line in block:
        # Short productions stand beside each other in one line.
        for part in re.split(r"\s{2,}(?=\w+ += )", line):
            head = re.match(r"(\w+) += (.*)", part)
            if head:
                name = head[1]
                found[name] = head[2]
            elif name:
                found[name] += " " + part.strip()
    return found


def production_of(name):
    try:
        return productions().get(name)
    except OSError:
        return None


def open_at(parser):
    """The constructs that are open where the parser was refused: name, number of the first token. An expression that may go on is one."""
    first, after = parser.ended
    still = [("whole", first)] if after == parser.place else []
    return (parser.open or [("definition", parser.place)]) + still


def innermost(parser):
    """The innermost construct that is open: its words, its production, and the number of its first token."""
    name, first = open_at(parser)[-1]
    return CONSTRUCTS[name] + (first,)
