"""A refused module as the second reading sees it: its tokens and trees as far as they go, its refusal, and what was known there."""

import bisect

from reference.answers import module_of
from reference.errors import ModuleError
from reference.expressions import Typing
from reference.parts import linked
from reference.rules import Elaborator
from reference.scopes import Breaches, full_name
from reference.sizes import check_counts
from reference.tokens import tokens_of
from reference.trees import LEVELS, Parser

from ..linked import place_of
from ..places import visible
from .grammar import AskingParser


# The passes over a text, by the letters of their codes.
PASSES = {"L": 0, "P": 1, "X": 2, "N": 3, "Y": 3, "K": 4, "A": 5}


def refusal_of(text):
    """The second reading's refusal of a module text; None where it is accepted."""
    try:
        module_of(text)
    except ModuleError as error:
        return error
    return None


class WatchingTyping(Typing):
    """Keeps what the walk of the place came to."""

    def __init__(self, watch, *parts):
        super().__init__(*parts)
        self.watch = watch

    def walk(self, tree):
        sort, core = super().walk(tree)
        if self.watch.at in (tree.at, tree.first):
            self.watch.walked.append((tree, sort, self.scope.copy()))
        return sort, core

    def wanted(self, tree, sort, truth):
        if tree.first == self.watch.at:
            self.watch.wanted = (tree, sort, truth)
        super().wanted(tree, sort, truth)


class Watch(Elaborator):
    """The rules of names and types, which keep what is known at one place."""

    def __init__(self, at):
        super().__init__()
        self.at, self.walked, self.wanted, self.applied_at, self.field_at, self.scope_at = at, [], None, None, None, None
        self.first_places = {}

    def typing(self, scope):
        return WatchingTyping(self, self.known, scope, self.breaches, super().typing(scope).sizes)

    def sort_of(self, tree, scope):
        """The sort of an expression, of which nothing is noted."""
        typing = Typing(self.known, scope, Breaches(), super().typing(scope).sizes)
        return typing.walk(tree)[0]

    def applied(self, scope, found, field, noted):
        if self.at == field.type[2] or self.at in [tree.first for tree in field.arguments]:
            self.applied_at = (found, field, scope.copy())
        return super().applied(scope, found, field, noted)

    def declare(self, name, stands_for, literal=False):
        self.first_places.setdefault(self.known.full(name[1]), name[2])
        super().declare(name, stands_for, literal)

    def field(self, scope, field, taken, every):
        if self.at in (field.name[2], field.type[2]):
            self.field_at = (field, scope.copy())
        return super().field(scope, field, taken, every)


class Module:
    """A module text that is refused."""

    def __init__(self, text):
        self.text, self.error = text, refusal_of(text)
        self.tokens, self.trees, self.parts, self.parser, self.watch = [], [], [], None, None
        if self.error is not None:
            self.look()

    def look(self):
        self.tokens = tokens_before(self.text, self.error.at) if self.error.code[0] == "L" else tokens_of(self.text)
        self.places = [token[2] for token in self.tokens]
        self.parser = AskingParser(self.tokens, len(self.text))
        if self.error.code[0] == "L":
            return
        try:
            self.parts = self.parser.input()
            self.trees = [tree for part in self.parts for tree in part.definitions]
            if self.error.code == "X1" and refused_by_counts(self.trees):
                return
            self.trees = linked(self.parts)
        except ModuleError:
            return
        self.watch = Watch(self.error.at)
        for tree in self.trees:
            self.watch.definition(tree)
        self.watch.known.part = self.part_at(self.error.at)

    # ---- Tokens.

    def index_at(self, at):
        """The number of the token that begins at a place, or else of the first one after it."""
        return bisect.bisect_left(self.places, at)

    def token(self, index):
        """A token by its number; one of kind "end" where there is none."""
        return self.tokens[index] if 0 <= index < len(self.tokens) else ("end", "", len(self.text))

    def spelling(self, index):
        """How a token is spelled in the text."""
        kind, value, at = self.token(index)
        if kind == "end":
            return ""
        end = at
        while kind == "NUM" and end < len(self.text) and chr(self.text[end]).isalnum():
            end += 1
        return visible(self.text[at:end]) if kind == "NUM" else value

    def end_of(self, index):
        """The byte after a token."""
        return self.token(index)[2] + len(self.spelling(index))

    def source(self, first, last):
        """The text from one token up to and with another, in one line."""
        return " ".join(visible(self.text[self.token(first)[2] : self.end_of(last)].replace(b"\n", b" ")).split())

    def span(self, tree):
        """The first byte of an expression, the byte after it, and whether parentheses of its own stand around it."""
        for depth in range(len(LEVELS), -2, -1):
            parser = Parser(self.tokens, len(self.text))
            parser.place = self.index_at(tree.first)
            found = parser.level(depth) if depth >= 0 else parser.expression()
            if (found.at, found.kind) == (tree.at, tree.kind):
                break
        is_enclosed = depth == len(LEVELS) and self.text[tree.first : tree.first + 1] == b"("
        return tree.first, self.end_of(parser.place - 1), is_enclosed

    def replaced(self, tree, new):
        """The edit that puts a text in the place of an expression; its own parentheses stay."""
        begin, end, is_enclosed = self.span(tree)
        return begin, end, "(%s)" % new if is_enclosed else new

    # ---- Places and mends.

    def place(self, at):
        return place_of(self.text, at)

    def edited(self, *edits):
        """The text with parts replaced: each edit is a first byte, the byte after the last, and what stands there then."""
        text = self.text
        for begin, end, new in sorted(edits, reverse=True):
            text = text[:begin] + new.encode() + text[end:]
        return text

    def mends(self, *edits, safe=False):
        """Whether the edited text isn't refused any more, or only for what lies behind the edits and this refusal, or by a later pass
        and not for what was edited; where `safe` isn't asked for, its arithmetic may be refused, which is now looked at."""
        error = refusal_of(self.edited(*edits))
        if error is None:
            return True
        grown = sum(len(new.encode()) - (end - begin) for begin, end, new in edits)
        if error.at - grown > max([self.error.at] + [end for _, end, _ in edits]):
            return True
        moved, inside = 0, False
        for begin, end, new in sorted(edits):
            inside = inside or begin + moved <= error.at < begin + moved + len(new.encode())
            moved += len(new.encode()) - (end - begin)
        return PASSES[error.code[0]] > PASSES[self.error.code[0]] and (not inside or (error.code == "A1" and not safe))

    def definition_at(self, at):
        """The tree of the definition in which a place lies, and the numbers of its first and last token."""
        index = self.index_at(at)
        for tree, first, last in self.parser.definitions:
            if first <= index <= last:
                return tree, first, last
        return None, index, index

    def definition_named(self, name):
        """The first definition of a name, as it stands at the place of the refusal."""
        full = self.full(name)
        return next((tree for tree in self.trees if full_name(tree.part, tree.name[1]) == full), None)

    # ---- Parts.

    def part_at(self, at):
        """The name of the part in which a place lies; None in a module without parts."""
        found = [part.name[1] for part in self.parts if part.name is not None and part.name[2] <= at]
        return found[-1] if found else None

    def full(self, name):
        """A name at the place of the refusal, with its part's."""
        return full_name(self.part_at(self.error.at), name)

    def name_at(self, at):
        """The name that begins at a place: two where a dot joins them."""
        index = self.index_at(at)
        is_two = self.token(index)[0] == "NAME" and self.token(index + 1)[0] == "." and self.token(index + 2)[0] == "NAME"
        return self.token(index)[1] + ("." + self.token(index + 2)[1] if is_two else "")


def tokens_before(text, at):
    """The tokens before a bad byte; the number directly before it isn't one where it is too large."""
    try:
        return tokens_of(text[:at])
    except ModuleError as error:
        return tokens_of(text[: error.at])


def refused_by_counts(trees):
    try:
        check_counts(trees)
    except ModuleError:
        return True
    return False
