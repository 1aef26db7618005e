"""Help on P1 and P2: what may stand there, the production, and what writers of C, protobuf and EverParse's 3D write instead."""

from types import SimpleNamespace as Advice

from limits import MOST_BRACES, MOST_OPERATORS
from reference.errors import ModuleError
from reference.tokens import ACTION_WORDS, COPY_WORD, KEYWORDS

from . import in_copies, in_definitions, in_expressions, in_fields
from .grammar import CONSTRUCTS, AskingParser, in_words, innermost, may_stand, open_at, production_of
from .spelling import many


class Here:
    """The refused token and what stands around it, by numbers: 0 is the refused one, -1 the one before."""

    def __init__(self, module):
        self.module, self.index = module, module.parser.place
        self.asked = may_stand(module.parser)
        self.open = open_at(module.parser)
        self.kind, self.value, self.at = module.token(self.index)

    def kind_at(self, offset):
        return self.module.token(self.index + offset)[0] if self.index + offset >= 0 else "begin"

    def word(self, offset=0):
        return self.module.spelling(self.index + offset) if self.index + offset >= 0 else ""

    def begin(self, offset=0):
        """The first byte of a token."""
        return self.module.token(self.index + offset)[2]

    def end(self, offset=0):
        return self.module.end_of(self.index + offset)

    def inside(self, name):
        """Whether a construct is open."""
        return any(name == other for other, _ in self.open)

    def innermost(self):
        return self.open[-1][0] if self.open else ""

    def first_of(self, name):
        """The offset of the first token of the innermost open construct of this name."""
        return next(first for other, first in reversed(self.open) if other == name) - self.index

    def source(self, first, last):
        return self.module.source(self.index + first, self.index + last)

    def matching(self, offset):
        """The offset of what closes the bracket or brace at an offset; None where nothing does."""
        opening = {"(": ")", "{": "}", "[": "]", **{word: "}" for word in ACTION_WORDS}, COPY_WORD: "}"}
        depth, at = 0, offset
        while self.kind_at(at) != "end":
            kind = self.kind_at(at)
            depth += (kind in opening) - (kind in opening.values())
            if depth == 0:
                return at
            at += 1
        return None

    def up_to(self, *kinds):
        """The offset of the next token of one of these kinds, outside of brackets; None where there is none."""
        depth, at = 0, 0
        while self.kind_at(at) != "end":
            kind = self.kind_at(at)
            if depth == 0 and kind in kinds:
                return at
            depth += kind in ("(", "{", "[") or kind.startswith("{:")
            depth -= kind in (")", "}", "]")
            at += 1
        return None


def advise(said, *edits):
    return Advice(said=said, edits=edits)


def truth_as_constant(here):
    """`case true:`: a constant is a number."""
    if here.kind not in ("true", "false") or here.innermost() != "constant":
        return None
    number = "1" if here.kind == "true" else "0"
    begun = "case " if here.word(-1) == "case" else "%s = " % here.word(-2) if here.word(-1) == "=" else ""
    more = ", and let what is switched on be a number, as `switch (e ? 1 : 0)` of a condition" if begun == "case " else ""
    return advise("A constant is a number, and no truth value: write `%s%s`%s." % (begun, number, more), (here.at, here.end(), number))


def keyword_as_name(here):
    if "NAME" not in here.asked or (here.kind not in KEYWORDS and here.kind != "INT"):
        return None
    other = here.word() + "_"
    what = "a number type" if here.kind == "INT" else "a keyword"
    return advise("`%s` is %s and no name: write another one, as `%s`." % (here.word(), what, other), (here.at, here.end(), other))


def missing_semicolon(here):
    """A token that can't go on after what a `;` would end."""
    if ";" not in here.asked or here.index == 0 or here.kind == ";":
        return None
    end = here.end(-1)
    what = {"field": "field", "statement": "statement", "right": "statement"}.get(here.innermost(), "definition")
    if here.inside("statement"):
        what = "statement"
    said = "A `;` is missing: it ends each %s, after its last part. Write `%s;`." % (what, shortened(here, -1))
    return advise(said, (end, end, ";"))


def shortened(here, last):
    """The construct that a missing `;` would end, as far as it stands."""
    name = next((name for name, _ in reversed(here.open) if name in ("field", "statement", "definition")), "definition")
    text = here.source(here.first_of(name), last)
    return text if len(text) <= 60 else ".. " + text[-57:]


def ended_early(here):
    if here.kind != "end":
        return None
    words = completion(here)
    said = "The text ends within %s" % innermost(here.module.parser)[0]
    return advise(said + ": the shortest way to end it is `%s`." % words, (here.at, here.at, " " + words)) if words else advise(said + ".")


# What is taken first to end a text that ends too early.
ENDING = (";", "}", ")", "]", "NAME", "NUM", "INT", "=", ":", "{", "struct", "enum", "switch", "(", "case", "typedef", "*", "->", ",")
MOST_ENDING = 20


def completion(here):
    """The tokens that end a text that ends too early; None where so few don't."""
    tokens, words = list(here.module.tokens), []
    tag = next((token[1] for token in reversed(tokens) if token[0] == "NAME" and token[1].startswith("_")), "_x")
    for _ in range(MOST_ENDING):
        parser = AskingParser(tokens, here.at)
        try:
            parser.input()
            return " ".join(words).replace(" ;", ";")
        except ModuleError:
            kind = next((kind for kind in ENDING if kind in parser.asked), None)
        if kind is None:
            return None
        closed = tokens and tokens[-1][0] == "}"
        word = {"NAME": tag[1:] if closed else "x", "NUM": "1", "INT": "UINT8"}.get(kind, kind)
        tokens.append((kind, word, here.at))
        words.append(word)
    return None


def pointer_type(here):
    if here.kind != "PUINT8":
        return None
    return advise("`PUINT8` is a cell's type alone: a parameter `mutable PUINT8 *p`, to which an action stores `field_ptr`, or a record's field.")


def sign_too_many(here):
    if here.kind in ("NAME", "NUM", "INT", "end") or here.kind in KEYWORDS:
        return None
    return advise("The `%s` is one too many: take it out." % here.word(), (here.at, here.end(), " "))


def sign_missing(here):
    """A sign or keyword without which nothing goes on."""
    for kind in here.asked:
        edit = (here.at, here.at, kind + " ")
        if kind not in ("NAME", "NUM", "INT", "end", "module", ".") and len(here.asked) <= MOST_ASKED and here.module.mends(edit):
            return advise("`%s` is missing: write it before `%s`." % (kind, here.word()), edit)
    return None


# Where more tokens than these may stand, none is said to be missing.
MOST_ASKED = 3
GENERAL = [pointer_type, truth_as_constant, keyword_as_name, missing_semicolon, sign_too_many, sign_missing, ended_early]


def advice_of(here):
    """The first rule that fits, and whose edits, where it has some, mend the text."""
    for rule in in_copies.RULES + in_definitions.RULES + in_fields.RULES + in_expressions.RULES + GENERAL:
        found = rule(here)
        if found is not None and (not found.edits or here.module.mends(*found.edits)):
            return found.said
    return None


def stands(here):
    """What stands there."""
    if here.kind == "end":
        return "the end of the text"
    if here.kind in KEYWORDS:
        return "the keyword `%s`" % here.word()
    return {"NAME": "the name `%s`", "NUM": "the number `%s`", "INT": "the number type `%s`"}.get(here.kind, "`%s`") % here.word()


BEGUN = {"struct": '"struct" NAME head', "casetype": '"casetype"', "enum": '"enum"', "output": '"output"'}


def production_here(here):
    """The production of what is open, and its name; of a definition or a statement the one that has begun."""
    name, first = here.open[-1]
    if name == "whole" and len(here.open) > 1 and "NAME" not in here.asked:
        # An expression that is whole: what follows it is the business of what holds it.
        name, first = here.open[-2]
    production = CONSTRUCTS[name][1]
    text = production_of(production)
    if text is None or name == "definition":
        return None
    if production == "def":
        text = next((part for part in text.split(" | ") if BEGUN[name] in part), text)
    if production == "stmt":
        word = here.module.token(first)[0]
        begun = word if word == "NAME" else '"%s"' % word
        text = next((part for part in text.split(" | ") if part.startswith(begun + " ")), text)
    return "%s = %s" % (production, text)


def unexpected(module):
    here = Here(module)
    words, _, first = innermost(module.parser)
    where = "" if first == here.index else ", in %s that begins at %s" % (words, module.place(module.token(first)[2]))
    lines = ["Here stands %s. Here may stand%s: %s." % (stands(here), where, in_words(here.asked))]
    production = production_here(here)
    if production:
        lines.append("docs/language/grammar.md: %s" % production)
    advice = advice_of(here)
    return lines + (["mend: " + advice] if advice else [])


def too_deep(module):
    parser = module.parser
    if module.spelling(parser.place) == "{":
        return [
            "This is the brace number %d that is open at one time in this action; at most %d may be." % (MOST_BRACES + 1, MOST_BRACES),
            "mend: join conditions by `&&` in one `if`, or test some of them in the refinement.",
        ]
    first = next((first for name, first in reversed(parser.open) if name == "whole"), parser.place)
    begun = module.place(module.token(first)[2])
    return [
        "The expression that begins at %s has here its operator or opening parenthesis number %d; at most %s may be in one."
        % (begun, MOST_OPERATORS + 1, many(MOST_OPERATORS, "operator")),
        "mend: test its parts as refinements of several fields, or in a `where`; a long list of values is an enum.",
    ]


def help_of(module):
    return unexpected(module) if module.error.code == "P1" else too_deep(module)
