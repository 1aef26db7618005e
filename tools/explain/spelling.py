"""Expressions as text: trees as the text spells them, core expressions by the names and numbers that they hold."""

import re

from reference.trees import LEVELS
from reference.values import constant_of

LEVEL_OF = {operator: level for level, operators in enumerate(LEVELS) for operator in operators}
UNARY = len(LEVELS)
# Other operators beside these stand in parentheses, as not all readers know which binds closer.
BITWISE = ("&", "|", "^")
PRIMARY = UNARY + 1
WORD = re.compile(rb"[A-Za-z_][A-Za-z0-9_]*|[0-9][0-9A-Za-z]*")


def word_at(text, at):
    found = WORD.match(text, at) if at is not None else None
    return found.group().decode() if found else ""


def level_of(kind):
    return -1 if kind == "choice" else LEVEL_OF.get(kind, PRIMARY)


def put(text, level, least):
    return text if level >= least else "(%s)" % text


def spelled(tree, text, least=-1):
    """A tree as text, in parentheses where it binds looser than `least`."""
    parts = tree.parts
    if tree.kind == "choice":
        test, one, other = (spelled(part, text, least) for part, least in zip(parts, (0, -1, -1)))
        return put("%s ? %s : %s" % (test, one, other), -1, least)
    if tree.kind == "is_range_okay":
        return "is_range_okay(%s)" % ", ".join(spelled(part, text) for part in parts)
    if tree.kind == "sizeof":
        return "sizeof(%s)" % tree.operand[1]
    if tree.kind in ("!", "~"):
        return tree.kind + spelled(parts[0], text, UNARY)
    if not parts:
        return word_at(text, tree.at)
    level = LEVEL_OF[tree.kind]
    if tree.kind in BITWISE:
        parts = [spelled(part, text, PRIMARY if part.kind in LEVEL_OF and part.kind != tree.kind else level + 1) for part in parts]
        return put((" %s " % tree.kind).join(parts), level, least)
    # Operators lean to the left, comparisons don't chain.
    first = level + 1 if tree.kind in ("==", "!=", "<", "<=", ">", ">=") else level
    whole = "%s %s %s" % (spelled(parts[0], text, first), tree.kind, spelled(parts[1], text, level + 1))
    return put(whole, level, least)


def core_text(core, text, least=-1):
    """A core expression as text; a constant part is the word that stands for it in the text, or else its number."""
    value = constant_of(core)
    if value is not None:
        word = word_at(text, getattr(core, "at", None)) if not core.parts else ""
        return word if word and not word.startswith("sizeof") else str(value)
    parts = core.parts
    if core.kind == "name":
        return word_at(text, core.at)
    if core.kind == "choice":
        test, one, other = (core_text(part, text, least) for part, least in zip(parts, (0, -1, -1)))
        return put("%s ? %s : %s" % (test, one, other), -1, least)
    if core.kind == "range":
        return "is_range_okay(%s)" % ", ".join(core_text(part, text) for part in parts)
    if core.kind in ("!", "~"):
        return core.kind + core_text(parts[0], text, UNARY)
    level = LEVEL_OF[core.kind]
    return put("%s %s %s" % (core_text(parts[0], text, level), core.kind, core_text(parts[1], text, level + 1)), level, least)


def names_in(tree):
    """The names in a tree, in order."""
    found = [tree] if tree.kind == "NAME" else []
    for part in tree.parts:
        found += names_in(part)
    return found


def parameter_text(parameter):
    """A parameter as the text has it."""
    if parameter.room is not None:
        return "mutable %s *%s[%s]" % (parameter.type[1], parameter.name[1], parameter.room[1])
    if parameter.mutable:
        return "mutable %s *%s" % (parameter.type[1], parameter.name[1])
    return "%s %s" % (parameter.type[1], parameter.name[1])


def quoted(words):
    return ", ".join("`%s`" % word for word in words)


def many(count, one, more=None):
    return "%d %s" % (count, one if count == 1 else more or one + "s")


def free_name(module, word):
    """A name near this one that nothing in the text has."""
    taken = {token[1] for token in module.tokens if token[0] == "NAME"}
    return next(name for name in [word + "_"] + ["%s%d" % (word, n) for n in range(2, len(taken) + 3)] if name not in taken)
