"""Modules: what is looked at in a module text, in order."""

from typing import Any

from .errors import ModuleError
from .parts import linked
from .rules import elaborated, elaborator_of
from .safety import check_safety, safety_breaches
from .scopes import Known
from .sizes import check_counts, check_kinds, check_sizes, kind_breaches
from .tokens import tokens_of
from .trees import Parser


def parts_of_module(text: bytes) -> list[Any]:
    """The trees of a module text, part by part."""
    return Parser(tokens_of(text), len(text)).input()


def module_of(text: bytes) -> tuple[list[Any], Known]:
    """The trees of a module text, those of a part after those of the parts that it uses, and what is known after the last."""
    parts = parts_of_module(text)
    check_counts([tree for part in parts for tree in part.definitions])
    trees = linked(parts)
    known = elaborated(trees)
    check_kinds(known.types)
    check_safety(known.types)
    check_sizes(trees, known)
    return trees, known


def refusals_of(text: bytes) -> list[ModuleError]:
    """Every refusal that the first pass finds that has one, in order: the first is the text's own. Those behind it may come of it."""
    try:
        parts = parts_of_module(text)
        check_counts([tree for part in parts for tree in part.definitions])
        trees = linked(parts)
        elaborator = elaborator_of(trees)
        found = elaborator.breaches.in_order()
        types = elaborator.known.types
        found = found or list(kind_breaches(types)) or list(safety_breaches(types))
        if not found:
            check_sizes(trees, elaborator.known)
        return found
    except ModuleError as refusal:
        return [refusal]
