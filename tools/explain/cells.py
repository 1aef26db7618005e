"""Help on cells in expressions, `v` and `*v`: a cell is read by a statement `var`, in an action."""

from reference.sizes import tree_fields

from .spelling import free_name

ELSEWHERE = "no size, argument, switch or `where` reads one; put a field `UINT32 n = *p;` before it and name that, or a value parameter"


def statement_at(statements, at):
    """The innermost statement that holds a place."""
    found = next((statement for statement in reversed(statements) if statement.at <= at), None)
    if found is None:
        return None
    for branch in ("other", "one"):
        inner = statement_at(getattr(found, branch, []), at)
        if inner is not None:
            return inner
    return found


def field_at(module, at):
    """The field that holds a place; None in the head of a definition."""
    own, _, _ = module.definition_at(at)
    fields = [field for fields in tree_fields(own) for field in fields if field.type[2] <= at] if own is not None else []
    return max(fields, key=lambda field: field.type[2], default=None)


def with_name(module, first, last, cell, name):
    """The tokens from one up to and with another, with another name for a cell, and without a star before it."""
    words, end = "", module.token(first)[2]
    for index in range(first, last + 1):
        words += " " if end < module.token(index)[2] else ""
        end = module.end_of(index)
        is_factor = index > first and module.token(index - 1)[0] in ("NAME", "NUM", ")")
        if module.token(index)[0] != "*" or module.spelling(index + 1) != cell or is_factor:
            words += name if module.spelling(index) == cell else module.spelling(index)
    return words


def tested_in_action(module, cell, opening, closing):
    """The refinement between two braces as an action, where it mends the text."""
    name = free_name(module, cell)
    action = "{:check var %s = *%s; return %s;}" % (name, cell, with_name(module, opening + 1, closing - 1, cell, name))
    if not module.mends((module.token(opening)[2], module.end_of(closing), action)):
        return ["mend: read it in an action, and test it there: `{:check var %s = *%s; return ..;}`. Where that fails, the reason is `action`." % (name, cell)]
    return ["mend: read it in an action, and test it there: `%s`. Where that fails, the reason is `action`." % action]


def read_before(module, cell, at, edit_of):
    """A `var` before the statement that begins at a place; `edit_of` makes a name the edit of what is refused."""
    name = free_name(module, cell)
    read = "var %s = *%s;" % (name, cell)
    does = module.mends((at, at, read + " "), edit_of(name))
    return ["mend: write `%s` before this statement, and `%s` here." % (read, name) if does else "mend: deliver a number of its own, and read that by `var`."]


def mend_of_name(module, cell):
    """Of a cell that is named where a value stands."""
    at = module.error.at
    field = field_at(module, at)
    if field is not None and field.action is not None and field.action.at < at:
        begin = statement_at(field.action.body, at).at
        return read_before(module, cell, begin, lambda name: (at, at + len(cell), name))
    if field is not None and field.refinement is not None and field.refinement.first <= at:
        begin, end, _ = module.span(field.refinement)
        return tested_in_action(module, cell, module.index_at(begin) - 1, module.index_at(end))
    return ["mend: %s." % ELSEWHERE]
