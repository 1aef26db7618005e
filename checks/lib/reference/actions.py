"""Actions: their rules, and what they stand for: lists of ("set", cell, core), ("var", cell), ("if", test, one, other),
("return", core) and ("abort",)."""

from .expressions import type_alone
from .values import Core


class Actions:
    def __init__(self, elaborator, scope, taken):
        self.elaborator, self.known, self.breaches = elaborator, elaborator.known, elaborator.breaches
        self.taken, self.vars = taken, []
        self.scope = scope.copy()
        self.scope.start = self.scope.levels
        self.scope.levels += 1

    def action(self, tree):
        falls, returns, after = ways(tree.body)
        shaped = {"{:act": not returns, "{:check": not falls, "{:on-success": not (returns and falls)}[tree.word]
        self.breaches.note_if(after or not shaped, "Y4", tree.at)
        return self.block(tree.body, self.scope)

    def typing(self, scope):
        return self.elaborator.typing(scope)

    def cell_of(self, scope, name):
        """The cell and its bits (0 for a pointer) of `*p`; None where that is wrong."""
        found = self.known.find(scope, name[1])
        if found is None:
            self.breaches.note("N1", name[2])
        elif found.kind == "cell":
            return found.cell, found.bits
        else:
            self.breaches.note("N4", name[2])
        return None

    def slot_of(self, scope, name, field):
        found = self.known.find(scope, name[1])
        if found is None:
            self.breaches.note("N1", name[2])
            return None
        if found.kind == "row":
            for place, (slot, bits) in enumerate(found.slots):
                if slot == field[1]:
                    return found.cell + place, bits
        self.breaches.note("N4", name[2])
        return None

    def set(self, scope, target, right):
        if right.kind == "field_ptr":
            if target is not None:
                self.breaches.note_if(target[1] != 0, "Y1", right.at)
                return [("set", target[0], Core(kind="name", level=scope.start, type=32, most=2**32 - 1, at=right.at, parts=[]))]
            return []
        sort, core = self.typing(scope).walk(right)
        if target is not None and target[1] == 0:
            self.breaches.note("Y1", right.first)
            return []
        self.breaches.note_if(sort == "truth", "Y1", right.first)
        if target is None:
            return []
        self.breaches.note_if((type_alone(sort) or 0) > target[1], "Y2", right.first)
        return [("set", target[0], core)]

    def var(self, scope, tree):
        target = self.cell_of(scope, tree.cell)
        name = tree.name[1]
        if target is not None:
            self.breaches.note_if(target[1] == 0, "Y1", tree.star)
        self.breaches.note_if(name in self.taken or self.elaborator.is_literal(name), "N2", tree.name[2])
        self.taken.add(name)
        self.vars.append(name)
        if target is None:
            scope.names[name] = self.elaborator.no_number()
            return []
        scope.add_value(name, target[1] or 32, 2 ** (target[1] or 32) - 1)
        return [("var", target[0])]

    def statement(self, scope, tree):
        if tree.kind == "*":
            return self.set(scope, self.cell_of(scope, tree.name), tree.right)
        if tree.kind == "->":
            return self.set(scope, self.slot_of(scope, tree.name, tree.field), tree.right)
        if tree.kind == "var":
            return self.var(scope, tree)
        if tree.kind == "abort":
            return [("abort",)]
        typing = self.typing(scope)
        sort, core = typing.walk(tree.test if tree.kind == "if" else tree.value)
        typing.wanted(tree.test if tree.kind == "if" else tree.value, sort, True)
        if tree.kind == "return":
            return [("return", core)]
        return [("if", core, self.block(tree.one, scope), self.block(tree.other, scope))]

    def block(self, statements, scope):
        scope, found = scope.copy(), []
        for tree in statements:
            found += self.statement(scope, tree)
        return found


def ways(statements):
    """Whether a path falls off the end, whether one returns, and whether a statement follows a `return` or `abort`."""
    falls, returns, after = True, False, False
    for place, tree in enumerate(statements):
        if tree.kind in ("return", "abort"):
            returns = returns or (falls and tree.kind == "return")
            falls = False
            after = after or place + 1 < len(statements)
        elif tree.kind == "if":
            one, other = ways(tree.one), ways(tree.other)
            returns = returns or (falls and (one[1] or other[1]))
            after = after or one[2] or other[2]
            falls = falls and (one[0] or other[0])
    return falls, returns, after
