"""Canonical text: what `td tidy` writes of a module."""

from .modules import module_of, parts_of_module
from .tokens import NUMBER
from .trees import COMPARISONS, LEVELS

CHOICE, UNARY, PRIMARY = -1, len(LEVELS), len(LEVELS) + 1
LEVEL_OF = {operator: level for level, operators in enumerate(LEVELS) for operator in operators}
BLANKS = "    "


def level_of(tree):
    if tree.kind in LEVEL_OF and len(tree.parts) == 2:
        return LEVEL_OF[tree.kind]
    return {"choice": CHOICE, "!": UNARY, "~": UNARY}.get(tree.kind, PRIMARY)


class Writer:
    """Writes trees; a number's base stands in their text alone."""

    def __init__(self, text):
        self.text = text

    # ---- Expressions.

    def number(self, at):
        spelling = NUMBER.match(self.text, at).group().decode().lower()
        base, digits = ("0x", spelling[2:]) if spelling.startswith("0x") else ("", spelling)
        return base + (digits.lstrip("0") or "0")

    def fitted(self, tree, least):
        """An operand, in parentheses where it binds looser than its place lets it."""
        written = self.expression(tree)
        return written if level_of(tree) >= least else "(%s)" % written

    def expression(self, tree):
        level = level_of(tree)
        if level == CHOICE:
            test, one, other = tree.parts
            return "%s ? %s : %s" % (self.fitted(test, 0), self.expression(one), self.expression(other))
        if level == UNARY:
            return tree.kind + self.fitted(tree.parts[0], UNARY)
        if level < UNARY:
            left, right = tree.parts
            least = level + (level in COMPARISONS)
            return "%s %s %s" % (self.fitted(left, least), tree.kind, self.fitted(right, level + 1))
        if tree.kind == "is_range_okay":
            return "is_range_okay(%s)" % ", ".join(map(self.expression, tree.parts))
        if tree.kind == "sizeof":
            return "sizeof(%s)" % tree.operand[1]
        return self.number(tree.at) if tree.kind == "NUM" else "field_ptr" if tree.kind == "field_ptr" else str(tree.value)

    def constant(self, token):
        return self.number(token[2]) if token[0] == "NUM" else token[1]

    # ---- Statements.

    def block(self, statements):
        return "{ %s}" % "".join(self.statement(tree) + " " for tree in statements)

    def statement(self, tree):
        if tree.kind == "*":
            return "*%s = %s;" % (tree.name[1], self.expression(tree.right))
        if tree.kind == "->":
            return "%s->%s = %s;" % (tree.name[1], tree.field[1], self.expression(tree.right))
        if tree.kind == "var":
            return "var %s = *%s;" % (tree.name[1], tree.cell[1])
        if tree.kind == "return":
            return "return %s;" % self.expression(tree.value)
        if tree.kind == "abort":
            return "abort;"
        other = " else " + self.block(tree.other) if tree.has_other else ""
        return "if (%s) %s%s" % (self.expression(tree.test), self.block(tree.one), other)

    # ---- Definitions.

    def in_parentheses(self, trees, written):
        return "(%s)" % ", ".join(map(written, trees)) if trees else ""

    def field(self, field):
        words = field.type[1] + self.in_parentheses(field.arguments, self.expression) + " " + field.name[1]
        if field.array is not None:
            words += field.array + ("" if field.array == "[" else " ") + self.expression(field.size) + "]"
        if field.width is not None:
            words += " : " + self.constant(field.width)
        if field.source is not None:
            words += " = " + self.source(field.source)
        if field.refinement is not None:
            words += " { %s }" % self.expression(field.refinement)
        if field.action is not None:
            words += " %s%s}" % (field.action.word, "".join(" " + self.statement(tree) for tree in field.action.body))
        if field.copy is not None:
            words += " {:copy %s}" % field.copy.name[1]
        return words + ";"

    def source(self, tree):
        return "*" + tree.cell[1] if tree.kind == "cell" else self.expression(tree)

    def fields(self, fields, blanks):
        return "".join("%s%s\n" % (blanks, self.field(field)) for field in fields)

    def parameter(self, tree):
        if not tree.mutable:
            return "%s %s" % (tree.type[1], tree.name[1])
        return "mutable %s *%s" % (tree.type[1], tree.name[1]) + ("" if tree.room is None else "[%s]" % self.constant(tree.room))

    def head(self, tree, words):
        entry = "entrypoint " if tree.entry else ""
        guard = "" if tree.guard is None else " where " + self.expression(tree.guard)
        return "%s%s %s%s%s {\n" % (entry, words, tree.tag[1], self.in_parentheses(tree.parameters, self.parameter), guard)

    def struct(self, tree):
        return self.head(tree, "typedef struct") + self.fields(tree.fields, BLANKS)

    def casetype(self, tree):
        lines = self.head(tree, "casetype") + "%sswitch (%s) {\n" % (BLANKS, self.expression(tree.switch))
        for case in tree.cases:
            lines += "%scase %s:\n" % (2 * BLANKS, self.constant(case.value)) + self.fields(case.fields, 3 * BLANKS)
        if tree.default is not None:
            lines += "%sdefault:\n" % (2 * BLANKS) + self.fields(tree.default, 3 * BLANKS)
        return lines + BLANKS + "}\n"

    def output(self, tree):
        slots = "".join("%s%s %s;\n" % (BLANKS, slot.type[1], slot.name[1]) for slot in tree.slots)
        return "output typedef struct %s {\n" % tree.tag[1] + slots

    def enum(self, tree):
        items = [item.name[1] + ("" if item.value is None else " = " + self.constant(item.value)) for item in tree.items]
        return "%s enum %s {\n%s\n}\n" % (tree.base[1], tree.name[1], ",\n".join(BLANKS + item for item in items))

    def definition(self, tree):
        if tree.kind == "define":
            return "#define %s %s\n" % (tree.name[1], self.constant(tree.value))
        if tree.kind == "alias":
            return "typedef %s %s;\n" % (tree.target[1], tree.name[1])
        if tree.kind == "enum":
            return self.enum(tree)
        return getattr(self, tree.kind)(tree) + "} %s;\n" % tree.name[1]

    def part(self, part):
        line = "" if part.name is None else "module %s\n\n" % part.name[1]
        return line + "\n".join(map(self.definition, part.definitions))


def canonical(text):
    """The canonical text of a module that is accepted: parts as they stand in the text."""
    module_of(text)
    writer = Writer(text)
    return "\n".join(map(writer.part, parts_of_module(text)))
