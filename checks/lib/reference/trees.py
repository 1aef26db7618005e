"""Trees: the whole grammar by one token ahead. A place is the byte at which a token begins."""

from types import SimpleNamespace as Tree

from limits import MOST_BRACES, MOST_OPERATORS

from .errors import ModuleError
from .tokens import ACTION_WORDS, ARRAY_WORDS, COPY_WORD

# From the loosest; comparisons don't chain.
LEVELS = ["||"], ["&&"], ["|"], ["^"], ["&"], ["==", "!="], ["<", "<=", ">", ">="], ["<<", ">>"], ["+", "-"], ["*", "/", "%"]
COMPARISONS = (5, 6)


class Parser:
    def __init__(self, tokens, end):
        self.tokens, self.end, self.place = tokens, end, 0
        self.counted, self.braces = 0, 0
        self.qualified = []

    def at(self):
        return self.tokens[self.place][2] if self.place < len(self.tokens) else self.end

    def next_is(self, *kinds):
        return self.place < len(self.tokens) and self.tokens[self.place][0] in kinds

    def take(self, *kinds):
        if not self.next_is(*kinds):
            raise ModuleError("P1", self.at(), "unexpected token")
        self.place += 1
        return self.tokens[self.place - 1]

    def take_if(self, *kinds):
        return self.take(*kinds) if self.next_is(*kinds) else None

    def take_named(self, *kinds):
        """One of these tokens. A NAME may go on with a dot and a second one: together they are a NAME at the place of the first."""
        kind, spelling, at = self.take(*kinds)
        if kind == "NAME" and self.take_if("."):
            self.qualified.append((spelling, at))
            spelling += "." + self.take("NAME")[1]
        return kind, spelling, at

    def take_counted(self, *kinds):
        """An operator or an opening parenthesis of an expression."""
        if self.next_is(*kinds) and self.counted == MOST_OPERATORS:
            raise ModuleError("P2", self.at(), "too deep")
        token = self.take(*kinds)
        self.counted += 1
        return token

    # ---- Expressions.

    def whole(self):
        """An expression that is part of no other."""
        self.counted = 0
        return self.expression()

    def expression(self):
        test = self.level(0)
        if not self.next_is("?"):
            return test
        mark = self.take_counted("?")
        one = self.expression()
        self.take(":")
        other = self.expression()
        return Tree(kind="choice", first=test.first, at=mark[2], parts=[test, one, other])

    def level(self, depth):
        if depth == len(LEVELS):
            return self.unary()
        left = self.level(depth + 1)
        while self.next_is(*LEVELS[depth]):
            operator = self.take_counted(*LEVELS[depth])
            right = self.level(depth + 1)
            left = Tree(kind=operator[0], first=left.first, at=operator[2], parts=[left, right])
            if depth in COMPARISONS:
                break
        return left

    def unary(self):
        operators = []
        while self.next_is("!", "~"):
            operators.append(self.take_counted("!", "~"))
        tree = self.primary()
        for operator in reversed(operators):
            tree = Tree(kind=operator[0], first=operator[2], at=operator[2], parts=[tree])
        return tree

    def primary(self):
        if self.next_is("("):
            opening = self.take_counted("(")
            inner = self.expression()
            self.take(")")
            return Tree(**{**vars(inner), "first": opening[2]})
        token = self.take_named("NUM", "true", "false", "NAME", "field_pos", "sizeof", "is_range_okay", "(")
        tree = Tree(kind=token[0], first=token[2], at=token[2], value=token[1], parts=[])
        if token[0] == "sizeof":
            self.take_counted("(")
            tree.operand = self.take_named("INT", "NAME", "this")
            self.take(")")
        if token[0] == "is_range_okay":
            self.take_counted("(")
            for closing in (",", ",", ")"):
                tree.parts.append(self.expression())
                self.take(closing)
        return tree

    # ---- Statements.

    def brace(self):
        if self.next_is("{") and self.braces == MOST_BRACES:
            raise ModuleError("P2", self.at(), "too deep")
        self.take("{")
        self.braces += 1

    def block(self):
        self.brace()
        statements = self.statements()
        self.take("}")
        self.braces -= 1
        return statements

    def statements(self):
        found = []
        while not self.next_is("}"):
            found.append(self.statement())
        return found

    def statement(self):
        token = self.take("*", "NAME", "var", "if", "return", "abort")
        tree = Tree(kind=token[0], at=token[2])
        if token[0] == "if":
            self.take("(")
            tree.test = self.whole()
            self.take(")")
            tree.one = self.block()
            tree.has_other = self.take_if("else") is not None
            tree.other = self.block() if tree.has_other else []
            return tree
        if token[0] == "*":
            tree.name = self.take("NAME")
            tree.right = self.right()
        elif token[0] == "NAME":
            tree.kind, tree.name = "->", token
            self.take("->")
            tree.field = self.take("NAME")
            tree.right = self.right()
        elif token[0] == "var":
            tree.name = self.take("NAME")
            self.take("=")
            tree.star = self.take("*")[2]
            tree.cell = self.take("NAME")
        elif token[0] == "return":
            tree.value = self.whole()
        self.take(";")
        return tree

    def right(self):
        self.take("=")
        pointer = self.take_if("field_ptr")
        return Tree(kind="field_ptr", first=pointer[2], at=pointer[2], parts=[]) if pointer else self.whole()

    # ---- Definitions.

    def arguments(self):
        found = []
        if self.take_if("("):
            found.append(self.whole())
            while self.take_if(","):
                found.append(self.whole())
            self.take(")")
        return found

    def field(self):
        base = self.take_named("INT", "unit", "all_bytes", "all_zeros", "NAME")
        tree = Tree(type=base, arguments=self.arguments() if base[0] == "NAME" else [])
        tree.name = self.take("NAME")
        tree.array, tree.size, tree.width, tree.refinement, tree.action, tree.copy = None, None, None, None, None, None
        tree.source = None
        if self.next_is("[", *ARRAY_WORDS):
            tree.array = self.take("[", *ARRAY_WORDS)[0]
            tree.size = self.whole()
            self.take("]")
        elif self.take_if(":"):
            tree.width = self.take("NUM")
        elif self.take_if("="):
            tree.source = self.source()
        if self.take_if("{"):
            tree.refinement = self.whole()
            self.take("}")
        if self.next_is(*ACTION_WORDS):
            word = self.take(*ACTION_WORDS)
            tree.action = Tree(word=word[0], at=word[2], body=self.statements())
            self.take("}")
        elif self.next_is(COPY_WORD):
            tree.copy = Tree(at=self.take(COPY_WORD)[2], name=self.take("NAME"))
            self.take("}")
        self.take(";")
        return tree

    def source(self):
        """What gives a field without bytes its value: a cell's content, or an expression."""
        star = self.take_if("*")
        if star:
            return Tree(kind="cell", first=star[2], at=star[2], cell=self.take("NAME"), parts=[])
        return self.whole()

    def fields(self, *ends):
        found = [self.field()]
        while not self.next_is(*ends):
            found.append(self.field())
        return found

    def head(self):
        parameters, guard = [], None
        if self.take_if("("):
            parameters.append(self.parameter())
            while self.take_if(","):
                parameters.append(self.parameter())
            self.take(")")
        if self.take_if("where"):
            guard = self.whole()
        return parameters, guard

    def parameter(self):
        if self.take_if("mutable"):
            cell = self.take_named("INT", "PUINT8", "NAME")
            self.take("*")
            return Tree(mutable=True, type=cell, name=self.take("NAME"), room=self.room() if cell[1] == "UINT8" else None)
        return Tree(mutable=False, type=self.take_named("INT", "NAME"), name=self.take("NAME"), room=None)

    def room(self):
        """The constant that makes a parameter a copy buffer, where one stands there."""
        if not self.take_if("["):
            return None
        room = self.constant()
        self.take("]")
        return room

    def constant(self):
        return self.take_named("NUM", "NAME")

    def named_end(self, tree):
        self.take("}")
        tree.name = self.take("NAME")
        self.take(";")
        return tree

    def struct(self, entry):
        self.take("struct")
        tree = Tree(kind="struct", entry=entry, tag=self.take("NAME"))
        tree.parameters, tree.guard = self.head()
        self.take("{")
        tree.fields = self.fields("}")
        return self.named_end(tree)

    def casetype(self, entry):
        self.take("casetype")
        tree = Tree(kind="casetype", entry=entry, tag=self.take("NAME"), cases=[], default=None)
        tree.parameters, tree.guard = self.head()
        for kind in ("{", "switch", "("):
            self.take(kind)
        tree.switch = self.whole()
        self.take(")")
        self.take("{")
        while not tree.cases or self.next_is("case"):
            self.take("case")
            value = self.constant()
            self.take(":")
            tree.cases.append(Tree(value=value, fields=self.fields("case", "default", "}")))
        if self.take_if("default"):
            self.take(":")
            tree.default = self.fields("}")
        self.take("}")
        return self.named_end(tree)

    def enum(self):
        tree = Tree(kind="enum", base=self.take("INT"), items=[])
        self.take("enum")
        tree.name = self.take("NAME")
        self.take("{")
        while not tree.items or not self.next_is("}"):
            name = self.take("NAME")
            tree.items.append(Tree(name=name, value=self.constant() if self.take_if("=") else None))
            if not self.take_if(","):
                break
        self.take("}")
        self.take_if(";")
        return tree

    def output(self):
        for kind in ("output", "typedef", "struct"):
            self.take(kind)
        tree = Tree(kind="output", tag=self.take("NAME"), slots=[])
        self.take("{")
        while not tree.slots or not self.next_is("}"):
            base = self.take("INT", "PUINT8")
            tree.slots.append(Tree(type=base, name=self.take("NAME")))
            self.take(";")
        return self.named_end(tree)

    def definition(self):
        if self.next_is("INT"):
            return self.enum()
        if self.next_is("output"):
            return self.output()
        if self.next_is("casetype"):
            return self.casetype(False)
        if self.take_if("#define"):
            name = self.take("NAME")
            return Tree(kind="define", name=name, value=self.take("NUM"))
        if self.take_if("entrypoint"):
            if self.next_is("casetype"):
                return self.casetype(True)
            self.take("typedef")
            return self.struct(True)
        self.take("typedef")
        if self.next_is("struct"):
            return self.struct(False)
        target = self.take_named("INT", "NAME")
        tree = Tree(kind="alias", target=target, name=self.take("NAME"))
        self.take(";")
        return tree

    def begins_part(self):
        """Whether the word `module` stands here: a NAME, which begins a part where a definition may stand."""
        return self.place < len(self.tokens) and self.tokens[self.place][:2] == ("NAME", "module")

    def part(self):
        """A part: its name, its definitions, and the qualified names in it, each as its first name and the place."""
        self.take("NAME")
        tree = Tree(name=self.take("NAME"), definitions=[])
        self.qualified = []
        while self.place < len(self.tokens) and not self.begins_part():
            tree.definitions.append(self.definition())
        tree.qualified = self.qualified
        return tree

    def input(self):
        """The parts of an input. A module is one without a name."""
        found = []
        if not self.begins_part():
            while self.place < len(self.tokens):
                found.append(self.definition())
            return [Tree(name=None, definitions=found, qualified=self.qualified)]
        while self.place < len(self.tokens):
            found.append(self.part())
        return found
