"""What is written instead of definitions that the grammar doesn't have. A rule gives None where it doesn't fit."""

import ast

from types import SimpleNamespace as Advice

# The first words of what other languages have in a definition's place.
FIRST_WORDS = {
    "extern": "There is no `extern`: deliver what the function needs by an out-parameter, and call it when the message was accepted.",
    "static_assert": "There are no static assertions: write a `where` over constants, as `where (sizeof(H) == 6)`.",
    "module": "A text is one module, or it has parts alone: begin the definitions before this one by `module` and a name, too.",
    "open": "Names of another part aren't opened: take this line out, and write `Base.T` for the `T` of the part `Base`.",
    "export": "There is no `export`: take the word out.",
    "aligned": "There is no `aligned`: take the word out, and write C's padding as fields, as `UINT8 padding[3];`.",
    "generic": "There are no generic types: write a type for each.",
    "specialize": "There are no pointers, and so no `specialize`: write a type for each.",
    "refining": "There is no `refining`: take it out, with the assertions that it makes.",
    "message": "A message is a struct: `typedef struct _T { .. } T;`. Its fields stand in the order of the bytes.",
    "syntax": "This isn't protobuf: take the line out, and write each message as `typedef struct _T { .. } T;`.",
    "package": "There are no packages: take the line out.",
    "import": "There is one text: put the other file's definitions first, and take this line out.",
    "option": "There are no options: take the line out.",
    "const": "A constant is `#define NAME NUMBER`.",
    "static": "There are no functions and variables: a constant is `#define NAME NUMBER`.",
    "union": "There are no unions: write a casetype, whose switch says which member is there.",
    "noextract": "Take the word out.",
    "inline": "There are no functions: write the expression out where it is used.",
}


def advise(said, *edits):
    return Advice(said=said, edits=edits)


def name_behind(here, opening):
    """The name after the brace that closes the one at an offset."""
    closing = here.matching(opening)
    if closing is not None and here.kind_at(closing + 1) == "NAME":
        return here.word(closing + 1)
    return None


def tag_missing(here):
    if here.kind != "{" or here.word(-1) not in ("struct", "casetype"):
        return None
    name = name_behind(here, 0) or "T"
    said = "A %s has a tag before its brace, which nothing names again: write `%s _%s {`." % (here.word(-1), here.word(-1), name)
    return advise(said, (here.begin(), here.begin(), "_%s " % name))


def enum_without_type(here):
    if here.kind != "enum":
        return None
    named = here.kind_at(1) == "NAME"
    opening = 2 if named else 1
    behind = name_behind(here, opening)
    name = behind or (here.word(1) if named else "T")
    said = "An enum begins with its number type, and its name stands before the brace: write `UINT8 enum %s { .. }`." % name
    begin = here.begin(-1) if here.word(-1) == "typedef" else here.begin()
    closing = here.matching(opening)
    edits = [(begin, here.end(opening), "UINT8 enum %s {" % name)]
    if behind and closing is not None:
        edits.append((here.begin(closing + 1), here.end(closing + 1), ""))
    return advise(said, *edits)


def members_of(here, opening):
    """The members of a union of plain fields: their texts; None where one isn't plain."""
    closing, members, first = here.matching(opening), [], opening + 1
    if closing is None:
        return None
    for at in range(opening + 1, closing):
        if here.kind_at(at) == ";":
            members.append(here.source(first, at))
            first = at + 1
    return members or None


def union(here):
    if here.kind != "{" or "union" not in (here.word(-1), here.word(-2)):
        return None
    name = name_behind(here, 0) or "U"
    members = members_of(here, 0) or ["UINT8 a;", "UINT16 b;"]
    cases = " ".join("case %d: %s" % row for row in enumerate(members))
    text = "casetype _%s(UINT8 kind) { switch (kind) { %s } } %s;" % (name, cases, name)
    said = "There are no unions: a number says which member is there, and a casetype takes it: `%s`." % text
    closing = here.matching(0)
    if here.innermost() != "definition" or closing is None:
        return advise(said)
    first = here.first_of("definition")
    return advise(said, (here.begin(first), here.end(closing + 2), text))


def constant_value(here):
    """What stands in the place of a constant's number."""
    if here.word(-2) != "#define" or here.kind_at(-1) != "NAME":
        return None
    name = here.word(-1)
    if here.kind == "-" and here.kind_at(1) == "NUM":
        value = here.module.token(here.index + 1)[1]
        bits = 16 if value <= 2**15 else 64
        number = hex(-value % 2**bits)
        said = "There are no negative numbers: write what its bytes hold, of %d bits `#define %s %s`." % (bits, name, number)
        return advise(said, (here.begin(), here.end(1), number))
    if here.kind == "sizeof":
        closing = here.matching(1)
        said = "A constant is a number alone: write `%s` where %s is used, or the number that it is." % (here.source(0, closing or 0), name)
        return advise(said, *size_edit(here, closing))
    if here.kind in ("true", "false"):
        return advise("A constant is a number, and no truth value: write `%s` itself where %s is used." % (here.word(), name))
    if here.kind in ("(", "~", "+") or here.kind == "NAME" and here.begin() <= end_of_line(here):
        return one_number(here, name, 0)
    return advise("A constant needs a number: write `#define %s 1`, or take the line out; there is no `#if`." % name)


def size_edit(here, closing):
    widths = {"UINT8": 1, "UINT16": 2, "UINT32": 4, "UINT64": 8}
    width = widths.get(here.word(2).removesuffix("BE"))
    return [(here.begin(), here.end(closing), str(width))] if width and closing is not None else []


def after_constant(here):
    """What stands after a constant's number."""
    if here.word(-3) != "#define" or here.kind_at(-1) != "NUM" or here.innermost() != "definition":
        return None
    name, number = here.word(-2), here.word(-1)
    if here.kind == ";":
        return advise("No `;` stands after a constant: write `#define %s %s`." % (name, number), (here.begin(), here.end(), ""))
    return one_number(here, name, -1) if here.kind in OPERATORS else None


def end_of_line(here):
    """The end of the line on which the token before stands."""
    end = here.module.text.find(b"\n", here.begin(-1))
    return end if end >= 0 else len(here.module.text)


def one_number(here, name, first):
    """A constant that an expression is to make: its tokens are those of the line, from an offset on."""
    end, last = end_of_line(here), first
    while here.kind_at(last + 1) in (*OPERATORS, "NUM", "NAME", "(", ")", "~") and here.begin(last + 1) < end:
        last += 1
    value = worked_out(here, first, last)
    if value is None:
        return advise("A constant is one number, in digits: the one that `%s` makes." % here.source(first, last))
    alone = first == last or (here.kind_at(first) == "(" and first + 2 == last)
    said = "A constant is a number alone: write `#define %s %s`." if alone else "A constant is one number: the one that this makes, written `#define %s %s`."
    return advise(said % (name, value), (here.begin(first), here.end(last), str(value)))


OPERATORS = ("+", "-", "*", "/", "%", "<<", ">>", "|", "&", "^")
# What Python's reader of expressions calls them. Its levels are C's.
WORK = {
    ast.Add: lambda a, b: a + b, ast.Sub: lambda a, b: a - b, ast.Mult: lambda a, b: a * b, ast.FloorDiv: lambda a, b: a // b, ast.Mod: lambda a, b: a % b,
    ast.LShift: lambda a, b: a << b if b < 64 else None, ast.RShift: lambda a, b: a >> b, ast.BitOr: lambda a, b: a | b, ast.BitAnd: lambda a, b: a & b,
    ast.BitXor: lambda a, b: a ^ b,
}  # fmt: skip
LONGEST_SUM = 40


def worked_out(here, first, last):
    """The value of a short expression of numbers and of constants before it; None where it isn't a number of 64 bits at each step."""
    before, words = constants_before(here), []
    for offset in range(first, last + 1):
        kind, value, _ = here.module.token(here.index + offset)
        value = before.get(value) if kind == "NAME" else value
        if kind in ("NUM", "NAME") and value is None:
            return None
        words.append(str(value) if kind in ("NUM", "NAME") else "//" if kind == "/" else kind)
    try:
        return number_of(ast.parse(" ".join(words), mode="eval").body) if len(words) <= LONGEST_SUM else None
    except (SyntaxError, ArithmeticError, ValueError):
        return None


def number_of(tree):
    """The value of an expression that Python read."""
    if isinstance(tree, ast.Constant):
        return tree.value
    if not isinstance(tree, ast.BinOp):
        return None
    left, right = number_of(tree.left), number_of(tree.right)
    value = WORK[type(tree.op)](left, right) if left is not None and right is not None else None
    return value if value is not None and 0 <= value < 2**64 else None


def constants_before(here):
    """The constants that are defined before the place, by name."""
    module, found = here.module, {}
    for index in range(here.index - 2):
        if module.token(index)[0] == "#define" and module.token(index + 2)[0] == "NUM":
            found.setdefault(module.token(index + 1)[1], module.token(index + 2)[1])
    return found


def struct_without_typedef(here):
    if here.kind != "struct" or here.innermost() != "definition" or "typedef" not in here.asked:
        return None
    is_entry = here.word(-1) == "entrypoint"
    tagged = here.kind_at(1) == "NAME"
    tag = here.word(1) if tagged else "T"
    behind = name_behind(here, 2 if tagged else 1)
    begun = "entrypoint typedef" if is_entry else "typedef"
    if behind or is_entry:
        return advise("A struct is defined by `%s struct _T { .. } T;`." % begun, (here.begin(), here.begin(), "typedef "))
    opening = 2 if tagged else 1
    closing = here.matching(opening)
    said = "A struct is defined by `typedef struct _%s { .. } %s;`: its name stands at its end, too." % (tag, tag)
    edits = [(here.begin(), here.end(opening), "typedef struct _%s {" % tag)]
    edits += [(here.end(closing), here.end(closing), " " + tag)] if closing is not None else []
    return advise(said, *edits)


def other_module(here):
    """`module B = Base`."""
    if here.kind != "=" or here.word(-2) != "module" or here.kind_at(-1) != "NAME":
        return None
    other = here.word(1)
    said = "A part has the name that stands behind `module`, and no other: take this line out, and write `%s.T` for the `T` of the part `%s`."
    return advise(said % (other, other))


def first_word(here):
    """A word that begins a definition in another language."""
    if here.innermost() != "definition" or here.kind != "NAME" or "typedef" not in here.asked:
        return None
    said = FIRST_WORDS.get(here.word())
    if said:
        return advise(said)
    if here.word(-1) == "entrypoint":
        return advise("After `entrypoint` a struct or a casetype is defined: `entrypoint typedef struct _T { .. } T;`.")
    if here.kind_at(1) in ("NAME", "INT") or here.kind_at(1) == "(":
        return advise("Each definition begins with `typedef`, `casetype`, `output`, `entrypoint`, `#define` or a number type; there are no functions.")
    return None


def function(here):
    """`UINT32 twice(..)`."""
    if here.kind_at(-1) == "INT" and here.innermost() == "enum" and here.kind == "NAME":
        return advise(
            "A number type begins a definition only where an enum follows, `%s enum T { .. }`: there are no functions and variables, so"
            " write the expression where it is used, or `#define NAME NUMBER`." % here.word(-1)
        )
    return None


def other_names(here):
    """`} S, *PS;` and `typedef UINT8 T[4];`."""
    if here.kind == "," and here.kind_at(-1) == "NAME" and here.kind_at(-2) == "}":
        end = here.up_to(";")
        edits = [(here.begin(), here.begin(end), "")] if end is not None else []
        return advise("A type has one name, and there are no pointers to it: write `} %s;`." % here.word(-1), *edits)
    if here.kind == "[" and here.innermost() == "definition":
        return advise("Another name is of a type that stands alone: put the array in a struct, `typedef struct _T { UINT8 bytes[4]; } T;`.")
    return None


def record_bits(here):
    if here.kind == ":" and here.innermost() == "output":
        end = here.up_to(";")
        edits = [(here.begin(), here.begin(end), "")] if end is not None else []
        return advise("A record's field has no bit width: a number for each, `%s;`." % here.source(-2, -1), *edits)
    if here.innermost() == "output" and "PUINT8" in here.asked and here.kind == "NAME":
        return advise("A record's fields are of number types or `PUINT8`: write the fields of `%s` here." % here.word())
    return None


def parameter_star(here):
    """`UINT8 *p` without `mutable`, `mutable UINT8 p` without a star."""
    if here.innermost() != "parameter":
        return None
    if here.kind == "*" and here.kind_at(-1) in ("NAME", "INT"):
        said = "A parameter is a number, or by `mutable` a cell to which actions store: write `mutable %s *%s`." % (here.word(-1), here.word(1))
        return advise(said, (here.begin(-1), here.begin(-1), "mutable "))
    if here.kind == "NAME" and "*" in here.asked and here.word(-2) == "mutable":
        said = "What is `mutable` has a star before its name: write `mutable %s *%s`." % (here.word(-1), here.word())
        return advise(said, (here.begin(), here.begin(), "*"))
    return None


def parameters_empty(here):
    if here.kind == ")" and here.word(-1) == "(" and here.innermost() in ("parameter", "head"):
        return advise("Without parameters there are no parentheses.", (here.begin(-1), here.end(), ""))
    return None


def marker(here):
    """The line `%%` of an input with a job."""
    if here.kind == "%" and here.kind_at(1) == "%" and here.innermost() == "definition":
        return advise("A line `%%` divides the module from a job in an input of `td run` and `td host`: `td check` takes the module alone.")
    return None


RULES = [
    marker,
    tag_missing,
    enum_without_type,
    union,
    constant_value,
    after_constant,
    struct_without_typedef,
    other_module,
    first_word,
    function,
    other_names,
    record_bits,
    parameter_star,
    parameters_empty,
]
