"""Help on N1 to N5: names."""

import difflib

from reference.sizes import tree_fields
from reference.tokens import NUMBER_TYPES

from . import given
from .spelling import free_name, many, names_in, parameter_text, quoted, spelled, word_at

TYPES_OF_OTHERS = {
    "uint8_t": "UINT8", "uint16_t": "UINT16", "uint32_t": "UINT32", "uint64_t": "UINT64",
    "u8": "UINT8", "u16": "UINT16", "u32": "UINT32", "u64": "UINT64", "__u8": "UINT8", "__u16": "UINT16", "__u32": "UINT32", "__u64": "UINT64",
    "__be16": "UINT16BE", "__be32": "UINT32BE", "__be64": "UINT64BE", "__le16": "UINT16", "__le32": "UINT32", "__le64": "UINT64",
    "UCHAR": "UINT8", "BYTE": "UINT8", "CHAR": "UINT8", "USHORT": "UINT16", "WORD": "UINT16", "ULONG": "UINT32", "DWORD": "UINT32",
    "ULONGLONG": "UINT64", "ULONG64": "UINT64", "QWORD": "UINT64", "char": "UINT8", "short": "UINT16", "int": "UINT32", "long": "UINT64",
    "uint32": "UINT32", "uint64": "UINT64", "fixed32": "UINT32", "fixed64": "UINT64", "int32": "UINT32", "int64": "UINT64",
    "int8_t": "UINT8", "int16_t": "UINT16", "int32_t": "UINT32", "int64_t": "UINT64", "size_t": "UINT64",
}  # fmt: skip
TRUTH = ("Bool", "bool", "BOOLEAN", "_Bool", "BOOL")
OTHER_NAMES = {
    "field_pos_32": "field_pos", "field_pos_64": "field_pos", "true_": "true", "TRUE": "true", "FALSE": "false", "True": "true", "False": "false",
    "NULL": "0", "PUINT16": "PUINT8", "PUINT32": "PUINT8",
}  # fmt: skip
SEQUENCES = {"string", "bytes", "str", "varint", "float", "double"}
NEAR, MOST_NEAR, MOST_NAMES = 0.6, 3, 12


def parts_of(tree):
    """The names that a definition declares within itself: (name token, the words for it, the list in which it must be alone)."""
    for parameter in getattr(tree, "parameters", []):
        yield parameter.name, "parameter", None
    for number, fields in enumerate(tree_fields(tree)):
        for field in fields:
            yield field.name, "field", number
            for name in vars_of(field.action.body if field.action else []):
                yield name, "`var`", None
    for slot in getattr(tree, "slots", []):
        yield slot.name, "field", 0


def vars_of(statements):
    for statement in statements:
        if statement.kind == "var":
            yield statement.name
        for inner in ("one", "other"):
            yield from vars_of(getattr(statement, inner, []))


def tag_of(module, tree):
    """The tag of a definition."""
    for found, first, last in module.parser.definitions:
        if found is tree:
            return next((module.token(at)[1] for at in range(first, last) if module.token(at - 1)[0] in ("struct", "casetype")), None)
    return None


def names_here(module):
    """The names that may be known at the place: those in scope, and those of definitions before it."""
    watch, at = module.watch, module.error.at
    scopes = [scope for _, _, scope in watch.walked] + [found[1] for found in [watch.field_at] if found]
    local = set().union(*[scope.names for scope in scopes]) if scopes else set()
    return local, {name for name, place in own_names(module).items() if place < at}


def own_names(module):
    """The names that the part of the refusal defines, by their places; all of a module without parts."""
    begun = module.full("")
    return {name[len(begun) :]: place for name, place in module.watch.first_places.items() if name.startswith(begun) and "." not in name[len(begun) :]}


def names_of_part(module, part):
    """The names that a part defines, each by its place."""
    begun = part + "."
    return {name[len(begun) :]: place for name, place in module.watch.first_places.items() if name.startswith(begun)}


def unknown_qualified(module):
    """Of a qualified name: there is no such part, or it has no such name."""
    at = module.error.at
    part, _, name = module.name_at(at).partition(".")
    parts = [found.name[1] for found in module.parts if found.name is not None]
    local, known = names_here(module)
    if part in local and part not in parts:
        return [
            "A field of a field has no name here: `%s` is validated as a type of its own, which tells nothing but that it was accepted." % part,
            "mend: write the fields of `%s` in this struct, and name `%s`; or hand what its test needs to its type as an argument." % (part, name),
        ]
    if not parts and name in known:
        return ["This text is one module, and its names have no dot.", "mend: write `%s`." % name]
    if not parts:
        return [
            "`%s.%s` is the name `%s` of a part `%s`, and this text is one module without parts." % (part, name, name, part),
            "mend: begin each part of the text by `module` and its name; `td-link` does so with several files.",
        ]
    if part not in parts:
        near = difflib.get_close_matches(part, parts, 1, NEAR)
        said = "No part of this text is called `%s`; its parts are %s." % (part, quoted(parts[:MOST_NAMES]))
        does = near and module.mends((at, at + len(part), near[0]))
        return [said, "mend: write `%s.%s`." % (near[0], name) if does else "mend: add it to the text: `module %s`, and its definitions." % part]
    names = names_of_part(module, part)
    near = difflib.get_close_matches(name, names, 1, NEAR)
    lines = ["The part `%s` defines no `%s`; it defines %s." % (part, name, quoted(list(names)[:MOST_NAMES]) or "nothing")]
    return lines + ["mend: write `%s.%s`." % (part, near[0]) if near else "mend: define `%s` in the part `%s`." % (name, part)]


def name_of_another_part(module, word):
    """Of a plain name that another part defines; none where no part does."""
    own = module.part_at(module.error.at)
    for part in [found.name[1] for found in module.parts if found.name is not None and found.name[1] != own]:
        if word in names_of_part(module, part):
            place, new = names_of_part(module, part)[word], "%s.%s" % (part, word)
            lines = ["`%s` is defined in the part `%s`, at %s: a plain name is looked up in its own part." % (word, part, module.place(place))]
            does = module.mends((module.error.at, module.error.at + len(word), new))
            return lines + ["mend: write `%s`." % new if does else "mend: define it here, too, or in a part that both use."]
    return []


def part_twice(module):
    word, at = module.name_at(module.error.at), module.error.at
    first = next(part.name[2] for part in module.parts if part.name[1] == word)
    assert first < at
    return [
        "A part `%s` stands first at %s." % (word, module.place(first)),
        "mend: put these definitions into it, or give this part another name, as `%s`, here and where it is meant." % free_name(module, word),
    ]


def module_cycle(module):
    """The way by uses from the part that is named back to the one in which the name stands."""
    at = module.error.at
    name = module.name_at(at)
    used = name.split(".")[0]
    own = module.part_at(at)
    if used == own:
        plain = name.split(".")[1]
        said = "`%s` names the part in which it stands, and a part can't use itself." % name
        return [said, "mend: write `%s`: a plain name is looked up in its own part." % plain]
    uses = {part.name[1]: [found for found in part.qualified] for part in module.parts}
    came, waiting = {used: None}, [used]
    for part in waiting:
        for other, place in uses.get(part, []):
            if other in uses and other not in came:
                came[other] = (part, place)
                waiting.append(other)
    steps, part = [], own
    while came[part] is not None:
        before, place = came[part]
        steps.append("`%s` uses `%s` at %s" % (before, part, module.place(place)))
        part = before
    return [
        "The part `%s` uses `%s` here, and so they wait for each other: %s." % (own, used, ", ".join(reversed(steps))),
        "mend: put what both need into a part of its own, which uses neither of them.",
    ]


def unknown_name(module):
    text, at = module.text, module.error.at
    word = word_at(text, at)
    if "." in module.name_at(at):
        return unknown_qualified(module)
    local, known = names_here(module)
    lines = name_of_another_part(module, word)
    if lines:
        return lines
    if word == given.LEFT:
        return given.left_elsewhere(module)
    if word in TRUTH:
        return ["There is no type for truth values: they stand in conditions alone.",
                "mend: take a `UINT8`, test it by `!= 0`, and give `(.. ? 1 : 0)` as its argument."]  # fmt: skip
    if word in TYPES_OF_OTHERS or word in OTHER_NAMES:
        instead = TYPES_OF_OTHERS.get(word) or OTHER_NAMES[word]
        more = ", or `%sBE` where the byte of most weight stands first" % instead if instead in ("UINT16", "UINT32", "UINT64") else ""
        does = module.mends((at, at + len(word), instead))
        return ["`%s` is no name here." % word, "%s `%s`%s." % ("mend: write" if does else "Here it would be", instead, more)]
    if word.startswith("UINT") and word not in NUMBER_TYPES:
        return [number_type(module, word)] + wider_bits(module, word)
    if word in SEQUENCES:
        return ["There is no type `%s`." % word, "mend: take bytes, `UINT8 name[n]` with n a number before it; numbers of variable length and fractions aren't read."]
    later = module.definition_named(word)
    if later is not None and later.name[2] > at and later is not module.definition_at(at)[0]:
        lines.append("`%s` is defined later, at %s: each definition names earlier ones alone." % (word, module.place(later.name[2])))
        lines.append("mend: put its definition before this one.")
        return lines
    own, first, last = module.definition_at(at)
    if own is not None and word in (own.name[1], tag_of(module, own)):
        said = "`%s` is the type that is being defined, and no type holds itself: each definition names earlier ones alone." % word
        own_size = size_of_this(module, word)
        if own_size:
            return [said] + own_size
        return [said, "mend: elements that follow each other are an array by bytes of a type that is defined before."]
    tagged = next((tree for tree in module.trees if tag_of(module, tree) == word and tree.name[2] < at), None)
    if tagged is not None:
        return ["`%s` is a tag, which nothing names: the type's name stands behind its `}`." % word, "mend: write `%s`." % tagged.name[1]]
    later = next((name for name, _, _ in parts_of(own) if name[1] == word and name[2] > at), None) if own is not None else None
    if later is not None:
        lines.append("`%s` is declared later in this definition, at %s: what is validated before it can't name it." % (word, module.place(later[2])))
        return lines + ["mend: test it there, in the refinement of `%s`." % word]
    other = next(((tree, name, what) for tree in module.trees for name, what, _ in parts_of(tree) if name[1] == word and tree is not own), None)
    if other is not None:
        tree, name, what = other
        lines.append("`%s` is a %s of `%s`, at %s, and has no name outside of it." % (word, what, tree.name[1], module.place(name[2])))
        return lines + ["mend: hand it on as an argument, `%s(%s)`, or deliver it by a `mutable` parameter." % (own.name[1] if own else "T", word)]
    near = difflib.get_close_matches(word, sorted(local | known | set(NUMBER_TYPES)), MOST_NEAR, NEAR)
    lines += ["Nearly the same: %s." % quoted(near)] if near else []
    lines += [in_scope(local)] if local else []
    if near and module.mends((at, at + len(word), near[0])):
        return lines + ["mend: write `%s`." % near[0]]
    lines = lines or ["No name like it is defined before this place."]
    return lines + ["mend: name one of these, or define `%s` before: a constant by `#define %s 1`, a type by `typedef`." % (word, word)]


def size_of_this(module, word):
    """Of `sizeof(T)` in T itself: `sizeof(this)` in its place."""
    at, index = module.error.at, module.index_at(module.error.at)
    if [module.token(index - 2)[0], module.token(index - 1)[0]] != ["sizeof", "("]:
        return []
    own = module.definition_at(at)[0]
    if own.kind != "struct" or not module.mends((at, at + len(word), "this")):
        return ["mend: write the number of bytes, or `sizeof` of a struct before it that holds the same fields."]
    return ["mend: write `sizeof(this)`: the size of the leading fields of `%s`, up to the first one that has no constant size." % own.name[1]]


def in_scope(local):
    names = sorted(local)
    more = " and %d more" % (len(names) - MOST_NAMES) if len(names) > MOST_NAMES else ""
    return "In scope here: %s%s." % (quoted(names[:MOST_NAMES]), more)


def number_type(module, word):
    near = difflib.get_close_matches(word, NUMBER_TYPES, MOST_NEAR, NEAR)
    said = "Number types have 8, 16, 32 or 64 bits, and `BE` behind them where the byte of most weight stands first"
    return said + ("; nearly the same: %s." % quoted(near) if near else ".")


def wider_bits(module, word):
    digits = "".join(char for char in word[4:] if char.isdigit())
    if digits not in ("24", "40", "48", "56"):
        return []
    base = ("UINT32" if digits == "24" else "UINT64") + ("BE" if word.endswith("BE") else "")
    rest = int(base[4:6]) - int(digits)
    name = word_at(module.text, module.token(module.index_at(module.error.at) + 1)[2]) or "n"
    said = "mend: take a bit field, with the bits that follow it as another one: `%s %s : %s; %s next : %d;`." % (base, name, digits, base, rest)
    return [said]


def name_twice(module):
    if module.watch is None:
        return part_twice(module)
    at, text = module.error.at, module.text
    own, first, last = module.definition_at(at)
    index = module.index_at(at)
    if own is not None and own.kind == "enum":
        lines = value_twice(module, own, at)
        if lines:
            return lines
    if own is not None and own.kind == "casetype" and module.token(index - 1)[0] == "case":
        return case_twice(module, own, at)
    word = word_at(text, at)
    full = module.full(word)
    firsts = [(module.watch.first_places[full], "name of a definition, constant or member")] if full in module.watch.first_places else []
    if own is not None:
        firsts += [(name[2], what) for name, what, _ in parts_of(own) if name[1] == word]
    earlier = sorted((place, what) for place, what in firsts if place < at)
    if not earlier:
        users = [(name[2], what) for tree in module.trees for name, what, _ in parts_of(tree) if name[1] == word and name[2] < at]
        earlier = sorted(users)
    lines = []
    if earlier:
        place, what = earlier[0]
        lines.append("`%s` stands first at %s, as a %s." % (word, module.place(place), what))
    other = free_name(module, word)
    return lines + ["mend: give this one another name, as `%s`, here and where it is meant." % other]


def constant_number(module, token):
    if token[0] == "NUM":
        return token[1]
    found = module.watch.known.own(token[1])
    return getattr(found, "value", None)


def value_twice(module, own, at):
    following, seen = 0, {}
    for item in own.items:
        place = item.value[2] if item.value else item.name[2]
        value = constant_number(module, item.value) if item.value else following
        value = following if value is None else value
        if place == at and value in seen:
            name, first = seen[value]
            why = "" if item.value else " (a name without a value is one more than the one before)"
            return [
                "`%s` has the value %d%s, which `%s` has at %s." % (item.name[1], value, why, name, module.place(first)),
                "mend: take `%s` out, and write `#define %s %d` where a second name is wanted." % (item.name[1], item.name[1], value),
            ]
        seen.setdefault(value, (item.name[1], item.name[2]))
        following = value + 1
    return []


def case_twice(module, own, at):
    case = next(case for case in own.cases if case.value[2] == at)
    value = constant_number(module, case.value)
    first = next(other for other in own.cases if constant_number(module, other.value) == value)
    return [
        "The case %d stands first at %s." % (value, module.place(first.value[2])),
        "mend: put the fields of both into one, or take one out.",
    ]


def field_named(own, name, at):
    """The field of this name that is meant at a place: the last one before it."""
    fields = [field for fields in tree_fields(own) for field in fields if field.name[1] == name and field.name[2] < at]
    return fields[-1] if fields else None


def sort_of_field(field):
    kind, name, _ = field.type
    if field.array:
        return "an array"
    return {"unit": "`unit`", "all_bytes": "`all_bytes`", "all_zeros": "`all_zeros`"}.get(kind, "of the type `%s`" % name)


def not_readable(module):
    at = module.error.at
    own, _, _ = module.definition_at(at)
    found = module.watch.field_at
    if found and found[0].name[2] == at:
        field = found[0]
        lines = ["`%s` is %s, and a refinement stands on numbers, enums and bit fields alone." % (field.name[1], sort_of_field(field))]
        if field.array:
            return lines + ["mend: test each element in its type: `typedef struct _E { UINT8 k { k > 0 }; } E; .. E %s[:byte-size ..];`; what the"
                            " array's size needs is a refinement of the number that gives it." % field.name[1]]  # fmt: skip
        return lines + [test_elsewhere(module, field)]
    word = word_at(module.text, at)
    field = field_named(own, word, at) if own is not None else None
    if field is None:
        return ["`%s` is no number here." % word]
    lines = ["`%s`, at %s, is %s, and has no value that an expression could name." % (word, module.place(field.name[2]), sort_of_field(field))]
    if field.array:
        return lines + ["mend: give the bytes that are tested fields of their own, as `UINT8 %s0;` before the rest, or give the elements a struct type"
                        " with a refinement." % word]  # fmt: skip
    return lines + ["mend: name a number; what must be known of `%s` is tested in its type, which may take parameters." % word]


def test_elsewhere(module, field):
    """Of a refinement of a field that is no number: an action may test what doesn't name the field itself."""
    begin, end, _ = module.span(field.refinement)
    opening, closing = module.index_at(begin) - 1, module.index_at(end)
    test = spelled(field.refinement, module.text)
    edit = (module.token(opening)[2], module.end_of(closing), "{:check return %s;}" % test)
    if field.action is None and field.copy is None and names_in(field.refinement) and module.mends(edit, safe=True):
        said = "mend: test it in an action: `%s %s {:check return %s;};`. Where that fails, the reason is `action`."
        return said % (field.type[1] if field.type[0] == "NAME" and not field.arguments else module.source(module.index_at(field.type[2]), opening - 2), field.name[1], test)
    if field.type[0] != "NAME":
        return "mend: test the numbers before it where they stand, or in an action here, `{:check return ..;}`."
    return "mend: write the test in that type, where its fields have names; it may take parameters."


def wrong_arguments(module):
    watch, at = module.watch, module.error.at
    if watch.applied_at and watch.applied_at[1].type[2] == at:
        return wrong_application(module, *watch.applied_at)
    if watch.field_at and watch.field_at[0].type[2] == at:
        field = watch.field_at[0]
        return ["`%s` is a number type or an enum, and takes no arguments; %s given." % (field.type[1], were(len(field.arguments))),
                "mend: write `%s %s`." % (field.type[1], field.name[1])]  # fmt: skip
    return wrong_cell(module)


def were(count):
    return "%d %s" % (count, "is" if count == 1 else "are")


def wrong_application(module, found, field, scope):
    name = field.type[1]
    tree = next((tree for tree in module.trees if tree.kind in ("struct", "casetype") and tree.name[2] == place_of_type(module, found)), None)
    if tree is None:
        return []
    wanted = ", ".join(parameter_text(parameter) for parameter in tree.parameters)
    count = len(tree.parameters)
    takes = "takes %s, (%s)" % (many(count, "argument"), wanted) if count else "takes no arguments"
    lines = ["`%s` %s, and %s given." % (name, takes, were(len(field.arguments)))]
    for parameter, argument in zip(tree.parameters, field.arguments):
        if parameter.mutable and watch_cells(module, parameter, argument, scope) is None:
            same = "type" if parameter.room is None else "room"
            lines.append("For `%s` the argument is the plain name of a `mutable` parameter of the same %s." % (parameter_text(parameter), same))
            cells = cells_here(module, parameter, scope)
            lines.append("Such names here: %s." % quoted(cells) if cells else "No such name is in scope: add the parameter to this definition, too.")
    given = [argument_for(module, field, place, parameter, scope) for place, parameter in enumerate(tree.parameters)]
    return lines + ["mend: write `%s%s %s;`." % (name, "(%s)" % ", ".join(given) if count else "", field.name[1])]


def argument_for(module, field, place, parameter, scope):
    """What may stand as an argument: what stands there, where it may, or else a name."""
    argument = field.arguments[place] if place < len(field.arguments) else None
    if parameter.mutable:
        cells = cells_here(module, parameter, scope)
        is_good = argument is not None and watch_cells(module, parameter, argument, scope) is not None
        return argument.value if is_good else (cells or [parameter.name[1]])[0]
    return spelled(argument, module.text) if argument is not None else parameter.name[1]


def place_of_type(module, found):
    made = module.watch.known.types[found.number]
    return made.at


def cells_here(module, parameter, scope):
    """The names in scope that may stand for a parameter that isn't a value."""
    return [own for own, meant in scope.names.items() if is_same(module, meant, parameter)]


def is_same(module, meant, parameter):
    if parameter.room is not None:
        return meant.kind == "buffer" and meant.room == constant_number(module, parameter.room)
    return meant.kind in ("cell", "row") and same_cell(module, meant, parameter)


def same_cell(module, meant, parameter):
    found = module.watch.known.find(type("Empty", (), {"names": {}}), parameter.type[1]) if parameter.type[0] == "NAME" else None
    wanted = parameter.type[1] if found is None else getattr(found, "base", None) or found.definition
    return meant.type == wanted


def watch_cells(module, parameter, argument, scope):
    meant = scope.names.get(argument.value) if argument.kind == "NAME" else None
    return meant if meant is not None and is_same(module, meant, parameter) else None


def wrong_cell(module):
    """Of `*p` and `p->f`."""
    at = module.error.at
    word, index = word_at(module.text, at), module.index_at(at)
    own, _, _ = module.definition_at(at)
    parameter = next((parameter for parameter in getattr(own, "parameters", []) if parameter.name[1] == word), None)
    is_record = parameter is not None and parameter.mutable and parameter.type[0] == "NAME" and slots_of(module, parameter)
    if module.token(index + 1)[0] == "->":
        field = module.token(index + 2)[1]
        if is_record:
            near = difflib.get_close_matches(field, is_record, 1, NEAR)
            lines = ["The record `%s` has no field `%s`; its fields are %s." % (parameter.type[1], field, quoted(is_record))]
            return lines + (["mend: write `%s->%s`." % (word, near[0])] if near else [])
        return [what_is(word, parameter) + ", and no output record: `->` names a field of one.",
                "mend: write `*%s = ..;` for a cell that is a number." % word]  # fmt: skip
    if is_record:
        return ["`%s` is an output record, and a star names a cell that is one number." % word, "mend: write `%s->%s = ..;`." % (word, is_record[0])]
    lines = [what_is(word, parameter) + ": a star stands before a `mutable` parameter alone."]
    if parameter is not None and not parameter.mutable:
        return lines + ["mend: write `mutable %s *%s` as its parameter, or `%s` without the star to read it." % (parameter.type[1], word, word)]
    return lines + ["mend: add a parameter, `mutable UINT32 *out`, and store to that."]


def slots_of(module, parameter):
    record = module.definition_named(parameter.type[1])
    return [slot.name[1] for slot in record.slots] if record is not None and record.kind == "output" else None


def what_is(word, parameter):
    if parameter is None:
        return "`%s` is no parameter" % word
    return "`%s` is the parameter `%s`" % (word, parameter_text(parameter))


def help_of(module):
    helps = {"N1": unknown_name, "N2": name_twice, "N3": not_readable, "N4": wrong_arguments, "N5": module_cycle}
    return helps[module.error.code](module)
