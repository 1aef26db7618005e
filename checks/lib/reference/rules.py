"""From trees to modules: the rules of definitions and fields, and what each stands for."""

from types import SimpleNamespace as Record

from limits import MOST_ROOM

from .actions import Actions
from .expressions import Typing, type_alone
from .scopes import Breaches, Known, Scope, bits_of, local, meaning
from .sizes import body_kind, constant_size, field_kind
from .tokens import NUMBER_TYPES

ARRAYS = {"[": "bytes", "[:byte-size": "bytes", "[:byte-size-single-element-array": "single", "[:zeroterm-byte-size-at-most": "zeroterm"}


class Elaborator:
    def __init__(self):
        self.known, self.breaches, self.cell_count = Known(), Breaches(), 0

    def typing(self, scope):
        return Typing(self.known, scope, self.breaches, lambda number: constant_size(self.known.types[number].kind))

    @staticmethod
    def no_number():
        return local("none")

    def is_literal(self, name):
        found = self.known.own(name)
        return found is not None and found.kind in ("constant", "member")

    # ---- Types.

    def element(self, scope, field, note=True):
        """What a field is made of: (kind, parts); None where its type is broken."""
        kind, name, at = field.type
        if kind in ("unit", "all_bytes", "all_zeros"):
            return Record(kind=kind)
        if kind == "INT":
            return Record(kind="number", base=name)
        found = self.known.find(scope, name)
        noted = self.breaches if note else Breaches()
        if found is None:
            noted.note("N1", at)
        elif found.kind in ("number", "enum"):
            noted.note_if(field.arguments, "N4", at)
            return Record(kind=found.kind, base=found.base, values=getattr(found, "values", None))
        elif found.kind == "type":
            arguments, cells = self.applied(scope, found, field, noted) if note else ([], [])
            return Record(kind="named", number=found.number, arguments=arguments, cells=cells)
        else:
            noted.note("Y1", at)
        return None

    def applied(self, scope, found, field, noted):
        parameters = self.known.types[found.number].parameters
        arguments, cells, buffers, wrong = [], [], [], len(parameters) != len(field.arguments)
        for parameter, tree in zip(parameters, field.arguments):
            if parameter.mutable:
                own = self.cells_named(scope, parameter, tree)
                wrong = wrong or own is None
                cells += own or []
                continue
            if parameter.room is not None:
                own = self.buffer_named(scope, parameter, tree)
                wrong = wrong or own is None
                buffers += [own]
                continue
            typing = self.typing(scope)
            sort, core = typing.walk(tree)
            typing.wanted(tree, sort, False)
            noted.note_if((type_alone(sort) or 0) > parameter.bits, "Y2", tree.first)
            arguments.append(core)
        noted.note_if(wrong, "N4", field.type[2])
        return arguments, cells + buffers

    def buffer_named(self, scope, parameter, tree):
        """The place behind the cells of the copy buffer that an argument names, of the parameter's room; None where it names none."""
        found = scope.names.get(tree.value) if tree.kind == "NAME" else None
        is_same = found is not None and found.kind == "buffer" and found.room == parameter.room
        return self.cell_count + found.buffer if is_same else None

    def cells_named(self, scope, parameter, tree):
        found = scope.names.get(tree.value) if tree.kind == "NAME" else None
        if found is None or found.kind not in ("cell", "row") or found.type != parameter.type:
            return None
        return [found.cell] if found.kind == "cell" else [found.cell + place for place in range(len(found.slots))]

    # ---- Fields.

    def is_number_type(self, scope, field):
        element = self.element(scope, field, note=False)
        return element is not None and element.kind == "number"

    def extent(self, scope, field):
        """The array part of a field: (kind, size), and whether it ends the fields that `sizeof(this)` counts."""
        at, numbered = field.type[2], self.is_number_type(scope, field)
        if field.width is not None:
            self.breaches.note_if(not numbered, "Y1", at)
            element = self.element(scope, field, note=False)
            most = bits_of(element.base) if numbered else 64
            wrong = not 1 <= field.width[1] <= most
            self.breaches.note_if(wrong, "Y3", field.width[2])
            return ("once", None), wrong or not numbered
        if field.array is None:
            return ("once", None), False
        element = self.element(scope, field, note=False)
        if field.array == "[":
            self.breaches.note_if(not numbered or element.base != "UINT8", "Y1", at)
        if ARRAYS[field.array] == "zeroterm":
            self.breaches.note_if(not numbered, "Y1", at)
        typing = self.typing(scope)
        sort, core = typing.walk(field.size)
        typing.wanted(field.size, sort, False)
        ends = ARRAYS[field.array] == "zeroterm" or holds_this(field.size) or core is None or sort == "truth"
        return (ARRAYS[field.array], core), ends

    def field(self, scope, field, taken, every):
        name, at = field.name[1], field.name[2]
        element = self.element(scope, field)
        if field.source is not None:
            element = self.given(scope, field, element)
        self.breaches.note_if(name in taken or self.is_literal(name), "N2", at)
        extent, _ = self.extent(scope, field)
        readable = extent[0] == "once" and element is not None and element.kind in ("number", "enum", "given")
        self.breaches.note_if(field.refinement is not None and not readable, "N3", at)
        width = field.width[1] if field.width is not None and readable and element.kind == "number" else None
        if readable:
            bits = bits_of(element.base)
            scope.add_value(name, bits, 2 ** min(width or bits, bits) - 1)
        else:
            scope.add_none(name)
        refinement = None
        if field.refinement is not None:
            typing = self.typing(scope)
            sort, refinement = typing.walk(field.refinement)
            typing.wanted(field.refinement, sort, True)
        taken.add(name)
        every.add(name)
        action, named = None, []
        if field.action is not None:
            actions = Actions(self, scope, every)
            action = actions.action(field.action)
            taken.update(actions.vars)
            named = actions.vars
        self.names += [name] + named
        self.vars += named
        copy = None if field.copy is None else self.copy(scope, field, element)
        part = Record(name=name, width=width, low=None, refinement=refinement, action=action)
        return Record(element=element, extent=extent, copy=copy, parts=[part], at=at)

    def given(self, scope, field, element):
        """A field without bytes: the type of its value, and what gives it. `bytes_left` is a word only where it is all of an expression.
        Another expression may be wider: the safety rule says whether it fits."""
        tree = field.source
        if element is None or element.kind != "number":
            self.breaches.note_if(element is not None, "Y1", field.type[2])
            return None
        bits = bits_of(element.base)
        made = Record(kind="given", base=element.base, source=tree.kind, core=None, cell=None, level=scope.levels, first=tree.first)
        made.at = field.name[2]
        if tree.kind == "NAME" and tree.value == "bytes_left":
            made.source = "bytes_left"
            self.breaches.note_if(bits < 32, "Y2", tree.first)
        elif tree.kind == "cell":
            found = self.known.find(scope, tree.cell[1])
            if found is None or found.kind != "cell":
                self.breaches.note("N1" if found is None else "N4", tree.cell[2])
                return made
            self.breaches.note_if(found.bits == 0, "Y1", tree.at)
            self.breaches.note_if(found.bits > bits, "Y2", tree.at)
            made.cell = found.cell
        else:
            made.source = "expression"
            typing = self.typing(scope)
            sort, made.core = typing.walk(tree)
            typing.wanted(tree, sort, False)
        return made

    def copy(self, scope, field, element):
        """Where a field's bytes go: the place of the buffer behind the cells, its room, and the place of the copy in the text."""
        is_bytes = field.array is not None and ARRAYS[field.array] == "bytes"
        is_octets = element is not None and element.kind == "number" and element.base == "UINT8"
        self.breaches.note_if(not (is_bytes and is_octets), "Y4", field.copy.at)
        _, name, at = field.copy.name
        found = self.known.find(scope, name)
        if found is None or found.kind != "buffer":
            self.breaches.note("N1" if found is None else "N4", at)
            return None
        return Record(cell=self.cell_count + found.buffer, room=found.room, at=field.copy.at)

    def this_size(self, scope, trees):
        """The size of a struct's leading fields of constant size, before the first whose size holds `sizeof(this)`."""
        silent = Elaborator()
        silent.known = self.known
        scope = scope.copy()
        scope.this = 0
        fields = []
        for tree in trees:
            element = self.element(scope, tree, note=False)
            if element is not None and tree.source is not None:
                element = Record(kind="given", base=element.base) if element.kind == "number" else None
            silent.breaches = Breaches()
            extent, ends = silent.extent(scope, tree)
            ends = ends or bool(silent.breaches.found)
            readable = extent[0] == "once" and element is not None and element.kind in ("number", "enum", "given")
            if element is None or ends:
                break
            width = tree.width[1] if tree.width is not None else None
            part = Record(name=tree.name[1], width=width, low=None, refinement=None, action=None)
            fields.append(Record(element=element, extent=extent, copy=None, parts=[part], at=0))
            if readable:
                bits = bits_of(element.base)
                scope.add_value(tree.name[1], bits, 2 ** min(width or bits, bits) - 1)
            else:
                scope.add_none(tree.name[1])
        total = 0
        for field in gathered(fields):
            size = constant_size(field_kind(self.known.types, field))
            if size is None:
                break
            total += size
        return total

    def fields(self, scope, trees, taken, every):
        return gathered([self.field(scope, tree, taken, every) for tree in trees])

    # ---- Parameters.

    def parameter(self, scope, tree, cells, buffers, taken):
        name = tree.name[1]
        kind, spelled, at = tree.type
        found = self.known.find(scope, spelled) if kind == "NAME" else None
        self.breaches.note_if(kind == "NAME" and found is None, "N1", at)
        made = None
        if tree.room is not None:
            room = self.constant(scope, tree.room)
            self.breaches.note_if(room is not None and not 1 <= room <= MOST_ROOM, "Y2", tree.room[2])
            room = room or 0
            made = Record(mutable=False, room=room)
            scope.names[name] = local("buffer", buffer=len(buffers), room=room)
            buffers.append((name, room))
        elif tree.mutable:
            if kind == "INT" or (found and found.kind == "number"):
                base = spelled if kind == "INT" else found.base
                made = Record(mutable=True, room=None, type=base)
                scope.names[name] = local("cell", cell=len(cells), bits=bits_of(base), type=base)
                cells.append((name, None, bits_of(base)))
            elif kind == "PUINT8":
                made = Record(mutable=True, room=None, type="PUINT8")
                scope.names[name] = local("cell", cell=len(cells), bits=0, type="PUINT8")
                cells.append((name, None, 0))
            elif found and found.kind == "record":
                made = Record(mutable=True, room=None, type=found.definition)
                scope.names[name] = local("row", cell=len(cells), slots=found.slots, type=found.definition)
                cells += [(name, slot, bits) for slot, bits in found.slots]
        elif kind == "INT" or (found and found.kind in ("number", "enum")):
            bits = bits_of(spelled if kind == "INT" else found.base)
            made = Record(mutable=False, room=None, bits=bits, name=name)
            scope.add_value(name, bits, 2**bits - 1)
        if made is None:
            self.breaches.note_if(found is not None, "Y1", at)
            scope.names[name] = self.no_number()
        self.breaches.note_if(name in taken or self.is_literal(name), "N2", tree.name[2])
        taken.add(name)
        return made

    # ---- Definitions.

    def declare(self, name, stands_for, literal=False):
        known, full = self.known, self.known.full(name[1])
        self.breaches.note_if(full in known.globals or (literal and full in known.used), "N2", name[2])
        known.globals.setdefault(full, stands_for)

    def constant(self, scope, token):
        """The number at a constant's place; None where it is none."""
        if token[0] == "NUM":
            return token[1]
        found = self.known.find(scope, token[1])
        if found is not None and found.kind in ("constant", "member"):
            return found.value
        self.breaches.note("N1" if found is None else "Y3", token[2])
        return None

    def enum(self, tree):
        base = tree.base[1]
        values, following = [], 0
        self.declare(tree.name, meaning("enum", self.known.count, base=base, values=values))
        for item in tree.items:
            value = following
            if item.value is not None:
                given = self.constant(Scope(), item.value)
                value = following if given is None else given
            place = item.name[2] if item.value is None else item.value[2]
            self.declare(item.name, meaning("member", None, value=value), literal=True)
            self.breaches.note_if(value in values, "N2", place)
            self.breaches.note_if(value >= 2 ** bits_of(base), "Y2", place)
            values.append(value)
            following = value + 1

    def alias(self, tree):
        kind, name, at = tree.target
        target = meaning("number", None, base=name) if kind == "INT" else self.known.own(name)
        good = target is not None and target.kind in ("number", "enum", "type")
        if good and target.kind == "type" and self.known.types[target.number].parameters:
            good = False
        self.breaches.note_if(kind == "NAME" and target is None, "N1", at)
        self.breaches.note_if(target is not None and not good, "Y1", at)
        stands_for = dict(vars(target)) if good else {"kind": "constant", "value": 0}
        stands_for["definition"] = self.known.count
        self.declare(tree.name, meaning(**stands_for))

    def output(self, tree):
        slots = []
        for slot in tree.slots:
            name = slot.name[1]
            self.breaches.note_if(any(name == other for other, _ in slots) or self.is_literal(name), "N2", slot.name[2])
            slots.append((name, 0 if slot.type[0] == "PUINT8" else bits_of(slot.type[1])))
        self.known.used.update(self.known.full(name) for name, _ in slots)
        self.declare(tree.name, meaning("record", self.known.count, slots=slots))

    def cases(self, tree, scope, taken, every):
        typing = self.typing(scope)
        sort, switch = typing.walk(tree.switch)
        typing.wanted(tree.switch, sort, False)
        bits, values, cases = type_alone(sort), [], []
        for case in tree.cases:
            value = self.constant(scope, case.value)
            self.breaches.note_if(value is not None and value in values, "N2", case.value[2])
            self.breaches.note_if(value is not None and bits is not None and value >= 2**bits, "Y2", case.value[2])
            values.append(0 if value is None else value)
            self.vars = []
            own = set(taken)
            cases.append((value, self.fields(scope.copy(), case.fields, own, every)))
            taken.update(self.vars)
        default = self.fields(scope.copy(), tree.default, set(taken), every) if tree.default is not None else None
        return switch, cases, default

    def type_definition(self, tree):
        scope, cells, buffers, taken = Scope(), [], [], set()
        self.names, self.vars = [], []
        parameters = [self.parameter(scope, parameter, cells, buffers, taken) for parameter in tree.parameters]
        parameters = [parameter for parameter in parameters if parameter is not None]
        self.cell_count = len(cells)
        if tree.kind == "struct":
            scope.this = self.this_size(scope, tree.fields)
        guard = None
        if tree.guard is not None:
            typing = self.typing(scope)
            sort, guard = typing.walk(tree.guard)
            typing.wanted(tree.guard, sort, True)
        name, at = self.known.full(tree.name[1]), tree.name[2]
        made = Record(name=name, at=at, parameters=parameters, cells=cells, buffers=buffers, guard=guard)
        made.switch, made.cases, made.default, made.fields = None, [], None, None
        every = set(taken)
        if tree.kind == "struct":
            made.fields = self.fields(scope, tree.fields, taken, every)
        else:
            made.switch, made.cases, made.default = self.cases(tree, scope, taken, every)
        self.known.used.update(self.known.full(parameter.name[1]) for parameter in tree.parameters)
        self.known.used.update(map(self.known.full, self.names))
        self.declare(tree.name, meaning("type", self.known.count, number=len(self.known.types)))
        if tree.entry:
            self.known.entries.append(len(self.known.types))
        made.kind = body_kind(self.known.types, made)
        self.known.types.append(made)

    def definition(self, tree):
        self.known.part, self.breaches.turn = tree.part, tree.turn
        if tree.kind == "define":
            self.declare(tree.name, meaning("constant", self.known.count, value=tree.value[1]), literal=True)
        elif tree.kind == "enum":
            self.enum(tree)
        elif tree.kind == "alias":
            self.alias(tree)
        elif tree.kind == "output":
            self.output(tree)
        else:
            self.type_definition(tree)
        self.known.count += 1


def holds_this(tree):
    return (tree.kind == "sizeof" and tree.operand[0] == "this") or any(holds_this(part) for part in tree.parts)


def gathered(fields):
    """Bit fields in a row with the same base share one unit while their bits fit."""
    found, filled = [], None
    for field in fields:
        width = field.parts[0].width
        if width is None:
            found.append(field)
            filled = None
            continue
        base = field.element.base
        bits = bits_of(base)
        if filled is not None and found[-1].element.base == base and filled + width <= bits:
            found[-1].parts.append(field.parts[0])
        else:
            found.append(field)
            filled = 0
        field.parts[0].low = bits - filled - width if NUMBER_TYPES[base][1] and bits else filled
        filled += width
    return found


def elaborator_of(trees):
    """What went over all definitions, with the rules that they break."""
    elaborator = Elaborator()
    for tree in trees:
        elaborator.definition(tree)
    return elaborator


def elaborated(trees):
    elaborator = elaborator_of(trees)
    elaborator.breaches.refuse_first()
    return elaborator.known
