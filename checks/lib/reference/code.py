"""A second reading of docs/language/code.md: which code the verifier refuses, and where. Short and slow: each rule is looked
at for each instruction by itself."""

from instructions import OPERANDS, REGISTERS, places_of
from limits import MOST_DEPTH, MOST_WEIGHT

SITES = places_of("site")
OPENS = ("NarrowK", "Narrow")


class Routine:
    """A routine with its instructions, each the words of its listing, and where it begins."""

    def __init__(self, code, number, start):
        self.code, self.number, self.start = code, number, start
        self.params, self.cells, self.registers, length, *self.rooms = code.routines[number][1:]
        self.end = start + length
        self.depth = self.weight = 0
        self.may_take_none = False
        self.open_before = [[]]
        for place in range(self.start, self.end):
            self.open_before.append(self.opened_after(self.open_before[-1], place))

    def at(self, place):
        return self.code.instructions[place]

    def opened(self, place):
        """The places of what is open before an instruction, the innermost last. None behind a closing of something else."""
        return self.open_before[place - self.start]

    def opened_after(self, found, place):
        """The same behind an instruction, of what is open before it."""
        kind = self.at(place)[0]
        if found is not None and (kind in OPENS or kind == "While"):
            return found + [place]
        if found is not None and kind in ("Widen", "Again"):
            is_loop = bool(found) and self.at(found[-1])[0] == "While"
            return found[:-1] if found and is_loop == (kind == "Again") else None
        return found

    def is_open(self, place, kinds):
        return any(self.at(p)[0] in kinds for p in self.opened(place) or [])

    def in_window(self, place):
        return self.is_open(place, OPENS)

    def in_loop(self, place):
        return self.is_open(place, ("While",))


def leads_well(routine, place):
    """Whether a jump, a While or an Again leads where it may."""
    kind, *operands = routine.at(place)
    if kind in ("Jump", "JumpIf", "JumpUnless"):
        target = operands[-1]
        return place < target < routine.end and routine.opened(target) == routine.opened(place)
    if kind == "While":
        last = operands[0] - 1
        if not place < last < routine.end or routine.at(last)[0] != "Again":
            return False
        return (routine.opened(last) or [None])[-1] == place
    if kind == "Again":
        innermost = (routine.opened(place) or [None])[-1]
        return innermost is not None and innermost == operands[0] and routine.at(innermost)[0] == "While"
    return True


def keeps_target(routine, place):
    is_last = place == routine.end - 1
    return leads_well(routine, place) and (not is_last or routine.at(place)[0] in ("Return", "Fail", "Jump"))


def keeps_registers(routine, place):
    kind, *operands = routine.at(place)
    if kind == "Call":
        known = routine.code.routines
        params = known[operands[1]][1] if operands[1] < len(known) else 0
        return all(operands[0] + k < routine.registers for k in range(params))
    return all(number < routine.registers for operand, number in zip(OPERANDS[kind], operands) if operand in REGISTERS)


def keeps_depth(routine, place, lower):
    kind, *operands = routine.at(place)
    return kind != "Call" or (operands[1] < routine.number and lower[operands[1]].depth + 1 <= MOST_DEPTH)


def is_idle(routine, place, lower):
    """Whether an instruction may take no byte."""
    kind, *operands = routine.at(place)
    if kind in ("Fetch", "Zeroterm"):
        return operands[{"Fetch": 2, "Zeroterm": 1}[kind]] == 0
    if kind == "SkipK":
        return operands[0] == 0
    if kind == "Call":
        return operands[1] >= routine.number or lower[operands[1]].may_take_none
    if kind == "Widen":
        innermost = (routine.opened(place) or [None])[-1]
        return innermost is None or routine.at(innermost)[0] != "NarrowK" or routine.at(innermost)[1] == 0
    return True


def next_places(routine, place):
    kind, *operands = routine.at(place)
    if kind == "Jump" or kind == "While":
        return [operands[0]]
    if kind in ("JumpIf", "JumpUnless"):
        return [operands[1], place + 1]
    return [] if kind in ("Return", "Fail", "Again") else [place + 1]


def reached_idly(routine, start, lower):
    """The places that some way from one on reaches without taking a byte."""
    reached = {start}
    for place in range(start, routine.end):
        if place in reached and is_idle(routine, place, lower):
            reached.update(target for target in next_places(routine, place) if target > place)
    return reached


def keeps_nesting(routine, place, lower):
    kind, *operands = routine.at(place)
    window, loop = routine.in_window(place), routine.in_loop(place)
    if kind in OPENS and window:
        return False
    if kind in ("Widen", "While") and (not window or loop):
        return False
    if kind == "Return" and (window or loop):
        return False
    if place == routine.end - 1 and (routine.in_window(routine.end) or routine.in_loop(routine.end)):
        return False
    return kind != "While" or operands[0] - 1 not in reached_idly(routine, place + 1, lower)


def is_own_site(routine, number):
    """Whether a site is there, and the routine's; in code of version 1 none names its routine, so each may be."""
    sites = routine.code.sites
    return number < len(sites) and sites[number][2] in (None, routine.number)


def keeps_tables(routine, place):
    code = routine.code
    kind, *operands = routine.at(place)
    if kind in SITES and not is_own_site(routine, operands[SITES[kind]]):
        return False
    if kind == "Member":
        return operands[2] < len(code.sets)
    if kind in ("Get", "Set"):
        return operands[1] < routine.cells
    if kind == "Call":
        if operands[2] >= len(code.maps):
            return False
        callee = code.routines[operands[1]] if operands[1] < len(code.routines) else [0] * 5
        return leads_to_own(routine, code.maps[operands[2]], callee[2], callee[5:])
    if kind == "Copy":
        return operands[1] < len(routine.rooms)
    return True


def leads_to_own(routine, numbers, cells, rooms):
    """Whether a cell map leads from so many cells, and buffers of these rooms, to the routine's own."""
    if len(numbers) != cells + len(rooms):
        return False
    buffers = all(number < len(routine.rooms) and routine.rooms[number] == room for number, room in zip(numbers[cells:], rooms))
    return buffers and all(cell < routine.cells for cell in numbers[:cells])


def weight_of(routine, place, lower):
    kind, *operands = routine.at(place)
    if kind in ("While", "Again"):
        return 3
    own = 2 if kind in ("Zeros", "Zeroterm", "Copy") else 1
    if kind == "Call" and operands[1] < routine.number:
        own += lower[operands[1]].weight
    return 2 * own if routine.in_loop(place) else own


def keeps_operands(routine, place):
    kind, *operands = routine.at(place)
    if kind == "Op":
        return operands[1] <= 13
    if kind == "Bits":
        return operands[3] >= 1 and operands[2] + operands[3] <= 64
    if kind == "Fetch":
        return operands[1] <= 1 and operands[2] in (1, 2, 4, 8)
    if kind == "Zeroterm":
        return operands[1] in (1, 2, 4, 8)
    if kind in ("SkipK", "NarrowK"):
        return operands[0] < 2**32
    if kind == "Divides":
        return operands[1] >= 1
    return kind != "Fail" or operands[0] <= 5


def finish(routine, lower):
    """What the routines above need to know of one that keeps all rules."""
    called = [lower[operands[1]].depth for kind, *operands in map(routine.at, range(routine.start, routine.end)) if kind == "Call"]
    routine.depth = 1 + max(called, default=0)
    reached = reached_idly(routine, routine.start, lower)
    routine.may_take_none = any(routine.at(place)[0] == "Return" for place in reached if place < routine.end)


def refusal(code):
    """The first instruction that breaks a rule, and the lowest rule that it breaks, as `V4 at 1`; None where none does."""
    lower, start = [], 0
    for number in range(len(code.routines)):
        routine = Routine(code, number, start)
        for place in range(routine.start, routine.end):
            routine.weight += weight_of(routine, place, lower)
            kept = [
                keeps_target(routine, place),
                keeps_registers(routine, place),
                keeps_depth(routine, place, lower),
                keeps_nesting(routine, place, lower),
                keeps_tables(routine, place),
                routine.weight <= MOST_WEIGHT,
                keeps_operands(routine, place),
            ]
            if not all(kept):
                return "V%d at %d" % (1 + kept.index(False), place)
        finish(routine, lower)
        lower.append(routine)
        start = routine.end
    return None
