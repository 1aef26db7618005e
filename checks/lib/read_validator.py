"""The functions of written C, run by the reading of c_grammar and c_meaning, as compiled_c runs those that a compiler built."""

from typing import Any

import c_syntax as c
from c_grammar import unit_of
from c_meaning import Message, Place, Run, Undefined, Value
from code_run import held, words_of
from codes import NO_FIELD
from compiled_c import Ended, verdict_of

UNTOUCHED = 0xA5


class Changed(Exception):
    """What a run changed that it mustn't."""


class ReadValidator:
    """The entry points of an image, by their C. `code` is the image's tables."""

    def __init__(self, name: str, code: Any, text: str, header: str) -> None:
        self.name, self.code = name, code
        self.unit = unit_of(text, {name + ".h": header})

    def function(self, entry: int) -> c.Function:
        title = self.code.name(self.code.routines[self.code.entries[entry][0]][0]).replace(".", "_")
        found = self.unit.functions.get("%s_validate_%s" % (self.name, title))
        if found is None:
            raise Undefined("no function for " + title)
        return found

    def new(self, kind: c.Type, fill: int | None) -> Any:
        """An object, each number of which has bytes of this value; none yet, if there is no value."""
        if isinstance(kind, c.Array):
            return [self.new(kind.of, fill) for _ in range(kind.count)]
        if isinstance(kind, c.Record):
            return {name: self.new(member, fill) for name, member in self.unit.records[kind.name].items()}
        if isinstance(kind, c.Number) and fill is not None:
            return int.from_bytes(bytes([fill]) * (kind.bits // 8), "little")
        return None

    def run(self, entry: int, arguments: list[int], cells: list[int], memory: bytes, length: int, stores: Any = ()) -> Ended:
        """How a run ends, while others store: by the caller's objects, which an accepted message changes, and a rejected one doesn't."""
        function = self.function(entry)
        words, loads = words_of(memory[:length]), list[tuple[int, int]]()

        def load(at: int) -> int:
            value = held(words_of(memory), stores, len(loads), at)
            loads.append((at, value))
            return int(value)

        outs = self.outs(entry, function, cells)
        outcome = self.new(c.Record("td_outcome"), None)
        values = [Value(c.Pointer(c.U64), Place(Message(len(words), load), 0, c.U64)), Value(c.U32, length)]
        values += [Value(kind, value) for (kind, _), value in zip(function.parameters[2:], arguments)]
        values += [Value(kind, Place([out], 0, kind.to)) for kind, out in outs]
        place = Place([outcome], 0, c.Record("td_outcome"))
        boxes = [value.of.within for value in values[2 + len(arguments) :]]
        accepted = Run(self.unit).call(function.name, [*values, Value(c.Pointer(place.type), place)])
        told = whole({name: outcome[name] for name in ("reason", "position", "count")})
        frames = [whole(frame) for frame in outcome["frame"][: told["count"]]]
        left, copies = self.delivered(entry, [box[0] for box in boxes])
        if not accepted.of and (left != list(cells) or any(copies)):
            raise Changed("cells %s and copies %s after a rejection" % (left, copies))
        return Ended(
            verdict_of(bool(accepted.of), told["reason"]),
            told["position"],
            [(frame["type"], frame["field"], frame["start"]) for frame in frames],
            left,
            copies,
            loads,
        )

    def members(self, entry: int) -> list[list[int]]:
        """The cells of each pointer parameter: one, or those of a record, in their order."""
        groups: dict[Any, list[int]] = {}
        for number, (name, field, _) in enumerate(self.code.entries[entry][2]):
            groups.setdefault(number if field == NO_FIELD else "of %d" % name, []).append(number)
        return list(groups.values())

    def outs(self, entry: int, function: c.Function, cells: list[int]) -> list[tuple[c.Pointer, Any]]:
        """The caller's objects: cells as they are given, and buffers with bytes that nobody wrote."""
        groups, found = self.members(entry), []
        kinds = [kind for kind, _ in function.parameters if isinstance(kind, c.Pointer)][1:-1]
        for number, kind in enumerate(kinds):
            if number >= len(groups):
                found.append((kind, self.new(kind.to, UNTOUCHED)))
            elif isinstance(kind.to, c.Record):
                found.append((kind, dict(zip(self.unit.records[kind.to.name], [cells[k] for k in groups[number]]))))
            else:
                found.append((kind, cells[groups[number][0]]))
        return found

    def delivered(self, entry: int, objects: list[Any]) -> tuple[list[int], list[bytes]]:
        """Cells and copies, as they are in the caller's objects."""
        groups = self.members(entry)
        cells = [0] * sum(map(len, groups))
        for group, found in zip(groups, objects):
            for number, value in zip(group, found.values() if isinstance(found, dict) else [found]):
                cells[number] = value
        return cells, [bytes(copy["bytes"][: copy["count"]]) for copy in objects[len(groups) :]]


def whole(members: dict[str, Any]) -> dict[str, Any]:
    """A struct of which each member was written."""
    missing = [name for name, value in members.items() if value is None]
    if missing:
        raise Undefined("nothing is told of %s" % ", ".join(missing))
    return members
