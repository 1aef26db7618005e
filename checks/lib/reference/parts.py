"""Parts: the order in which they are taken, and what refuses them before anything is looked up."""

import heapq
from typing import Any

from .errors import ModuleError


def users_of(parts: list[Any]) -> tuple[list[list[int]], list[int]]:
    """For each part the numbers of those that use it, and how many each one uses. A name of no part of the input isn't a use."""
    numbers = {part.name[1]: number for number, part in enumerate(parts)}
    used = [{numbers[name] for name, _ in part.qualified if name in numbers} for part in parts]
    users: list[list[int]] = [[] for _ in parts]
    for number, names in enumerate(used):
        for other in names:
            users[other].append(number)
    return users, [len(names) for names in used]


def order_of(parts: list[Any]) -> list[int]:
    """The numbers of parts as they are taken: the first of the input whose used parts were all taken. Those of a cycle are left."""
    users, waiting = users_of(parts)
    ready = [number for number, count in enumerate(waiting) if not count]
    taken: list[int] = []
    while ready:
        number = heapq.heappop(ready)
        taken.append(number)
        for user in users[number]:
            waiting[user] -= 1
            if not waiting[user]:
                heapq.heappush(ready, user)
    return taken


def reached_from(name: str, uses: dict[str, set[str]]) -> set[str]:
    """The names of the parts that a part reaches by uses, its own too."""
    reached, left = {name}, [name]
    while left:
        for other in uses[left.pop()]:
            if other not in reached:
                reached.add(other)
                left.append(other)
    return reached


def refuse_cycle(parts: list[Any]) -> None:
    """The first qualified name of a part from which the part that the name stands in is reached."""
    names = {part.name[1] for part in parts}
    uses = {part.name[1]: {name for name, _ in part.qualified if name in names} for part in parts}
    reached: dict[str, set[str]] = {}
    for part in parts:
        for name, at in part.qualified:
            if name not in names:
                continue
            if name not in reached:
                reached[name] = reached_from(name, uses)
            if part.name[1] in reached[name]:
                raise ModuleError("N5", at, "module cycle")


def refuse_twice(parts: list[Any]) -> None:
    seen: set[str] = set()
    for part in parts:
        if part.name[1] in seen:
            raise ModuleError("N2", part.name[2], "name twice")
        seen.add(part.name[1])


def linked(parts: list[Any]) -> list[Any]:
    """The definitions of all parts, part after part as these are taken. Each is told its part's name, and how many parts stand before."""
    if parts[:1] and parts[0].name is None:
        order = [0]
    else:
        refuse_twice(parts)
        order = order_of(parts)
        if len(order) < len(parts):
            refuse_cycle(parts)
    found = []
    for turn, number in enumerate(order):
        for tree in parts[number].definitions:
            tree.turn, tree.part = turn, parts[number].name and parts[number].name[1]
            found.append(tree)
    return found
