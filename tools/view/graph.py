"""The graph of a program: its blocks, expanded by its calls."""

import dataclasses

from view.differs import Differs
from view.items import Function

ENTRY = -1


@dataclasses.dataclass(frozen=True, slots=True, order=True)
class Place:
    """A node: the blocks of the calls that lead to its instance, and its block, or `ENTRY`."""

    path: tuple[int, ...]
    block: int


class Graph:
    """Nodes in the order of the report, the edges between them, and the nodes from which the run ends."""

    def __init__(self, functions: list[Function], root: str) -> None:
        self.by_name = {it.name: it for it in functions}
        # The name of the function that is called at the end of each path.
        self.called: dict[tuple[int, ...], str] = {(): root}
        self.found: set[tuple[Place, Place]] = set()
        last: set[Place] = set()
        seen, ahead = {Place((), ENTRY)}, [Place((), ENTRY)]
        while ahead:
            place = ahead.pop()
            for successor in self.successors(place):
                if successor is None:
                    last.add(place)
                    continue
                self.found.add((place, successor))
                if successor not in seen:
                    seen.add(successor)
                    ahead.append(successor)
        self.places = sorted(seen)
        number = {place: at for at, place in enumerate(self.places)}
        self.edges = sorted((number[source], number[target]) for source, target in self.found)
        self.last = sorted(number[it] for it in last)

    def function_at(self, path: tuple[int, ...]) -> Function:
        return self.by_name[self.called[path]]

    def successors(self, place: Place) -> list[Place | None]:
        """Where edges lead from a place; `None` is the end of the run."""
        path, function = place.path, self.function_at(place.path)
        if place.block == ENTRY:
            return [Place(path, 0)]
        item = function.last_item(place.block)
        if item.kind in ("jump", "switch"):
            return [Place(path, function.block_of_label[it]) for it in item.labels]
        if item.kind == "call":
            inner = (*path, place.block)
            self.called[inner] = item.labels[0]
            return [Place(inner, ENTRY)]
        if item.kind == "return":
            return [Place(path[:-1], path[-1] + 1) if path else None]
        return [Place(path, place.block + 1)]

    def name_of(self, place: Place) -> str:
        """The name of a node, as reports have it."""
        name = f'"{self.called[()]}"'
        for count, block in enumerate(place.path, 1):
            name += f'.{block}"{self.called[place.path[:count]]}"'
        return f"{name}:{'entry' if place.block == ENTRY else place.block}"

    def hold(self, names: list[str]) -> None:
        """The nodes of the report are those of the graph, in order."""
        own = [self.name_of(it) for it in self.places]
        if len(own) != len(names):
            raise Differs(f"{len(own)} nodes by the rules, {len(names)} in the report")
        for number, (left, right) in enumerate(zip(own, names)):
            if left != right:
                raise Differs(f"node {number} is {left} by the rules, {right} in the report")
