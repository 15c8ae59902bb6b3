"""A pool of places, and the events that change it: docs/exploration.md."""

import dataclasses

from recheck.graph import END
from recheck.memory import Memory, join_memories
from recheck.recorders import Book, Recorder, join
from recheck.scopes import Outline
from recheck.step import Stepper


@dataclasses.dataclass(slots=True)
class Place:
    """A node, the numbers of the iterations of the scopes around it, a memory and a recorder."""

    node: int
    turns: tuple[int, ...]
    memory: Memory
    recorder: Recorder


class Pool:
    """The places, what was collected, the nodes that were stepped, and the faults that were told at each node."""

    def __init__(self, stepper: Stepper, outline: Outline) -> None:
        self.stepper = stepper
        self.outline = outline
        self.book = Book(outline)
        self.places = [Place(0, (1,), stepper.start, self.book.start())]
        self.stepped = [False] * len(outline.own)
        self.faults = [0] * len(outline.own)

    def apply(self, event: tuple[int, ...]) -> bool:
        """Whether the event is allowed; then it is applied."""
        if len(event) == 1:
            return event[0] < len(self.places) and self.step(event[0])
        first, second = event
        return first < second < len(self.places) and self.merge(first, second)

    def step(self, at: int) -> bool:
        place = self.places[at]
        found = self.stepper.step(place.node, place.memory)
        self.stepped[place.node] = True
        if found.faults:
            self.faults[place.node] |= found.faults
            self.book.finish(place.recorder, place.node)
        on = [(node, memory) for node, memory in found.ways if node != END]
        if len(on) < len(found.ways):
            self.book.finish(place.recorder, place.node)
        later = []
        for number, (node, memory) in enumerate(on, 1):
            recorder = place.recorder if number == len(on) else place.recorder.copy()
            self.book.go(recorder, place.node, node)
            later.append(Place(node, self.turns(place, node), memory, recorder))
        self.places[at : at + 1] = later
        return True

    def turns(self, place: Place, node: int) -> tuple[int, ...]:
        outline = self.outline
        before = dict(zip(outline.around[place.node], place.turns, strict=True))
        return tuple(before.get(it, 0) + (outline.scopes[it].header == node) for it in outline.around[node])

    def merge(self, first: int, second: int) -> bool:
        one, other = self.places[first], self.places[second]
        if one.node != other.node or one.turns != other.turns:
            return False
        memory = join_memories(one.memory, other.memory)
        self.places[first] = Place(one.node, one.turns, memory, join(one.recorder, other.recorder))
        del self.places[second]
        return True
