"""What an expression may give of a memory: its value, None where there is none, and the faults that may come."""

from collections.abc import Callable, Iterator

from recheck.memory import EMPTY, Memory, load, strong, weak
from recheck.program import Frame
from recheck.strides import Stride, part, single, unsigned
from recheck.tree import Address, Expression, Load, Number, Operation
from recheck.values import BOUNDS, DEAD, KIND, Value, either, of_words, operate, pointer

Found = tuple[Value | None, int]
Evaluator = Callable[[Memory], Found]
# A cell of any frame: the frame, and the offset in it.
Spot = tuple[int, int]


class Expressions:
    """Expressions where the frames that are active are told."""

    def __init__(self, frames: list[Frame], active: frozenset[int]) -> None:
        self.frames = frames
        self.active = active
        self.made: dict[int, Evaluator] = {}

    def value(self, term: Expression, memory: Memory) -> Found:
        if id(term) not in self.made:
            self.made[id(term)] = self.evaluator(term)
        return self.made[id(term)](memory)

    def evaluator(self, term: Expression) -> Evaluator:
        match term:
            case Number(size, word):
                fixed: Found = (of_words(single(size, word)), 0)
                return lambda _: fixed
            case Address(frame, offset):
                address: Found = (pointer(int(frame), offset), 0)
                return lambda _: address
            case Load(size, of):
                return self.loader(size, self.evaluator(of))
            case Operation(name, sizes, operands):
                return operator(name, list(sizes), [self.evaluator(it) for it in operands])

    def loader(self, size: int, address_of: Evaluator) -> Evaluator:
        def found(memory: Memory) -> Found:
            address, faults = address_of(memory)
            if address is None:
                return None, faults
            spots, fault = self.spots(address, size)
            faults |= fault
            value: Value | None = None
            for frame, offset in spots:
                held, fault = load(memory.get(frame, EMPTY), (offset, size))
                value, faults = either(value, held), faults | fault
            return value, faults

        return found

    def spots(self, address: Value, size: int) -> tuple[list[Spot], int]:
        """The cells that an address may name, in their order, and the faults that may come."""
        words, frames = address
        faults, found = KIND if words else 0, []
        for frame, offsets in frames:
            if frame not in self.active:
                faults |= DEAD
                continue
            last = self.frames[frame].size - size // 8
            found += [(frame, it) for it in within(offsets, last)]
            if any(piece[1] > last for piece in unsigned(offsets)):
                faults |= BOUNDS
        return found, faults

    def stored(self, address: Value, size: int, value: Value, memory: Memory) -> tuple[Memory | None, int]:
        """Strong where one cell is possible; no memory where none is."""
        spots, faults = self.spots(address, size)
        store = strong if len(spots) == 1 else weak
        found = dict(memory)
        for frame, offset in spots:
            found[frame] = store(found.get(frame, EMPTY), (offset, size), value)
        return found if spots else None, faults


def operator(name: str, sizes: list[int], operands: list[Evaluator]) -> Evaluator:
    """All operands are found from left to right; one without a value ends it."""

    def found(memory: Memory) -> Found:
        given: list[Value] = []
        faults = 0
        for operand in operands:
            value, fault = operand(memory)
            faults |= fault
            if value is None:
                return None, faults
            given.append(value)
        result, fault = operate(name, sizes, given)
        return result, faults | fault

    return found


def within(offsets: Stride, last: int) -> Iterator[int]:
    """The offsets up to the last, piece by piece, each from its least."""
    for piece in unsigned(offsets):
        inside = part(piece, 0, last)
        if inside:
            yield from range(inside[0], inside[1] + 1, inside[2] or 1)
