"""Abstract memory: for each frame bytes and cells, as docs/values.md has them. Nothing is changed where it is.

A byte is (words or None, u, p), a cell (value or None, u, x): what they may hold, and their two flags.
"""

from typing import NamedTuple

from recheck import transfer
from recheck.strides import Stride, join
from recheck.values import MIXED, UNINIT, Value, either

Byte = tuple[Stride | None, bool, bool]
Cell = tuple[Value | None, bool, bool]
Place = tuple[int, int]
NO_BYTE: Byte = (None, True, False)


class FrameMemory(NamedTuple):
    """What is kept of a frame: bytes by offset, and cells by offset and size."""

    bytes: dict[int, Byte]
    cells: dict[Place, Cell]


EMPTY = FrameMemory({}, {})
Memory = dict[int, FrameMemory]


def bytes_at(frame: FrameMemory, place: Place) -> list[Byte]:
    offset, size = place
    return [frame.bytes.get(at, NO_BYTE) for at in range(offset, offset + size // 8)]


def cell_at(frame: FrameMemory, place: Place) -> Cell:
    """A cell that is not kept has no value, u where some byte has it, x where every byte has a word or p."""
    kept = frame.cells.get(place)
    if kept:
        return kept
    covered = bytes_at(frame, place)
    return None, any(it[1] for it in covered), all(it[0] or it[2] for it in covered)


def load(frame: FrameMemory, place: Place) -> tuple[Value | None, int]:
    value, unset, from_bytes = cell_at(frame, place)
    faults = UNINIT if unset else 0
    if from_bytes:
        covered = bytes_at(frame, place)
        faults |= MIXED if any(it[2] for it in covered) else 0
        if all(it[0] for it in covered):
            value = either(value, (concatenated([it[0] for it in covered if it[0]]), ()))
    return value, faults


def concatenated(words: list[Stride]) -> Stride:
    """The highest byte first."""
    found = words[-1]
    for word in words[-2::-1]:
        value, _ = transfer.apply("conc", [found[0], word[0]], [found, word])
        assert value is not None
        found = value
    return found


def new_byte(value: Value, size: int, at: int) -> Byte:
    """The byte that a store of the value leaves at its byte of this number."""
    words, offsets = value
    if words is None:
        return None, False, True
    if words[1] == words[2]:
        byte: Stride | None = transfer.single(8, words[1] >> 8 * at & 255)
    else:
        byte, _ = transfer.apply("select", [size, 8 * at, 8 * at + 7], [words])
    return byte, False, bool(offsets)


def sharing(frame: FrameMemory, place: Place) -> list[Place]:
    """The other kept cells that share a byte with a cell."""
    offset, end = place[0], place[0] + place[1] // 8
    return [it for it in frame.cells if it[0] < end and offset < it[0] + it[1] // 8 and it != place]


def strong(frame: FrameMemory, place: Place, value: Value) -> FrameMemory:
    offset, size = place
    cells = dict(frame.cells)
    for other in sharing(frame, place):
        del cells[other]
    cells[place] = (value, False, False)
    found = dict(frame.bytes)
    for at in range(size // 8):
        found[offset + at] = new_byte(value, size, at)
    return FrameMemory(found, cells)


def weak(frame: FrameMemory, place: Place, value: Value) -> FrameMemory:
    offset, size = place
    held, unset, from_bytes = cell_at(frame, place)
    cells = dict(frame.cells)
    for other in sharing(frame, place):
        cells[other] = (*cells[other][:2], True)
    cells[place] = (either(held, value), unset, from_bytes)
    found = dict(frame.bytes)
    for at in range(size // 8):
        found[offset + at] = join_bytes(frame.bytes.get(offset + at, NO_BYTE), new_byte(value, size, at))
    return FrameMemory(found, cells)


def pinned(frame: FrameMemory, place: Place, value: Value) -> FrameMemory:
    return FrameMemory(frame.bytes, {**frame.cells, place: (value, False, False)})


def join_bytes(first: Byte, second: Byte) -> Byte:
    words = join(first[0], second[0]) if first[0] and second[0] else first[0] or second[0]
    return words, first[1] or second[1], first[2] or second[2]


def join_frames(first: FrameMemory, second: FrameMemory) -> FrameMemory:
    if first is second:
        return first
    found = dict(first.bytes)
    if first.bytes is not second.bytes:
        for at in first.bytes.keys() | second.bytes.keys():
            one, other = first.bytes.get(at, NO_BYTE), second.bytes.get(at, NO_BYTE)
            found[at] = one if one == other else join_bytes(one, other)
    cells = {}
    for place in first.cells.keys() | second.cells.keys():
        a, b = cell_at(first, place), cell_at(second, place)
        cells[place] = a if a == b else (either(a[0], b[0]), a[1] or b[1], a[2] or b[2])
    return FrameMemory(found, cells)


def join_memories(first: Memory, second: Memory) -> Memory:
    return {it: join_frames(first.get(it, EMPTY), second.get(it, EMPTY)) for it in first.keys() | second.keys()}
