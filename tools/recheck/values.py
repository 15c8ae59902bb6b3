"""Abstract values: words of a size, and offsets in frames, as docs/values.md has them.

A value is a pair: its words as a strided value or None, and by ascending number of frame its offsets.
"""

from collections.abc import Iterable
from itertools import product

from recheck import transfer
from recheck.strides import Stride, join, single
from recheck.words import RELATIONS

Value = tuple[Stride | None, tuple[tuple[int, Stride], ...]]
DIVIDE, UNINIT, MIXED, BOUNDS, DEAD, KIND, POINTERS = (1 << place for place in range(7))
# An alternative: the number of a frame or None, and words or offsets.
Alternative = tuple[int | None, Stride]


def of_words(words: Stride) -> Value:
    return (words, ())


def pointer(frame: int, offset: int) -> Value:
    return (None, ((frame, single(32, offset)),))


def of_alternative(frame: int | None, part: Stride) -> Value:
    return (part, ()) if frame is None else (None, ((frame, part),))


def alternatives(value: Value) -> list[Alternative]:
    words, offsets = value
    return [*([(None, words)] if words else []), *offsets]


def join_values(first: Value, second: Value) -> Value:
    """Part by part."""
    if first == second:
        return first
    words = join(first[0], second[0]) if first[0] and second[0] else first[0] or second[0]
    if not first[1] and not second[1]:
        return (words, ())
    found = dict(first[1])
    for frame, offsets in second[1]:
        found[frame] = join(found[frame], offsets) if frame in found else offsets
    return (words, tuple(sorted(found.items())))


def either(first: Value | None, second: Value | None) -> Value | None:
    return join_values(first, second) if first and second else first or second


def joined(values: Iterable[Value]) -> Value | None:
    found: Value | None = None
    for value in values:
        found = either(found, value)
    return found


def operate(name: str, sizes: list[int], given: list[Value]) -> tuple[Value | None, int]:
    """The value, None where there is none, and the faults that may come."""
    if all(not offsets for _, offsets in given):
        found, divides = transfer.apply(name, sizes, [words for words, _ in given if words])
        return (found, ()) if found else None, DIVIDE if divides else 0
    value: Value | None = None
    faults = 0
    for chosen in product(*map(alternatives, given)):
        part, fault = at_choice(name, sizes, list(chosen))
        value, faults = either(value, part), faults | fault
    return value, faults


def at_choice(name: str, sizes: list[int], chosen: list[Alternative]) -> tuple[Value | None, int]:
    frames = [frame for frame, _ in chosen]
    given = [part for _, part in chosen]
    if all(frame is None for frame in frames):
        return operate(name, sizes, [of_words(it) for it in given])
    if name == "if":
        return chosen_value(chosen), KIND if frames[0] is not None else 0
    if name in ("add", "sub"):
        return moved(name, sizes, frames, given)
    if name in RELATIONS and not name.startswith("s_"):
        return compared(name, sizes, frames, given)
    return None, KIND


def chosen_value(chosen: list[Alternative]) -> Value | None:
    """What the bit may choose; nothing of a bit that is a pointer."""
    if chosen[0][0] is not None:
        return None
    bits = [bit for bit in (1, 0) if transfer.has(chosen[0][1], bit)]
    return joined(of_alternative(*chosen[2 - bit]) for bit in bits)


def moved(name: str, sizes: list[int], frames: list[int | None], given: list[Stride]) -> tuple[Value | None, int]:
    first, second, carry = frames
    if carry is not None or (name == "add" and None not in (first, second)) or (name == "sub" and first is None):
        return None, KIND
    if name == "sub" and second is not None and first != second:
        return None, POINTERS
    found, _ = transfer.apply(name, sizes, given)
    assert found is not None
    frame = None if name == "sub" and second is not None else second if first is None else first
    return of_alternative(frame, found), 0


def compared(name: str, sizes: list[int], frames: list[int | None], given: list[Stride]) -> tuple[Value | None, int]:
    if None in frames:
        return None, KIND
    if frames[0] == frames[1]:
        found, _ = transfer.apply(name, sizes, given)
        assert found is not None
        return of_words(found), 0
    if name in ("eq", "neq"):
        return of_words(single(1, int(name == "neq"))), 0
    return None, POINTERS
