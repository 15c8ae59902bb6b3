"""Strided values: sets of words of one size, as lo, lo + step, .., hi modulo 2 to the size.

The rules of docs/domains.md. A value is a tuple (size, lo, hi, step) in normal form; a piece is (lo, hi, step).
"""

from collections.abc import Callable
from functools import reduce
from math import gcd

Stride = tuple[int, int, int, int]
Piece = tuple[int, int, int]
Split = Callable[[Stride], list[Piece]]


def whole(size: int) -> Stride:
    half = 1 << (size - 1)
    return (size, -half, half - 1, 1)


def norm(size: int, lo: int, hi: int, step: int) -> Stride:
    """The value of these numbers, which are moved so that lo lies in the signed range."""
    if hi - lo >= 1 << size:
        return whole(size)
    half = 1 << (size - 1)
    moved = (lo + half) % (1 << size) - half
    return (size, moved, moved + hi - lo, step if hi > lo else 0)


def single(size: int, word: int) -> Stride:
    return norm(size, word, word, 0)


def word_of(value: Stride) -> int | None:
    """The word of a value that has one alone."""
    return value[1] % (1 << value[0]) if value[1] == value[2] else None


def join(first: Stride, second: Stride) -> Stride:
    """The placing of the shortest hull counts, of equals the first."""
    if first == second:
        return first
    (size, la, ha, sa), (_, lb, hb, sb) = first, second
    span = 1 << size
    placings = [
        (min(la + up, lb + other), max(ha + up, hb + other), gcd(sa, sb, la + up - lb - other))
        for up, other in ((0, 0), (span, 0), (0, span))
    ]
    return norm(size, *min(placings, key=lambda it: it[1] - it[0]))


def join_all(values: list[Stride]) -> Stride:
    """The values, of which there is one at least, joined from the left."""
    return reduce(join, values)


def part(piece: Piece, least: int, greatest: int) -> Piece | None:
    """The numbers of a piece from the least to the greatest."""
    lo, hi, step = piece
    if step == 0:
        return piece if least <= lo <= greatest else None
    first = lo if least <= lo else lo + (least - lo + step - 1) // step * step
    last = hi if hi <= greatest else lo + (greatest - lo) // step * step
    if first > last:
        return None
    return (first, last, step if first < last else 0)


def parts(value: Stride, bounds: list[tuple[int, int, int]]) -> list[Piece]:
    found = []
    for least, greatest, move in bounds:
        piece = part(value[1:], least, greatest)
        if piece:
            found.append((piece[0] + move, piece[1] + move, piece[2]))
    return found


def unsigned(value: Stride) -> list[Piece]:
    """The numbers below 0 raised, those from 0 on, those past the range lowered."""
    size, lo, hi, _ = value
    span = 1 << size
    if lo >= 0 and hi < span:
        return [value[1:]]
    return parts(value, [(lo, -1, span), (0, span - 1, 0), (span, hi, -span)])


def signed(value: Stride) -> list[Piece]:
    """The numbers of the signed range, and those past it lowered."""
    size, lo, hi, _ = value
    half = 1 << (size - 1)
    if hi < half:
        return [value[1:]]
    return parts(value, [(lo, half - 1, 0), (half, hi, -2 * half)])


def of_pieces(size: int, pieces: list[Piece | None]) -> Stride | None:
    """What is left of pieces, joined; None where nothing is."""
    left = [norm(size, *piece) for piece in pieces if piece]
    return join_all(left) if left else None


def has(value: Stride, word: int) -> bool:
    return any(part(piece, word, word) for piece in unsigned(value))


def only(value: Stride, word: int) -> Stride | None:
    return single(value[0], word) if has(value, word) else None


def dropped(piece: Piece, word: int) -> Piece | None:
    lo, hi, step = piece
    if lo == hi:
        return None if lo == word else piece
    lo, hi = (lo + step if lo == word else lo), (hi - step if hi == word else hi)
    return (lo, hi, step if lo < hi else 0) if lo <= hi else None


def without(value: Stride, word: int) -> Stride | None:
    """The word is dropped where it is the first or the last number of an unsigned piece."""
    return of_pieces(value[0], [dropped(piece, word) for piece in unsigned(value)])


def least(pieces: list[Piece]) -> int:
    return min(piece[0] for piece in pieces)


def greatest(pieces: list[Piece]) -> int:
    return max(piece[1] for piece in pieces)


def assume(value: Stride, relation: str, other: Stride) -> Stride | None:
    """What is left of a value that is in the relation to some word of the other side."""
    word = word_of(other)
    if relation == "neq":
        return value if word is None else without(value, word)
    if relation == "eq" and word is not None:
        return only(value, word)
    split = signed if relation.startswith("s_") else unsigned
    numbers, given = split(value), split(other)
    low, high = least(numbers), greatest(numbers)
    if relation[2:] in ("lt", "le") or relation == "eq":
        high = greatest(given) - (relation[2:] == "lt")
    if relation[2:] in ("gt", "ge") or relation == "eq":
        low = least(given) + (relation[2:] == "gt")
    return of_pieces(value[0], [part(piece, low, high) for piece in numbers])
