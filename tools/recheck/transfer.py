"""What an operator gives of strided values: the rules of docs/domains.md, row by row."""

from collections.abc import Callable
from itertools import product as choices
from math import gcd

from recheck.strides import (
    Piece, Split, Stride, greatest, has, join, join_all, least, norm, signed, single, unsigned, whole, without, word_of,
)  # fmt: skip
from recheck.words import DIVISIONS, RELATIONS, number_of, read_signed, result_size, toward_zero

Rule = Callable[[list[int], list[Stride]], Stride]


def apply(name: str, sizes: list[int], given: list[Stride]) -> tuple[Stride | None, bool]:
    """The value, None where there is none, and whether a division by 0 is told."""
    words = [it[1] % (1 << it[0]) for it in given if it[1] == it[2]]
    divides = name in DIVISIONS and has(given[1], 0)
    if len(words) == len(given):
        return (None, True) if divides else (single(result_size(name, sizes), number_of(name, sizes, words)), False)
    if divides:
        rest = without(given[1], 0)
        if rest is None:
            return None, True
        given = [given[0], rest]
    if name in RELATIONS:
        may_hold, may_fail = related(name, *given)
        return whole(1) if may_hold and may_fail else single(1, int(may_hold)), False
    return RULES[name](sizes, given), divides


def related(name: str, first: Stride, second: Stride) -> tuple[bool, bool]:
    """Whether the relation may hold, and whether it may fail."""
    if name == "neq":
        may_fail, may_hold = related("eq", first, second)
        return may_hold, may_fail
    if name == "eq":
        pairs = choices(unsigned(first), unsigned(second))
        may_hold = any(a[0] <= b[1] and b[0] <= a[1] and is_multiple(a[0] - b[0], gcd(a[2], b[2])) for a, b in pairs)
        return may_hold, word_of(first) is None or word_of(first) != word_of(second)
    sign, order = name[:2], name[2:]
    if order in ("gt", "ge"):
        return related(sign + {"gt": "lt", "ge": "le"}[order], second, first)
    split = signed if sign == "s_" else unsigned
    a, b, more = split(first), split(second), int(order == "le")
    return least(a) < greatest(b) + more, greatest(a) >= least(b) + more


def is_multiple(number: int, divisor: int) -> bool:
    return number == 0 if divisor == 0 else number % divisor == 0


def each(split: Split, size: int, values: list[Stride], rule: Callable[..., Piece]) -> Stride:
    """The rule at each choice of pieces, the first operand slowest, joined from the left."""
    return join_all([norm(size, *rule(*chosen)) for chosen in choices(*map(split, values))])


def by_pieces(name: str, split: Split, rule: Callable[..., Piece]) -> Rule:
    return lambda sizes, given: each(split, result_size(name, sizes), given, rule)


def carried(given: list[Stride], lo: int, hi: int) -> Stride:
    """The sums or differences with each carry that may be."""
    (size, _, _, sa), (_, _, _, sb), carry = given
    return join_all([norm(size, lo + bit, hi + bit, gcd(sa, sb)) for bit in (0, 1) if has(carry, bit)])


def added(_: list[int], given: list[Stride]) -> Stride:
    (_, la, ha, _), (_, lb, hb, _), _ = given
    return carried(given, la + lb, ha + hb)


def subtracted(_: list[int], given: list[Stride]) -> Stride:
    (_, la, ha, _), (_, lb, hb, _), _ = given
    return carried(given, la - hb - 1, ha - lb - 1)


def multiplied(a: Piece, b: Piece) -> Piece:
    ends = [x * y for x in a[:2] for y in b[:2]]
    return min(ends), max(ends), gcd(a[0] * b[2], b[0] * a[2], a[2] * b[2])


def by_one(name: str, split: Split, rule: Callable[[Piece, int], Piece]) -> Rule:
    """By one word the rule, else all."""

    def found(sizes: list[int], given: list[Stride]) -> Stride:
        size, word = result_size(name, sizes), word_of(given[1])
        if word is None:
            return whole(size)
        number = read_signed(word, given[1][0]) if name in ("s_div", "s_mod") else word
        return each(split, size, given[:1], lambda piece: rule(piece, number))

    return found


def quotients(piece: Piece, divisor: int) -> Piece:
    ends = [toward_zero(end, divisor) for end in piece[:2]]
    return min(ends), max(ends), 1


def rests(piece: Piece, divisor: int) -> Piece:
    lo, hi, step = piece
    return (lo % divisor, hi % divisor, step) if lo // divisor == hi // divisor else (0, divisor - 1, 1)


def signed_rests(piece: Piece, divisor: int) -> Piece:
    most = abs(divisor) - 1
    return max(piece[0], -most) if piece[0] < 0 else 0, min(piece[1], most) if piece[1] > 0 else 0, 1


def shifted(piece: Piece, places: int) -> Piece:
    """Ends and step divided by 2 to the places; the step is 1 where that is not whole."""
    lo, hi, step = (it >> min(places, 64) for it in piece)
    return lo, hi, step if step << min(places, 64) == piece[2] else 1


def l_shift(sizes: list[int], given: list[Stride]) -> Stride:
    (size, lo, hi, step), places = given[0], word_of(given[1])
    if places is None:
        return whole(size)
    return single(size, 0) if places >= size else norm(size, lo << places, hi << places, step << places)


def bits_and(_: list[int], given: list[Stride]) -> Stride:
    size = given[0][0]
    for mask, other in (given, given[::-1]):
        word = word_of(mask)
        if word is not None and word & (word + 1) == 0:
            return lowest(other, word.bit_length())
    return norm(size, 0, min(greatest(unsigned(value)) for value in given), 1)


def lowest(value: Stride, count: int) -> Stride:
    """The lowest bits of a value."""
    size = value[0]
    if count in (0, size):
        return value if count else single(size, 0)
    return RULES["z_ext"]([count, size], [norm(count, *value[1:])])


def select(sizes: list[int], given: list[Stride]) -> Stride:
    size, low, high = sizes
    return norm(high - low + 1, *each(unsigned, size, given, lambda piece: shifted(piece, low))[1:])


def conc(sizes: list[int], given: list[Stride]) -> Stride:
    n = sizes[1]
    return each(
        unsigned, sum(sizes), given, lambda a, b: ((a[0] << n) + b[0], (a[1] << n) + b[1], gcd(a[2] << n, b[2]))
    )


def choice(_: list[int], given: list[Stride]) -> Stride:
    bit = word_of(given[0])
    return join(given[1], given[2]) if bit is None else given[1] if bit else given[2]


def every(name: str) -> Rule:
    return lambda sizes, _: whole(result_size(name, sizes))


def least_ends(a: Piece, b: Piece) -> Piece:
    return min(a[0], b[0]), min(a[1], b[1]), 1


def greatest_ends(a: Piece, b: Piece) -> Piece:
    return max(a[0], b[0]), max(a[1], b[1]), 1


RULES: dict[str, Rule] = {
    **{name: every(name) for name in ("c_add", "c_sub", "rot_l", "rot_r", "or", "xor")},
    "neg": lambda sizes, given: norm(sizes[0], -given[0][2], -given[0][1], given[0][3]),
    "not": lambda sizes, given: norm(sizes[0], -given[0][2] - 1, -given[0][1] - 1, given[0][3]),
    "add": added,
    "sub": subtracted,
    "u_mul": by_pieces("u_mul", unsigned, multiplied),
    "s_mul": by_pieces("s_mul", signed, multiplied),
    "u_div": by_pieces("u_div", unsigned, lambda a, b: (a[0] // max(b[1], 1), a[1] // max(b[0], 1), 1)),
    "s_div": by_one("s_div", signed, quotients),
    "u_mod": by_one("u_mod", unsigned, rests),
    "s_mod": by_one("s_mod", signed, signed_rests),
    "l_shift": l_shift,
    "r_shift": by_one("r_shift", unsigned, shifted),
    "r_shift_a": by_one("r_shift_a", signed, shifted),
    "and": bits_and,
    "s_ext": by_pieces("s_ext", signed, lambda piece: piece),
    "z_ext": by_pieces("z_ext", unsigned, lambda piece: piece),
    "trunc": lambda sizes, given: norm(sizes[1], *given[0][1:]),
    "select": select,
    "conc": conc,
    "if": choice,
    "u_min": by_pieces("u_min", unsigned, least_ends),
    "u_max": by_pieces("u_max", unsigned, greatest_ends),
    "s_min": by_pieces("s_min", signed, least_ends),
    "s_max": by_pieces("s_max", signed, greatest_ends),
}
