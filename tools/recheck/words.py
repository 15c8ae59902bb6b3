"""The operators of ALF: the sizes that each takes and gives, and its number of words.

The table of docs/formats/alf-operators.md. Words are whole numbers from 0 to 2 to the size, less 1.
"""

from collections.abc import Callable

ORDERS = ("lt", "le", "gt", "ge")
RELATIONS = ("eq", "neq", *(f"{sign}_{order}" for sign in "us" for order in ORDERS))
DIVISIONS = ("u_div", "s_div", "u_mod", "s_mod")
Layout = Callable[..., tuple[list[int], int] | None]


def each(names: str, sizes: int, operands: int, layout: Layout) -> dict[str, tuple[int, int, Layout]]:
    return {name: (sizes, operands, layout) for name in names.split()}


# The count of sizes and of operands of each operator, and by its sizes those of its operands and of its result.
LAYOUTS: dict[str, tuple[int, int, Layout]] = {
    **each("neg not", 1, 1, lambda s: ([s], s)),
    **each("add sub", 1, 3, lambda s: ([s, s, 1], s)),
    **each("c_add c_sub", 1, 3, lambda s: ([s, s, 1], 1)),
    **each("u_mul s_mul conc", 2, 2, lambda m, n: ([m, n], m + n) if m + n <= 64 else None),
    **each("u_div s_div l_shift r_shift r_shift_a rot_l rot_r", 2, 2, lambda m, n: ([m, n], m)),
    **each("u_mod s_mod", 2, 2, lambda m, n: ([m, n], n)),
    **each("and or xor u_min u_max s_min s_max", 1, 2, lambda s: ([s, s], s)),
    **each(" ".join(RELATIONS), 1, 2, lambda s: ([s, s], 1)),
    **each("s_ext z_ext", 2, 1, lambda m, n: ([m], n) if m <= n else None),
    **each("trunc", 2, 1, lambda m, n: ([m], n) if n <= m else None),
    **each("select", 3, 1, lambda s, low, high: ([s], high - low + 1) if low <= high < s else None),
    **each("if", 1, 3, lambda s: ([1, s, s], s)),
}


def result_size(name: str, sizes: list[int]) -> int:
    layout = LAYOUTS[name][2](*sizes)
    assert layout is not None
    return layout[1]


def read_signed(word: int, size: int) -> int:
    return word - (1 << size) if word >> (size - 1) else word


def toward_zero(dividend: int, divisor: int) -> int:
    quotient = abs(dividend) // abs(divisor)
    return quotient if (dividend < 0) == (divisor < 0) else -quotient


def rotated(word: int, places: int, size: int) -> int:
    places %= size
    return (word << places) | (word >> (size - places))


COMPARED: dict[str, Callable[[int, int], bool]] = {
    "eq": lambda a, b: a == b, "neq": lambda a, b: a != b, "lt": lambda a, b: a < b, "le": lambda a, b: a <= b,
    "gt": lambda a, b: a > b, "ge": lambda a, b: a >= b,
}  # fmt: skip
# The whole number of the table's last column, by the sizes and the words; below, by the signed readings alone.
UNSIGNED: dict[str, Callable[..., int]] = {
    "neg": lambda s, a: -a,
    "not": lambda s, a: ~a,
    "add": lambda s, a, b, c: a + b + c,
    "sub": lambda s, a, b, c: a - b - 1 + c,
    "c_add": lambda s, a, b, c: a + b + c >> s[0],
    "c_sub": lambda s, a, b, c: a + (1 << s[0]) - 1 - b + c >> s[0],
    "u_mul": lambda s, a, b: a * b,
    "u_div": lambda s, a, b: a // b,
    "u_mod": lambda s, a, b: a % b,
    "l_shift": lambda s, a, b: a << b if b < s[0] else 0,
    "r_shift": lambda s, a, b: a >> min(b, 64),
    "r_shift_a": lambda s, a, b: read_signed(a, s[0]) >> min(b, 64),
    "and": lambda s, a, b: a & b,
    "or": lambda s, a, b: a | b,
    "xor": lambda s, a, b: a ^ b,
    "z_ext": lambda s, a: a,
    "trunc": lambda s, a: a,
    "select": lambda s, a: a >> s[1],
    "conc": lambda s, a, b: (a << s[1]) + b,
    "if": lambda s, c, a, b: a if c else b,
    "rot_l": lambda s, a, b: rotated(a, b, s[0]),
    "rot_r": lambda s, a, b: rotated(a, -b, s[0]),
    "u_min": lambda s, a, b: min(a, b),
    "u_max": lambda s, a, b: max(a, b),
}
SIGNED: dict[str, Callable[..., int]] = {
    "s_mul": lambda a, b: a * b,
    "s_div": toward_zero,
    "s_mod": lambda a, b: a - b * toward_zero(a, b),
    "s_ext": lambda a: a,
    "s_min": min,
    "s_max": max,
}


def number_of(name: str, sizes: list[int], words: list[int]) -> int:
    """No divisor is 0."""
    if name in UNSIGNED:
        return UNSIGNED[name](sizes, *words)
    layout = LAYOUTS[name][2](*sizes)
    assert layout is not None
    if name in SIGNED or name.startswith("s_"):
        words = [read_signed(word, size) for word, size in zip(words, layout[0], strict=True)]
    if name in SIGNED:
        return SIGNED[name](*words)
    return COMPARED[name if name in COMPARED else name[2:]](*words)
