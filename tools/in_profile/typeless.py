"""Declarations of old programs that have no type: it is int."""

from .pieces import Piece

STORED = {"static", "extern", "register", "auto", "const", "volatile"}
TAGGED = {"struct", "union", "enum"}
# What stands behind the name that is declared.
BEHIND = {"(", "=", ";", ",", "["}
# Words that stand before a bracket, and what may begin the declaration of a parameter behind a head.
NAMELESS = {"_Static_assert", "__attribute__", "__attribute", "asm", "__asm", "__asm__", "_Alignas", "typeof",
            "__typeof__"}


def types_named(code: list[Piece]) -> set[str]:
    """All names that stand in a typedef: each may be a type."""
    found, is_inside = set(), False
    for it in code:
        is_inside = it.text == "typedef" or (is_inside and it.text != ";")
        found |= {it.text} if is_inside else set()
    return found


def typeless(code: list[Piece], closing: dict[int, int], words: frozenset[str]) -> list[int]:
    """The places of names before which a type is lacking; words of C are none of them."""
    opening = {last: first for first, last in closing.items()}
    others, depth, found = types_named(code) | NAMELESS | words, 0, []
    for at, it in enumerate(code):
        depth += (it.text in ("(", "{")) - (it.text in (")", "}"))
        if it.kind != "name" or not begins(code, opening, at):
            continue
        name = at
        while name < len(code) and code[name].text in STORED:
            name += 1
        is_name = name + 1 < len(code) and code[name].kind == "name" and code[name].text not in others
        if not is_name:
            continue
        behind = code[name + 1].text
        if behind in BEHIND if name > at else behind == "(" and not depth and is_head(code, closing, name + 1):
            found.append(code[name].start)
    return found


def begins(code: list[Piece], opening: dict[int, int], at: int) -> bool:
    """Whether a declaration may begin here: behind another one, a block, or a head in the old form."""
    if not at or code[at - 1].text in (";", "{", ")"):
        return True
    first = opening.get(at - 1, 0)
    return code[at - 1].text == "}" and not {it.text for it in code[max(0, first - 2) : first]} & TAGGED


def is_head(code: list[Piece], closing: dict[int, int], at: int) -> bool:
    """Whether the brackets are those of a function that is defined."""
    after = closing.get(at, len(code)) + 1
    return after < len(code) and (code[after].text == "{" or code[after].kind == "name")
