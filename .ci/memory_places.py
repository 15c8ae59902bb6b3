"""Where a function answers want of memory of itself: it makes the value that says so, and hands on none that it got.

A place is one of the names below in an expression. In a pattern or a type it is none, and neither is `?`.
"""

import collections
import re
import typing

from rattle_code import CLOSE, OPEN, Token, end_of, functions, running, tokens, up_to

NAMES = {"Memory", "AllocError", "AllocFailed", "OutOfMemory"}
# A name of a function without a path, which is called; of a trait `P::memory()`.
OF_TRAIT = "memory"


def arms(code: list[Token], at: int) -> typing.Iterator[tuple[int, int]]:
    """The patterns of a `match` whose arms begin behind this bracket: from where to where each stands."""
    end = end_of(code, at) - 1
    at += 1
    while at < end:
        arrow = up_to(code, at, {"=>"})
        yield at, min(up_to(code, at, {"if", "=>"}), arrow)
        at = arrow + 1
        at = end_of(code, at) if at < end and code[at].it == "{" else up_to(code, at, {","})
        at += at < end and code[at].it == ","


def turbofish(code: list[Token], at: int) -> int:
    """The place behind the `>` that closes the `<` at this place."""
    depth = 0
    while at < len(code):
        depth += (code[at].it == "<") - (code[at].it == ">")
        at += 1
        if depth == 0:
            break
    return at


def apart(code: list[Token]) -> set[int]:
    """The places that stand in a pattern or in a type."""
    found: set[int] = set()
    for at, token in enumerate(code):
        after = code[at + 1].it if at + 1 < len(code) else ""
        if token.it == "match":
            for begin, end in arms(code, up_to(code, at, {"{"})):
                found.update(range(begin, end))
        elif token.it == "let":
            found.update(range(at, up_to(code, at, {"=", ";"})))
        elif token.it == "for":
            found.update(range(at, up_to(code, at, {"in", "{"})))
        elif token.it == "matches" and after == "!":
            end = end_of(code, at + 2) - 1
            found.update(range(up_to(code, at + 3, {","}), up_to(code, at + 3, {"if"}) if end else end))
        elif token.it in {"fn", "impl", "struct", "enum", "trait", "type"}:
            found.update(range(at, up_to(code, at, {"{", ";"})))
        elif token.it == "::" and after == "<":
            found.update(range(at, turbofish(code, at + 1)))
        elif token.it == "->":
            found.update(range(at, up_to(code, at, {"{", ";", ",", "=>"})))
    return found


def declared(code: list[Token]) -> set[int]:
    """The places in the bodies of enums and structs, which name what there is and make nothing."""
    found: set[int] = set()
    for at, token in enumerate(code):
        if token.it in {"enum", "struct"}:
            begin = up_to(code, at, {"{", ";"})
            if begin < len(code) and code[begin].it == "{":
                found.update(range(begin, end_of(code, begin)))
    return found


def is_place(code: list[Token], at: int, called: frozenset[str]) -> bool:
    """Whether the word at this place makes want of memory, or calls what does nothing else."""
    word = code[at].it
    before, after = code[at - 1].it if at else "", code[at + 1].it if at + 1 < len(code) else ""
    if word in NAMES:
        return after != "::" and before != "."
    if word == OF_TRAIT:
        return before == "::" and after == "("
    return word in called and after == "(" and before not in {"fn", "."}


def places(text: str, called: frozenset[str] = frozenset()) -> collections.Counter:
    """How many places each function of a file has; `-` stands for what is in none."""
    code = running(tokens(text))
    without = apart(code) | declared(code)
    owner = ["-"] * len(code)
    for name, begin, end in functions(code):
        owner[begin:end] = [name] * (end - begin)
    return collections.Counter(owner[at] for at in range(len(code)) if at not in without and is_place(code, at, called))


def renamed(text: str) -> list[str]:
    """The names that the file brings in under another one, by which a place would not be seen."""
    found = re.findall(r"(?m)^\s*(?!ghost)(?:pub )?use [^;]*?\b(\w+) as \w+", text)
    return [it for it in found if it in NAMES]
