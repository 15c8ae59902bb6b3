"""A file of Rattle as tokens, with what stands in each of its functions.

Comments, texts, contracts and ghost items are left out, so that what remains is the code that runs.
"""

import dataclasses
import re
import typing

TOKEN = re.compile(
    r"""(?P<skip>\s+|//[^\n]*|/\*.*?\*/)
    |(?P<text>b?r(?P<marks>\#*)".*?"(?P=marks)|b?"(?:[^"\\]|\\.)*"
        |b?'(?:[^'\\\n]|\\[^'\n]|\\'|\\x[0-9a-f]{2}|\\u\{\w+\})')
    |(?P<life>'[a-z_]\w*)
    |(?P<word>\w+'*)
    |(?P<mark>=>|->|::|==|!=|<=|>=|&&|\|\||\.\.=|\.\.|.)""",
    re.S | re.X,
)
OPEN, CLOSE = {"(": ")", "[": "]", "{": "}"}, {")", "]", "}"}
CONTRACT = {"requires", "ensures", "invariant", "decreases"}


@dataclasses.dataclass(frozen=True)
class Token:
    """A word, a mark or a text, and its line."""

    it: str
    line: int


def tokens(text: str) -> list[Token]:
    """The tokens of a text without blanks and comments; a text stands as one token of two quotation marks."""
    found, line = [], 1
    for it in TOKEN.finditer(text):
        if it["text"] is not None:
            found.append(Token('""', line))
        elif it["skip"] is None:
            found.append(Token(it[0], line))
        line += it[0].count("\n")
    return found


def end_of(code: list[Token], at: int) -> int:
    """The place after the bracket that closes the one at this place."""
    depth = 0
    while at < len(code):
        depth += code[at].it in OPEN
        depth -= code[at].it in CLOSE
        at += 1
        if depth == 0:
            return at
    return at


def up_to(code: list[Token], at: int, marks: set[str]) -> int:
    """The first place from here where one of these marks stands outside of brackets that open from here on."""
    while at < len(code) and code[at].it not in marks:
        if code[at].it in CLOSE:
            return at
        at = end_of(code, at) if code[at].it in OPEN else at + 1
    return at


def running(code: list[Token]) -> list[Token]:
    """The tokens without contracts, ghost items, attributes and what is brought in from elsewhere."""
    found, at = [], 0
    while at < len(code):
        word, after = code[at].it, code[at + 1].it if at + 1 < len(code) else ""
        if word in CONTRACT and (after == "{" or code[at + 2 : at + 3] and code[at + 2].it == "{"):
            at = end_of(code, at + 1 + (after != "{"))
        elif word == "ghost":
            at = up_to(code, at, {";"}) + 1
        elif word == "use" and (not found or found[-1].it in {";", "}", "{", "pub", ")", "]"}):
            at = up_to(code, at, {";"}) + 1
        elif word == "#" and after in {"[", "!"}:
            at = end_of(code, at + 1 + (after == "!"))
        else:
            found.append(code[at])
            at += 1
    return found


def functions(code: list[Token]) -> typing.Iterator[tuple[str, int, int]]:
    """Each function with a body: its name and where its body begins and ends. One within another comes after it."""
    for at in range(len(code) - 1):
        if code[at].it == "fn" and re.fullmatch(r"\w+", code[at + 1].it):
            begin = up_to(code, at, {"{", ";"})
            if begin < len(code) and code[begin].it == "{":
                yield code[at + 1].it, begin, end_of(code, begin)
