"""The tokens of a text of ALF."""

import re
from typing import NamedTuple

from recheck.unread import Unread

PIECE = re.compile(
    rb"(?P<blank>[ \t\r\n]+|/\*.*?\*/)|(?P<brace>[{}])|(?P<word>[A-Za-z][A-Za-z0-9_]*)|(?P<number>[0-9]+)"
    rb'|"(?P<name>[ !#-\[\]-~]{1,64})"',
    re.DOTALL,
)
MOST_BYTES = 1_048_576
MOST_DIGITS = 20


class Token(NamedTuple):
    """A piece of a text that is no white space: its kind, what it spells, and where it begins."""

    kind: str
    text: str
    at: int


def tokens_of(text: bytes) -> list[Token]:
    found, at, numbered = [], 0, False
    while at < len(text):
        piece = PIECE.match(text, at)
        kind = piece.lastgroup if piece else None
        if piece is None or kind is None or (numbered and kind in ("word", "number")):
            raise unread(text, at)
        if kind == "number" and len(piece["number"]) > MOST_DIGITS:
            raise unread(text, at)
        if kind != "blank":
            found.append(Token(kind, piece[kind].decode("ascii"), at))
        numbered = kind == "number"
        at = piece.end()
    return found


def unread(text: bytes, at: int) -> Unread:
    line, column = text.count(b"\n", 0, at) + 1, at - text.rfind(b"\n", 0, at)
    return Unread(f"program {line} {column}")
