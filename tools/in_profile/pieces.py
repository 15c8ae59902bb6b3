"""A text after the preprocessor, cut into pieces that know their file and their line."""

import collections.abc
import dataclasses
import os
import re

from .refusal import shown

FORM = re.compile(
    r"""^[ \t]*\#[ \t]*(?:line[ \t]+)?(?P<number>[0-9]+)(?:[ \t]+"(?P<file>(?:[^"\\\n]|\\.)*)")?[^\n]*$"""
    r"""|^[ \t]*\#[ \t]*(?P<word>pragma|ident|sccs)\b(?P<rest>[^\n]*)$"""
    r"""|(?P<text>(?:u8|[LuU])?(?:"(?:[^"\\\n]|\\.)*"|'(?:[^'\\\n]|\\.)*'))"""
    r"""|(?P<name>(?:[^\W\d]|[$\x80-\xff]|\\u[0-9a-fA-F]{4}|\\U[0-9a-fA-F]{8})"""
    r"""(?:[\w$\x80-\xff]|\\u[0-9a-fA-F]{4}|\\U[0-9a-fA-F]{8})*)"""
    r"""|(?P<digits>\.?[0-9](?:[eEpP][+-]|[\w.])*)"""
    r"""|(?P<line>\n)|(?P<sign>[^ \t])""",
    re.M | re.A,
)
ESCAPED = re.compile(rb"\\([0-7]{1,3}|.)", re.S)
LETTERS = {b"n": b"\n", b"t": b"\t", b"r": b"\r", b"a": b"\a", b"b": b"\b", b"f": b"\f", b"v": b"\v"}


@dataclasses.dataclass(frozen=True, slots=True)
class Piece:
    """A piece: its kind, its text, where that stands, and the file and the line that it came from."""

    kind: str
    text: str
    start: int
    end: int
    file: str
    line: int


def unescaped(name: str) -> bytes:
    """A name of a file as the preprocessor writes it between quotes."""
    def byte(found: re.Match[bytes]) -> bytes:
        it = found[1]
        return bytes([int(it, 8) % 256]) if it.isdigit() else LETTERS.get(it, it)

    return ESCAPED.sub(byte, name.encode("latin-1"))


def escaped(name: str) -> bytes:
    """A name of a file as it stands in a line of the preprocessor."""
    return b"".join(b"\\%03o" % it if it in b'"\\' or not 32 <= it < 127 else bytes([it]) for it in os.fsencode(name))


class Names:
    """Names of files as they are told: no two files have one. Those in certain folders stand as these are told."""

    def __init__(self, folders: collections.abc.Iterable[tuple[str, str]] = (),
                 told: dict[str, str] | None = None) -> None:
        self.folders = list(folders)
        self.told = {} if told is None else told

    def of(self, name: str) -> str:
        inside = [it for it in self.folders if name.startswith(it[0])]
        if inside:
            folder, told = max(inside, key=lambda it: len(it[0]))
            name = told + name[len(folder) :]
        if name not in self.told:
            it = shown(name)
            while it in self.told.values():
                it += "_"
            self.told[name] = it
        return self.told[name]

    def shortened(self, text: str) -> str:
        """A text with the folders as they are told."""
        for folder, told in sorted(self.folders, key=lambda it: -len(it[0])):
            text = text.replace(folder, told)
        return text


def pieces(text: str, names: Names, file: str) -> collections.abc.Iterator[Piece]:
    """The pieces of a text in order; lines that tell a place are of the kind `place`."""
    line, told = 1, names.of(file)
    for it in FORM.finditer(text):
        kind = it.lastgroup or ""
        if kind == "line":
            line += 1
        elif it["number"]:
            if it["file"] is not None:
                told = names.of(os.fsdecode(unescaped(it["file"])))
            line = int(it["number"])
            yield Piece("place", f'#line {line} "{told}"', it.start(), it.end(), told, line)
            # The line feed behind it is counted too.
            line -= 1
        elif it["word"]:
            word = it["rest"].strip() if it["word"] == "pragma" else "ident"
            yield Piece("pragma", word, it.start(), it.end(), told, line)
        else:
            yield Piece(kind, it[0], it.start(), it.end(), told, line)
