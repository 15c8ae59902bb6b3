"""The tokens of a text of C that the program took."""

import dataclasses
import re

from view.differs import Differs

TOKEN = re.compile(
    r"""
  (?P<space>[ \t\r\n]+|//[^\n]*|/\*.*?\*/)
| (?P<name>[A-Za-z_][A-Za-z_0-9]*)
| (?P<number>\.?[0-9](?:[eEpP][+-]|[A-Za-z_0-9.])*)
| (?P<character>'(?:\\.|[^'\\\n])+')
| (?P<mark><<=|>>=|\.\.\.|->|\+\+|--|<<|>>|<=|>=|==|!=|&&|\|\||[-+*/%&|^]=|[][(){}.&*+\-~!/%<>^|?:;=,#])
| (?P<other>.)
""",
    re.X | re.S,
)
# As it is shown, a text may have strings, and bytes of no token.
SHOWN = re.compile(r'(?P<string>"(?:\\.|[^"\\\n])*")|' + TOKEN.pattern, re.X | re.S)
ESCAPES = {"'\\n'": 10, "'\\t'": 9, "'\\0'": 0, "'\\\\'": 92, "'\\''": 39}


@dataclasses.dataclass(frozen=True, slots=True)
class Token:
    """A token and its place: `start` counts characters, `line` and `column` count from 0."""

    kind: str
    text: str
    start: int
    line: int
    column: int

    @property
    def end(self) -> int:
        return self.start + len(self.text)

    @property
    def is_constant(self) -> bool:
        return self.kind in ("number", "character")


def tokens_of(text: str) -> list[Token]:
    """The tokens in order, of a text that has no others."""
    found = tokens_by(TOKEN, text)
    for it in found:
        if it.kind == "other":
            raise Differs(f"a byte of no token at line {it.line + 1}")
    return found


def shown_tokens(text: str) -> list[Token]:
    """The tokens of any text of C, in order."""
    return tokens_by(SHOWN, text)


def tokens_by(form: re.Pattern, text: str) -> list[Token]:
    """The pieces of a text but for space and comments. A line ends at a line feed alone."""
    found, line, begin = [], 0, 0
    for match in form.finditer(text):
        piece = match.group()
        if match.lastgroup != "space":
            found.append(Token(match.lastgroup, piece, match.start(), line, match.start() - begin))
        if "\n" in piece:
            line += piece.count("\n")
            begin = match.start() + piece.rindex("\n") + 1
    return found


def value_of(constant: str) -> int:
    """The value of a constant, which may be a character."""
    if constant[0] == "'":
        return ESCAPES[constant] if constant in ESCAPES else ord(constant[1])
    digits = constant.rstrip("uU")
    if digits[:2] in ("0x", "0X"):
        return int(digits, 16)
    return int(digits, 8 if digits[0] == "0" else 10)
