"""The text that is shown, with its tokens and its functions as items."""

import dataclasses

from view import alf_file, c_units
from view.c_tokens import Token
from view.comparison import hold
from view.differs import Differs
from view.items import Function

# What surprises a reader of a text that is not as the rules say.
SURPRISES = (IndexError, KeyError, ValueError, TypeError, RecursionError, AttributeError, StopIteration)


@dataclasses.dataclass(slots=True)
class Source:
    """A text with its tokens and functions. `held` counts the items that were compared with the program's.

    `is_moved` tells that the places of the tokens are lines of the file that `sweet-c` wrote the text from.
    """

    text: str
    tokens: list[Token]
    functions: list[Function]
    globals: dict[str, c_units.Global] = dataclasses.field(default_factory=dict)
    held: int = 0
    is_c: bool = True
    is_moved: bool = False

    def words_of(self, tokens: list[int]) -> str:
        """Tokens as they stand, with one space where space or other tokens are between them."""
        text, end = "", None
        for token in (self.tokens[it] for it in tokens):
            text += (" " if end is not None and end != token.start else "") + token.text
            end = token.end
        return text


def read_c(text: str, lowered: str) -> Source:
    """A file of C, held against what `lower` prints for it."""
    try:
        units = c_units.Units(text)
        functions = units.unit()
        held = hold(functions, lowered)
        return cut(Source(text, units.tokens, functions, units.globals, held))
    except SURPRISES as error:
        raise Differs(f"the rules do not fit this file: {type(error).__name__} {error}") from error


def read_alf(text: str, printed: str) -> Source:
    """A file of ALF, held against what `print` prints for it."""
    try:
        tokens, functions, frames = alf_file.program_of(text, printed)
        held = sum(len(it.items) for it in functions)
        return cut(Source(text, tokens, functions, frames, held, is_c=False))
    except SURPRISES as error:
        raise Differs(f"the text of ALF is not as it should be: {type(error).__name__} {error}") from error


def cut(source: Source) -> Source:
    for function in source.functions:
        function.cut()
    return source
