"""Reading the tokens of C one after the other.

Only texts that the program took come here, so a token that does not fit is no fault of the text: the two readers
differ.
"""

import typing

from view.c_tokens import Token, tokens_of
from view.differs import Differs

TYPE_WORDS = frozenset("char short int signed unsigned const void static".split())


class Cursor:
    """A place in the tokens of a text, with the names that are in scope there."""

    def __init__(self, text: str) -> None:
        self.tokens: list[Token] = tokens_of(text)
        self.at = 0
        # For each open scope the frame that a name stands for; the first is that of the file.
        self.scopes: list[dict[str, str]] = [{}]

    def fail(self, what: str) -> typing.NoReturn:
        if self.at >= len(self.tokens):
            raise Differs(f"{what} at the end of the file")
        token = self.tokens[self.at]
        raise Differs(f"{what} at line {token.line + 1}, `{token.text}`")

    def ahead(self, count: int = 0) -> str:
        """The text of a token that is still to be read, or nothing behind the last."""
        return self.tokens[self.at + count].text if self.at + count < len(self.tokens) else ""

    def take(self, *wanted: str) -> str:
        """Goes on by a token, which is one of those wanted, if any are named. Returns its text."""
        if self.at >= len(self.tokens) or wanted and self.ahead() not in wanted:
            self.fail(f"no {' or '.join(wanted) or 'token'}")
        self.at += 1
        return self.tokens[self.at - 1].text

    def is_name(self) -> bool:
        return self.at < len(self.tokens) and self.tokens[self.at].kind == "name"

    def take_name(self) -> str:
        if not self.is_name():
            self.fail("no name")
        return self.take()

    def take_type(self) -> list[str]:
        """The words of a type, which may be none."""
        words = []
        while self.ahead() in TYPE_WORDS:
            words.append(self.take())
        return words

    def take_stars(self) -> None:
        while self.ahead() in ("*", "const"):
            self.take()

    def skip_braces(self) -> None:
        """Goes past a part in braces."""
        depth = 0
        while True:
            word = self.take()
            depth += (word == "{") - (word == "}")
            if depth == 0:
                return

    def frame_of(self, name: str) -> str:
        """The frame that a name stands for here."""
        for scope in reversed(self.scopes):
            if name in scope:
                return scope[name]
        self.fail(f"no object {name}")
