"""Files of C: functions with their items, and where the globals stand."""

import dataclasses

from view.c_lowering import lower
from view.c_statements import Statements
from view.items import Function


@dataclasses.dataclass(frozen=True, slots=True)
class Global:
    """A global object: the token of its name, the bits of an element, and whether it is an array."""

    token: int
    bits: int
    is_array: bool


class Units(Statements):
    """The reader of a whole file."""

    def __init__(self, text: str) -> None:
        super().__init__(text)
        self.functions: list[Function] = []
        self.globals: dict[str, Global] = {}

    def unit(self) -> list[Function]:
        """All functions of the file, lowered."""
        while self.at < len(self.tokens):
            self.external()
        return self.functions

    def external(self) -> None:
        first = self.at
        words = self.take_type()
        if not words:
            self.fail("no type")
        while True:
            named = self.at
            name = self.take_name()
            if self.ahead() != "(":
                self.object(name, named, words)
            else:
                self.gives_nothing[name] = "void" in words
                parameters = self.parameters()
                if self.ahead() == "{":
                    return self.body(name, parameters, first, named)
            if self.take(",", ";") == ";":
                return None

    def object(self, name: str, named: int, words: list[str]) -> None:
        bits = 8 if "char" in words else 16 if "short" in words else 32
        self.globals[name] = Global(named, bits, self.ahead() == "[")
        self.scopes[0][name] = name
        while self.ahead() not in (",", ";"):
            if self.ahead() == "{":
                self.skip_braces()
            else:
                self.take()

    def parameters(self) -> list[str]:
        """The names of the parameters that have one."""
        self.take("(")
        names = []
        while self.ahead() != ")":
            self.take_type()
            self.take_stars()
            names += [self.take_name()] if self.is_name() else []
            if self.ahead() == "[":
                self.take()
                self.take("]")
            if self.ahead() == ",":
                self.take()
        self.take(")")
        return names

    def body(self, name: str, parameters: list[str], first: int, named: int) -> None:
        self.function = Function(name, first=first, named=named)
        self.calls, self.declared = 0, {}
        self.scopes.append({})
        self.function.parameters = [self.declare(it) for it in parameters]
        body = self.compound(has_scope=False)
        self.scopes.pop()
        self.function.last = self.at - 1
        lower(self.function, body)
        self.functions.append(self.function)
