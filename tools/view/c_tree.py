"""Trees of C, as far as lowering needs them. `first` and `last` are numbers of tokens, both within the tree."""

import dataclasses
import typing

from view.items import Item, Mark


@dataclasses.dataclass(slots=True)
class Expression:
    """An expression: its operator where that is one of conditions, and what is named in it.

    `frames` are in the order of the text; `marks` are its operators, each before its operands, and its constants.
    """

    operator: str | None
    operands: tuple["Expression", ...]
    first: int
    last: int
    frames: list[str]
    marks: list[Mark]

    @property
    def tokens(self) -> list[int]:
        return list(range(self.first, self.last + 1))


@dataclasses.dataclass(slots=True)
class Plain:
    """A declaration or a statement that is made of items alone."""

    items: list[Item]
    first: int
    last: int


@dataclasses.dataclass(slots=True)
class Compound:
    members: list["Statement"]
    first: int
    last: int


@dataclasses.dataclass(slots=True)
class Case:
    """A label `case c :` or `default :`."""

    is_default: bool
    first: int
    last: int


@dataclasses.dataclass(slots=True)
class If:
    test: Expression
    then: "Statement"
    other: "Statement | None"
    first: int
    last: int


@dataclasses.dataclass(slots=True)
class While:
    test: Expression
    body: "Statement"
    first: int
    last: int


@dataclasses.dataclass(slots=True)
class Do:
    test: Expression
    body: "Statement"
    first: int
    last: int


@dataclasses.dataclass(slots=True)
class For:
    """A `for`; `separator` is the semicolon behind its test."""

    before: list[Item]
    test: Expression | None
    separator: int
    step: list[Item]
    body: "Statement"
    first: int
    last: int


@dataclasses.dataclass(slots=True)
class Switch:
    """A `switch`; `head` has the tokens up to its body."""

    subject: Expression
    head: list[int]
    body: Compound
    first: int
    last: int


@dataclasses.dataclass(slots=True)
class Leave:
    """A `break` or a `continue`."""

    word: str
    first: int
    last: int


Statement = typing.Union[Plain, Compound, Case, If, While, Do, For, Switch, Leave]
