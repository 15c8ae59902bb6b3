"""The places where C leaves an order open that may matter, as they are told."""

import dataclasses
import pathlib
import re
from collections.abc import Iterable, Iterator

from pycparser import c_ast, c_generator

from .effects import Effect, Effects, Sides, met, together
from .types import place_of

LONGEST, MOST_NAMES = 40, 3


@dataclasses.dataclass(slots=True)
class Order:
    """Two parts of `whole`, as texts, of which C leaves open which is first, and the names of what both use.

    OUT.c has the left one first, and where `is_turned` the right one.
    """

    statement: c_ast.Node
    whole: c_ast.Node
    sides: tuple[str, str]
    names: list[str]
    is_turned: bool = False

    def told(self) -> str:
        left, right = self.sides
        first = "right" if self.is_turned else "left"
        used = ", ".join(self.names[:MOST_NAMES]) + (", .." if len(self.names) > MOST_NAMES else "")
        return f"C leaves open which is first of {left} and {right}, which both use {used}: here it is the {first} one"


class Orders:
    """The places of a tree whose sides have no order, and of which one may change what the other uses."""

    def __init__(self, found: Iterable[Order] = ()) -> None:
        self.all = list(found)
        self.of_statement: dict[int, list[Order]] = {}
        self.of_whole: dict[int, list[Order]] = {}
        for it in self.all:
            self.of_statement.setdefault(id(it.statement), []).append(it)
            self.of_whole.setdefault(id(it.whole), []).append(it)

    def at(self, statement: c_ast.Node) -> list[Order]:
        return self.of_statement.get(id(statement), [])

    def is_open(self, whole: c_ast.Node) -> bool:
        return id(whole) in self.of_whole

    def turn(self, whole: c_ast.Node) -> None:
        """Notes that what stands right in it is made first."""
        for it in self.of_whole.get(id(whole), ()):
            it.is_turned = True

    def places(self, name: str) -> list[tuple[str, int, str]]:
        """Each with its file and line, as it is told; `name` is the file of what has no place."""
        return [(*(place_of(it.whole) or (name, 0)), it.told()) for it in self.all]


def open_orders(tree: c_ast.FileAST, root: str) -> Orders:
    effects, found = Effects(tree, root), {}
    for sides in effects.sides:
        for order in orders_of(effects, sides):
            found.setdefault((id(order.whole), order.sides), order)
    return Orders(found.values())


def orders_of(effects: Effects, sides: Sides) -> Iterator[Order]:
    """Of each side but the first the first one before it that it has no order with."""
    whole = [Effect(effects.whole(it.reads), effects.whole(it.writes)) for it in sides.effects]
    before = whole[0]
    for at in range(1, len(whole)):
        if shared(before, whole[at]):
            other, names = next((i, it) for i in range(at) if (it := shared(whole[i], whole[at])))
            texts = told_part(sides.nodes[other], sides.whole), told_part(sides.nodes[at], sides.whole)
            yield Order(sides.statement, sides.whole, texts, names)
        before = together(before, whole[at])


def shared(one: Effect, other: Effect) -> list[str]:
    """The names of what one of both writes and the other one reads or writes."""
    found = [*met(one.writes, other.writes), *met(one.writes, other.reads), *met(one.reads, other.writes)]
    return sorted({safe_text(it.name) for it in found})


def told_part(node: c_ast.Node, whole: c_ast.Node) -> str:
    """A part as text, with its line."""
    file, line = place_of(node) or place_of(whole) or ("", 0)
    here = place_of(whole) or ("", 0)
    beside = "" if file == here[0] else f" of {safe_text(pathlib.Path(file).name)}"
    return f"'{shortened(text_of(node))}' (line {line}{beside})"


def text_of(node: c_ast.Node) -> str:
    if isinstance(node, c_ast.Decl):
        return node.name
    try:
        return c_generator.CGenerator(reduce_parentheses=True).visit(node)
    except RecursionError:
        return ".."


def shortened(text: str) -> str:
    found = safe_text(text)
    return found if len(found) <= LONGEST else f"{found[: LONGEST - 2]}.."


def safe_text(text: str) -> str:
    """The text as it may stand in a comment and on a terminal: on one line, without quotes, backslashes, and ends."""
    found = re.sub(r"[^\w \[\]().,+*/%&|^~!<>=?:-]", "_", re.sub(r"\s+", " ", text), flags=re.A)
    return re.sub(r"(?<=\*)(?=/)|(?<=/)(?=\*)|(?<=\?)(?=\?)", " ", found)
