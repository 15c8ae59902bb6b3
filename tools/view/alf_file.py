"""Programs of ALF: the items of a text, each with its own tokens."""

import typing

from view.alf_tree import Branch, members_of, names_in, part_of, printed_words, tokens_of, tree_of
from view.c_tokens import Token
from view.c_units import Global
from view.differs import Differs
from view.items import Function, Item


def program_of(text: str, printed: str) -> tuple[list[Token], list[Function], dict[str, Global]]:
    """The tokens of a text, its functions, and its global frames. `Differs` where its items are not those of the
    canonical text that is printed for it."""
    tokens = tokens_of(text)
    tree = tree_of(it.text for it in tokens)
    if plain(tree) != plain(tree_of(printed_words(printed))):
        raise Differs("the items of the file are not those that `print` has")
    functions = [function_of(it, tokens) for it in members_of(tree, "funcs")]
    # { alloc 32 "name" BITS }
    frames = {it[2].strip('"'): Global(it.first + 3, int(it[3]), False) for it in members_of(tree, "decls")}
    return tokens, functions, frames


def function_of(branch: Branch, tokens: list[Token]) -> Function:
    name = names_in(branch[1], "lref")[0]
    named = next(it for it in range(branch.first, branch.last) if tokens[it].text == f'"{name}"')
    function = Function(name, first=branch.first, last=branch.last, named=named)
    scope = part_of(branch, "scope")
    function.parameters = [it[2].strip('"') for it in members_of(branch, "arg_decls")]
    function.frames = [it[2].strip('"') for it in members_of(scope, "decls")]
    function.items = [item_of(it) for it in members_of(scope, "stmts")]
    return function


def item_of(branch: Branch) -> Item:
    tokens = list(range(branch.first, branch.last + 1))
    labels, frames = names_in(branch, "lref"), names_in(branch, "fref")
    return Item(branch.head, tokens, labels=labels, frames=frames, role=branch.head, term=branch)


def plain(part: Branch | str) -> typing.Any:
    """A part without places, its numbers by their value."""
    if isinstance(part, str):
        return int(part) if part.isdigit() else part
    if part.head == "minus" and int(part[1]) == 0:
        return 0
    return [plain(it) for it in part]
