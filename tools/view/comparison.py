"""The comparison, item by item, of the rules of lowering with what `sweet lower` prints."""

import itertools

from view.alf_tree import Branch, branches_in, members_of, names_in, number_of, part_of, printed_words, tree_of
from view.differs import Differs
from view.items import Function, Item, Mark

# The operators of ALF that an operator of C becomes, as it has a sign or not.
OPERATORS = {
    "+": "add",
    "-": "sub",
    "*": "s_mul u_mul",
    "/": "s_div u_div",
    "%": "s_mod u_mod",
    "<<": "l_shift",
    ">>": "r_shift r_shift_a",
    "&": "and",
    "^": "xor",
    "|": "or",
    "==": "eq",
    "!=": "neq",
    "<": "s_lt u_lt",
    ">": "s_gt u_gt",
    "<=": "s_le u_le",
    ">=": "s_ge u_ge",
    "unary !": "eq",
    "unary ~": "not",
    "unary -": "neg",
}
OPERATOR_OF = {head: heads for heads in OPERATORS.values() for head in heads.split()}


def hold(functions: list[Function], lowered: str) -> int:
    """Compares all items of all functions, and gives each its term. How many there are; `Differs` if one differs."""
    branches = members_of(tree_of(printed_words(lowered)), "funcs")
    if len(branches) != len(functions):
        raise Differs(f"{len(functions)} functions in the file, {len(branches)} in `lower`")
    return sum(hold_function(function, branch) for function, branch in zip(functions, branches))


def hold_function(function: Function, branch: Branch) -> int:
    name = names_in(branch[1], "lref")[0]
    if name != function.name:
        raise Differs(f"function {function.name} of the file is {name} in `lower`")
    scope = part_of(branch, "scope")
    hold_frames(f"{name}, parameter", function.parameters, members_of(branch, "arg_decls"))
    hold_frames(f"{name}, frame", function.frames, members_of(scope, "decls"))
    terms = members_of(scope, "stmts")
    for number, (item, term) in enumerate(zip(function.items, terms)):
        hold_item(f"{name}, item {number}, a {item.kind}", item, term)
        item.term = term
    if len(terms) != len(function.items):
        raise Differs(f"{name}: {len(function.items)} items by the file, {len(terms)} in `lower`")
    return len(terms)


def hold_frames(what: str, own: list[str], declared: list[Branch]) -> None:
    found = [it[2].strip('"') for it in declared]
    for number, (left, right) in enumerate(itertools.zip_longest(own, found)):
        if left != right:
            raise Differs(f"{what} {number}: {left} by the file, {right} in `lower`")


def hold_item(where: str, item: Item, term: Branch) -> None:
    """Kind, labels, frames, operators and constants of one item."""
    for what, own, found in (
        ("kind", item.kind, term.head),
        ("labels", item.labels, names_in(term, "lref")),
        ("frames", item.frames, names_in(term, "fref")),
    ):
        if own != found:
            raise Differs(f"{where}: {what} {own} by the file, {found} in `lower`")
    if item.offset is not None:
        hold_offset(where, item.offset, term)
        hold_marks(where, item.marks, term[3])
    else:
        hold_marks(where, item.marks, term)


def hold_marks(where: str, marks: list[Mark], term: Branch) -> None:
    """The operators and constants of the file stand in the item in this order, with others between: sizes, extensions,
    and the products of indices."""
    own = [OPERATORS.get(it, it) for it in marks]
    found = [OPERATOR_OF.get(it.head) or number_of(it) for it in branches_in(term)]
    ahead = iter(found)
    if not all(it in ahead for it in own):
        raise Differs(f"{where}: {own} by the file, {[it for it in found if it is not None]} in `lower`")


def hold_offset(where: str, element: int, term: Branch) -> None:
    """A store of an initialiser is at its element's byte: { store { addr 32 FREF { dec_unsigned 32 OFFSET } } with
    VALUE }."""
    value = term[3]
    size = int(value[1]) if value.head in ("dec_signed", "neg") else int(value[2]) if value.head == "trunc" else 32
    byte = int(term[1][3][2])
    if byte != element * size // 8:
        raise Differs(f"{where}: element {element} by the file, byte {byte} in `lower`")
