"""Programs of ALF, as their texts have them: with names, and items not yet cut into blocks."""

from typing import NamedTuple, Union

from recheck.words import result_size


# Terms. The frame of an address is a name in a text, and a number in a checked program.
Number = NamedTuple("Number", [("size", int), ("word", int)])
Address = NamedTuple("Address", [("frame", str | int), ("offset", int)])
Load = NamedTuple("Load", [("size", int), ("address", "Expression")])
Operation = NamedTuple(
    "Operation", [("name", str), ("sizes", tuple[int, ...]), ("operands", tuple["Expression", ...])]
)
Expression = Union[Number, Address, Load, Operation]
# Items.
Label = NamedTuple("Label", [("name", str)])
Null = NamedTuple("Null", [])
Store = NamedTuple("Store", [("address", Expression), ("value", Expression)])
Jump = NamedTuple("Jump", [("label", str)])
Switch = NamedTuple("Switch", [("value", Expression), ("targets", tuple[tuple[Number, str], ...]), ("default", str)])
Call = NamedTuple("Call", [("function", str), ("arguments", tuple[Expression, ...]), ("result", Address | None)])
Return = NamedTuple("Return", [("value", Expression | None)])
Ending = Jump | Switch | Call | Return
Item = Label | Null | Store | Ending


def size_of(term: Expression) -> int:
    match term:
        case Number(size, _) | Load(size, _):
            return size
        case Address():
            return 32
        case Operation(name, sizes, _):
            return result_size(name, list(sizes))


Allocation = NamedTuple("Allocation", [("name", str), ("bits", int)])


class Initial(NamedTuple):
    """A number that a frame holds at first, and at which byte."""

    frame: str
    offset: int
    number: Number


class Function(NamedTuple):
    name: str
    arguments: list[Allocation]
    frames: list[Allocation]
    initials: list[Initial]
    items: list[Item]


class Text(NamedTuple):
    """A program as its text has it."""

    exported_frames: list[str]
    exported_labels: list[str]
    frames: list[Allocation]
    initials: list[Initial]
    functions: list[Function]
