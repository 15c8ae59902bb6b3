"""Checked programs: frames and functions by their numbers, the items of a function cut into blocks."""

from typing import NamedTuple

from recheck.tree import (
    Address, Call, Ending, Expression, Function, Initial, Item, Label, Load, Operation, Return, Store, Switch, Text,
)  # fmt: skip


class Frame(NamedTuple):
    """A place in memory: its name, the number of the function that owns it or none, and its size in bytes."""

    name: str
    owner: int | None
    size: int


class Block(NamedTuple):
    """Stores, and how the block ends: with an item, or None where it goes on to the next block."""

    stores: tuple[Store, ...]
    ending: Ending | None


class Routine(NamedTuple):
    """A function: its arguments as numbers of frames, what its frames hold at first, its blocks and labels."""

    name: str
    arguments: tuple[int, ...]
    initials: tuple[tuple[int, Initial], ...]
    blocks: tuple[Block, ...]
    labels: dict[str, int]


class Program(NamedTuple):
    """Frames and functions by number, and what global frames hold at first."""

    frames: list[Frame]
    initials: tuple[tuple[int, Initial], ...]
    routines: list[Routine]
    numbers: dict[str, int]


def program_of(text: Text) -> Program:
    """The program of a text that passes the checks."""
    frames = [Frame(it.name, None, it.bits // 8) for it in text.frames]
    outer = {it.name: number for number, it in enumerate(frames)}
    initials = tuple((outer[it.frame], it) for it in text.initials)
    numbers = {it.name: number for number, it in enumerate(text.functions)}
    routines = [routine_of(it, number, frames, outer) for number, it in enumerate(text.functions)]
    return Program(frames, initials, routines, numbers)


def routine_of(function: Function, owner: int, frames: list[Frame], outer: dict[str, int]) -> Routine:
    names = dict(outer)
    for it in [*function.arguments, *function.frames]:
        names[it.name] = len(frames)
        frames.append(Frame(it.name, owner, it.bits // 8))
    arguments = tuple(names[it.name] for it in function.arguments)
    initials = tuple((names[it.frame], it) for it in function.initials)
    blocks, labels = cut(function.items, names)
    return Routine(function.name, arguments, initials, tuple(blocks), labels)


def cut(items: list[Item], names: dict[str, int]) -> tuple[list[Block], dict[str, int]]:
    """A block ends after a call, a jump, a switch and a return, and before a label that follows a statement."""
    blocks: list[Block] = []
    labels: dict[str, int] = {}
    stores: list[Store] = []
    is_begun = False
    for item in items:
        if isinstance(item, Label):
            if is_begun:
                blocks.append(Block(tuple(stores), None))
                stores, is_begun = [], False
            labels.setdefault(item.name, len(blocks))
        elif isinstance(item, Ending):
            blocks.append(Block(tuple(stores), ending_of(item, names)))
            stores, is_begun = [], False
        else:
            is_begun = True
            if isinstance(item, Store):
                stores.append(Store(numbered(item.address, names), numbered(item.value, names)))
    return blocks, labels


def ending_of(item: Ending, names: dict[str, int]) -> Ending:
    match item:
        case Switch(value, targets, default):
            return Switch(numbered(value, names), targets, default)
        case Call(function, arguments, result):
            given = tuple(numbered(it, names) for it in arguments)
            return Call(function, given, Address(names[str(result.frame)], result.offset) if result else None)
        case Return(value):
            return Return(numbered(value, names) if value else None)
    return item


def numbered(term: Expression, names: dict[str, int]) -> Expression:
    match term:
        case Address(frame, offset):
            return Address(names[str(frame)], offset)
        case Load(size, address):
            return Load(size, numbered(address, names))
        case Operation(name, sizes, operands):
            return Operation(name, sizes, tuple(numbered(it, names) for it in operands))
    return term
