"""The checks of a program of ALF: names, sizes, recursion and the root, as docs/formats/alf.md has them.

A program that does not pass is told as one that is not read, with the rule that it breaks.
"""

from collections.abc import Iterable, Iterator

from recheck.tree import (
    Address, Allocation, Call, Expression, Function, Initial, Item, Jump, Label, Load, Number, Operation, Return, Store,
    Switch, Text,
)
from recheck.unread import Unread
from recheck.words import LAYOUTS


def check(text: Text, root: str) -> None:
    """Raises `Unread` where the program does not pass."""
    want(not repeated(it.name for it in text.functions), "duplicate")
    want(not repeated(it.name for it in text.frames), "duplicate")
    functions = {it.name: it for it in text.functions}
    outer = {it.name: it.bits for it in text.frames}
    want(all(it in outer for it in text.exported_frames), "unknown")
    want(all(it in functions for it in text.exported_labels), "unknown")
    want(all(outer[it] in (8, 16, 32, 64) for it in text.exported_frames), "size")
    check_initials(text.initials, outer)
    for function in text.functions:
        Checker(function, functions, outer).check()
    want(not is_recursive(text.functions), "recursion")
    want(root in functions, "root")


def want(holds: bool, rule: str) -> None:
    if not holds:
        raise Unread(f"program {rule}")


def repeated(names: Iterable[object]) -> bool:
    found = list(names)
    return len(set(found)) < len(found)


def check_initials(initials: list[Initial], frames: dict[str, int]) -> None:
    for it in initials:
        want(it.frame in frames, "unknown")
        size = it.number.size
        want(size % 8 == 0 and 8 * it.offset + size <= frames[it.frame], "size")


def bits_of(frames: Iterable[Allocation]) -> dict[str, int]:
    return {it.name: it.bits for it in frames}


def returns_of(function: Function) -> Iterator[Return]:
    return (it for it in function.items if isinstance(it, Return))


class Checker:
    """One function, with what it may name."""

    def __init__(self, function: Function, functions: dict[str, Function], outer: dict[str, int]) -> None:
        self.function = function
        self.functions = functions
        self.outer = outer
        self.frames = {**outer, **bits_of(function.arguments), **bits_of(function.frames)}
        self.labels = {it.name for it in function.items if isinstance(it, Label)}

    def check(self) -> None:
        function = self.function
        own = [it.name for it in [*function.arguments, *function.frames]]
        want(not repeated(own) and not set(own) & self.outer.keys(), "duplicate")
        labels = [it.name for it in function.items if isinstance(it, Label)]
        want(not repeated(labels) and not set(labels) & self.functions.keys(), "duplicate")
        check_initials(function.initials, bits_of(function.frames))
        for item in function.items:
            self.check_item(item)
        sizes = {self.size_of(it.value) if it.value else 0 for it in returns_of(function)}
        want(len(sizes) <= 1, "size")

    def check_item(self, item: Item) -> None:
        match item:
            case Store(address, value):
                want(self.size_of(address) == 32 and self.size_of(value) % 8 == 0, "size")
            case Jump(label):
                want(label in self.labels, "unknown")
            case Switch(value, targets, default):
                want(not repeated(it.word for it, _ in targets), "duplicate")
                want(all(it in self.labels for it in [*(label for _, label in targets), default]), "unknown")
                size = self.size_of(value)
                want(all(it.size == size for it, _ in targets), "size")
            case Call():
                self.check_call(item)
            case Return(value):
                if value:
                    self.size_of(value)

    def check_call(self, call: Call) -> None:
        want(call.function in self.functions, "unknown")
        called = self.functions[call.function]
        sizes = [self.size_of(it) for it in call.arguments]
        want(sizes == [it.bits for it in called.arguments], "size")
        if call.result:
            self.size_of(call.result)
        for it in returns_of(called):
            want((call.result is None) == (it.value is None), "size")
            if it.value:
                frames = Checker(called, self.functions, self.outer)
                want(frames.size_of(it.value) % 8 == 0, "size")

    def size_of(self, term: Expression) -> int:
        match term:
            case Number(size, _):
                return size
            case Address(frame, _):
                want(frame in self.frames, "unknown")
                return 32
            case Load(size, address):
                want(self.size_of(address) == 32, "size")
                return size
            case Operation(name, sizes, operands):
                layout = LAYOUTS[name][2](*sizes)
                given = [self.size_of(it) for it in operands]
                want(layout is not None and layout[0] == given, "size")
                assert layout is not None
                return layout[1]


def is_recursive(functions: list[Function]) -> bool:
    called = {it.name: {call.function for call in it.items if isinstance(call, Call)} for it in functions}
    left = dict(called)
    while left:
        ready = [name for name, names in left.items() if not names & left.keys()]
        if not ready:
            return True
        for name in ready:
            del left[name]
    return False
