"""The judge of open orders: gcc and clang, with and without their optimiser, and the same program made the other way.

Where `sweet-c` tells of no open order, all of them have to do as the text that it writes.
"""

import contextlib
import dataclasses
import shutil
from collections.abc import Iterator

from in_profile import trial
from in_profile.expressions import Expressions, has_effect

from check_c.batches import Rewritten, compared


@dataclasses.dataclass
class Turned:
    """The text that is written, before, and the same program with the sides of each operator the other way, after."""

    program: object
    source: str
    made: str

    def frames(self) -> list[tuple[str, str, int]]:
        return [(it.text, it.text, it.kind.size) for _, it in sorted(self.program.objects.items())]


def operands(self: Expressions, nodes: list) -> list:
    """The values from right to left."""
    found = []
    for i, node in reversed(list(enumerate(nodes))):
        value = self.value(node)
        is_kept = value.is_fixed or not any(map(has_effect, nodes[:i]))
        found.insert(0, value if is_kept else self.saved(value))
    return found


@contextlib.contextmanager
def other_way() -> Iterator[None]:
    """Within it programs are written with the right side first, and `op=` with the place."""
    kept = Expressions.operands, Expressions.is_right_first
    has_any = lambda node: has_effect(node.lvalue) or has_effect(node.rvalue)
    Expressions.operands = operands
    Expressions.is_right_first = lambda self, node: has_any(node) and not kept[1](self, node)
    try:
        yield
    finally:
        Expressions.operands, Expressions.is_right_first = kept


@contextlib.contextmanager
def compiled_by(words: list[str], is_32: bool) -> Iterator[None]:
    kept, trial.compiler = trial.compiler, lambda: (words, is_32)
    try:
        yield
    finally:
        trial.compiler = kept


def compilers() -> Iterator[tuple[str, list[str], bool]]:
    """Each compiler that is there, with and without its optimiser."""
    words, is_32 = trial.compiler()
    for name in filter(shutil.which, ("cc", "clang")):
        for level in ("-O0", "-O2"):
            yield f"{name} {level}", [name, *words[1:], level], is_32


def judged(texts: list[str], room: str) -> list[tuple[bool, list[str]]]:
    """Of each text whether an open order is told, and what does otherwise than the text that is written."""
    rewritten = [Rewritten(it, room) for it in texts]
    with other_way():
        turned = [Turned(it.program, it.made, Rewritten(text, room).made) for it, text in zip(rewritten, texts)]
    found: list[list[str]] = [[str(it.reasons)] if it.reasons else [] for it in rewritten]
    for name, words, is_32 in compilers():
        with compiled_by(words, is_32):
            columns = [(name, rewritten)] + ([("the other way", turned)] if name == "cc -O0" else [])
            for who, rows in columns:
                for it, (fault, _) in zip(found, compared(rows, room)):
                    it += [f"{who}: {fault}"] if fault else []
    return [(bool(it.program.orders.all), faults) for it, faults in zip(rewritten, found)]
