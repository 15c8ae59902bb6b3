"""The inputs file of `--ranges`: each cell that a run may find changed, with the whole range of its type."""

import collections.abc
import dataclasses

from .types import Whole

HEAD = """# What a run of {root} may begin with: each global of the program that is not const, and each parameter of it
# that is a number. Each row has the whole range of a type and is to be narrowed by hand, or struck out: a global
# without a row has the value that the program gives it.
"""
ROW = """
# {place}
[[input]]
frame = "{frame}"
offset = 0
size = {size}
low = {low}
high = {high}
"""


@dataclasses.dataclass(frozen=True)
class Cells:
    """A global or a parameter as OUT.c names it, where it is declared, the type of its cells, and how many it has."""

    frame: str
    place: str
    kind: Whole
    count: int = 1

    def row(self) -> str:
        kind = self.kind
        low = -(1 << (kind.bits - 1)) if kind.signed else 0
        high = 1 if kind.is_truth else (1 << (kind.bits - kind.signed)) - 1
        found = ROW.format(frame=self.frame, place=self.place, size=kind.bits, low=low, high=high)
        return found + (f"count = {self.count}\n" if self.count > 1 else "")


def inputs_file(root: str, cells: collections.abc.Iterable[Cells]) -> bytes:
    return (HEAD.format(root=root) + "".join(it.row() for it in cells)).encode("ascii", "replace")
