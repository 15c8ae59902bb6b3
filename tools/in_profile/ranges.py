"""A file of ranges, as `--try` gives values from it: docs/formats/tables.md has what sweet reads."""

import dataclasses
import tomllib

from . import files
from .refusal import Refusal, shown

# As many cells are given values at most.
CELLS, SIZES = 65_536, (8, 16, 32)


@dataclasses.dataclass(frozen=True)
class Range:
    """So many cells, one after the other, each with any of these numbers."""

    frame: str
    offset: int
    size: int
    low: int
    high: int
    count: int = 1

    def fault(self) -> str:
        """What is wrong with it, or nothing."""
        numbers = {it.name: getattr(self, it.name) for it in dataclasses.fields(self) if it.name != "frame"}
        wrong = [name for name, it in numbers.items() if type(it) is not int]
        if type(self.frame) is not str or wrong:
            return f"{wrong[0] if wrong else 'frame'} is of another kind"
        if self.size not in SIZES:
            return f"size is none of {', '.join(map(str, SIZES))}"
        if not -(2 ** (self.size - 1)) <= self.low <= self.high < 2**self.size or self.high - self.low >= 2**self.size:
            return "low and high are out of their range"
        return "" if 1 <= self.count <= CELLS and 0 <= self.offset < 2**31 else "count or offset is out of its range"


def ranges_in(name: str | None) -> list[Range]:
    """The rows of a file of ranges, which have at most so many cells as a run is given values for."""
    if name is None:
        return []
    rows = [range_of(row, number, name) for number, row in enumerate(entries_of(name), 1)]
    cells = sum(it.count for it in rows)
    if cells > CELLS:
        raise Refusal(f"--try gives values to {CELLS} cells at most, and {shown(name)} has ranges of {cells}")
    return rows


def entries_of(name: str) -> list:
    try:
        rows = tomllib.loads(files.read(name, is_any=True).data.decode()).get("input", [])
    except (ValueError, RecursionError) as error:
        raise Refusal(f"{shown(name)} is no file of ranges: {shown(str(error))}") from None
    if not isinstance(rows, list):
        raise Refusal(f"{shown(name)} is no file of ranges: input is no list of entries")
    return rows


def range_of(row: object, number: int, name: str) -> Range:
    """The range of an entry; a range is taken where `sweet` takes it."""
    try:
        found = Range(**row)
    except TypeError:
        raise Refusal(f"{shown(name)} is no file of ranges: entry {number} has other keys") from None
    if found.fault():
        raise Refusal(f"{shown(name)} is no file of ranges: of entry {number} {found.fault()}")
    return found
