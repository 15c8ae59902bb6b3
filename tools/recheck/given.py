"""The files of inputs and of costs: docs/formats/tables.md. One that is refused is not read."""

import tomllib
from typing import Any, NamedTuple

from recheck.program import Program
from recheck.unread import Unread

MOST_BYTES = 1_048_576
MOST_COST = (1 << 32) - 1


class Row(NamedTuple):
    """A cell that each run is given, with its range."""

    frame: int
    offset: int
    size: int
    low: int
    high: int


def document_of(text: bytes, role: str) -> dict[str, Any]:
    try:
        if len(text) > MOST_BYTES:
            raise ValueError
        return tomllib.loads(text.decode("utf-8"))
    except (ValueError, RecursionError) as fault:
        raise Unread(f"{role} toml") from fault


def want(holds: bool, role: str, entry: int | str) -> None:
    if not holds:
        raise Unread(f"{role} {entry}")


def is_number(value: object, least: int = -(1 << 63), most: int = (1 << 63) - 1) -> bool:
    return isinstance(value, int) and not isinstance(value, bool) and least <= value <= most


def entries_of(document: dict[str, Any], name: str, role: str, others: set[str]) -> list[dict[str, Any]]:
    want(document.keys() <= {name, *others}, role, "-")
    found = document.get(name, [])
    want(isinstance(found, list) and all(isinstance(it, dict) for it in found), role, "-")
    return list(found)


def rows_of(text: bytes, program: Program, root: int) -> list[Row]:
    found: list[Row] = []
    taken: set[tuple[int, int]] = set()
    names = {it.name: number for number, it in enumerate(program.frames) if it.owner is None}
    names |= {program.frames[it].name: it for it in program.routines[root].arguments}
    for number, entry in enumerate(entries_of(document_of(text, "inputs"), "input", "inputs", set())):
        for row in rows_of_entry(entry, number, names):
            held = {(row.frame, row.offset + at) for at in range(row.size // 8)}
            size = program.frames[row.frame].size
            want(row.offset + row.size // 8 <= size and not held & taken, "inputs", number)
            taken |= held
            found.append(row)
    return found


def rows_of_entry(entry: dict[str, Any], number: int, names: dict[str, int]) -> list[Row]:
    numbers = {"offset", "size", "low", "high"}
    want(numbers | {"frame"} <= entry.keys() <= numbers | {"frame", "count"}, "inputs", number)
    want(all(is_number(entry[it]) for it in numbers) and isinstance(entry["frame"], str), "inputs", number)
    size, low, high, count = entry["size"], entry["low"], entry["high"], entry.get("count", 1)
    want(size in (8, 16, 32, 64) and is_number(count, 1, 65_536), "inputs", number)
    want(-(1 << (size - 1)) <= low <= high < min(1 << size, low + (1 << size)), "inputs", number)
    want(entry["frame"] in names and entry["offset"] >= 0, "inputs", number)
    return [Row(names[entry["frame"]], entry["offset"] + size // 8 * it, size, low, high) for it in range(count)]


def costs_of(text: bytes | None, program: Program) -> list[list[int]]:
    """For each function the cost of each block."""
    if text is None:
        return [[1] * len(it.blocks) for it in program.routines]
    document = document_of(text, "costs")
    entries = entries_of(document, "cost", "costs", {"default"})
    default = document.get("default", 1)
    want(is_number(default, 0, MOST_COST), "costs", "-")
    found = [[default] * len(it.blocks) for it in program.routines]
    for number, entry in enumerate(entries):
        want(entry.keys() == {"function", "block", "cost"} and isinstance(entry["function"], str), "costs", number)
        want(is_number(entry["block"]) and is_number(entry["cost"], 0, MOST_COST), "costs", number)
        want(entry["function"] in program.numbers, "costs", number)
        row = found[program.numbers[entry["function"]]]
        want(0 <= entry["block"] < len(row), "costs", number)
        row[entry["block"]] = entry["cost"]
    return found
