"""Edits of a lowered text, each of which the viewer must notice."""

import random
import re

ITEM = re.compile(r"^\{ (store|jump|switch|return|call|label)\b")
LABEL = re.compile(r'\{ lref 32 "[^"]*::L[0-9]+" \}')
FRAME = re.compile(r'\{ fref 32 "[^"]*" \}')
NUMBER = re.compile(r"\{ dec_signed 32 ([1-9][0-9]*) \}")


def spoilt(lowered: str, chance: random.Random) -> str | None:
    """The text with one edit of its functions; None where the edit found nothing to change."""
    edit = chance.choice((drop, double, swap, relabel, reframe, renumber))
    before, funcs, functions = lowered.partition("{ funcs")
    text = edit(functions, chance)
    return before + funcs + text if text and text.split() != functions.split() else None


def item_rows(lines: list[str]) -> list[int]:
    """The lines of items but for the first and the last of a function, which stand with other parts of it."""
    return [it for it, line in enumerate(lines) if ITEM.match(line) and line.count("{") == line.count("}")]


def drop(lowered: str, chance: random.Random) -> str:
    lines = lowered.split("\n")
    del lines[chance.choice(item_rows(lines))]
    return "\n".join(lines)


def double(lowered: str, chance: random.Random) -> str:
    lines = lowered.split("\n")
    row = chance.choice(item_rows(lines))
    return "\n".join(lines[: row + 1] + lines[row:])


def swap(lowered: str, chance: random.Random) -> str | None:
    """Two items that stand one after the other change places."""
    lines = lowered.split("\n")
    rows = item_rows(lines)
    pairs = [it for it in rows if it + 1 in rows]
    if not pairs:
        return None
    row = chance.choice(pairs)
    lines[row], lines[row + 1] = lines[row + 1], lines[row]
    return "\n".join(lines)


def exchange(lowered: str, found: list[re.Match], chance: random.Random) -> str | None:
    """One of some places gets the text of another."""
    if len(found) < 2:
        return None
    place, other = chance.sample(found, 2)
    return lowered[: place.start()] + other.group() + lowered[place.end() :]


def relabel(lowered: str, chance: random.Random) -> str | None:
    return exchange(lowered, list(LABEL.finditer(lowered)), chance)


def reframe(lowered: str, chance: random.Random) -> str | None:
    return exchange(lowered, list(FRAME.finditer(lowered)), chance)


def renumber(lowered: str, chance: random.Random) -> str | None:
    """A constant of the file becomes another. Sizes of elements stand before an offset and are none."""
    found = [it for it in NUMBER.finditer(lowered) if int(it[1]) > 4]
    if not found:
        return None
    place = chance.choice(found)
    return lowered[: place.start(1)] + str(int(place[1]) + 1) + lowered[place.end(1) :]
