"""The ranges of an inputs file, at the declarations of its frames."""

import tomllib

from view.c_units import Global
from view.source import Source


def given_at_lines(text: str, source: Source) -> dict[int, list[str]]:
    """For each line, from 0, what is given there. Arguments of the root are at no line."""
    found: dict[int, list[str]] = {}
    for entry in tomllib.loads(text).get("input", []):
        place = source.globals.get(entry["frame"])
        if place is not None:
            what = f"= {entry['low']}" if entry["low"] == entry["high"] else f"in {entry['low']}..{entry['high']}"
            line = source.tokens[place.token].line
            found.setdefault(line, []).append(f"{cells_text(entry, place)} {what}")
    return found


def cells_text(entry: dict, place: Global) -> str:
    """The cells of an entry, as elements of the object where they are such."""
    name, offset, count = entry["frame"], entry["offset"], entry.get("count", 1)
    if entry["size"] != place.bits or offset * 8 % place.bits:
        return f"{name} at byte {offset}" + (f", {count} times {entry['size']} bits" if count > 1 else "")
    if not place.is_array:
        return name
    first = offset * 8 // place.bits
    return f"{name}[{first}..{first + count - 1}]" if count > 1 else f"{name}[{first}]"
