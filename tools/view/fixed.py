"""What a report takes as fixed: the globals that no range names, which a run finds as the program begins with them."""

import dataclasses
import tomllib
import typing

from view.alf_tree import Branch, members_of, part_of, printed_words, tree_of

# Values of an array that are told.
SHOWN = 4


@dataclasses.dataclass(frozen=True, slots=True)
class Fixed:
    """A global that the program may read and of which some byte has no range; `is_written` where it may write it."""

    name: str
    value: str
    is_written: bool


@dataclasses.dataclass(slots=True)
class Uses:
    """The frames that statements may read and write. One whose address is a value may be both."""

    read: set[str] = dataclasses.field(default_factory=set)
    written: set[str] = dataclasses.field(default_factory=set)

    def add(self, branch: Branch) -> None:
        """The statement or the value, and those within."""
        ahead: list[tuple[Branch, str]] = [(branch, "value")]
        while ahead:
            it, kind = ahead.pop()
            if it.head == "fref":
                self.name(it[2].strip('"'), kind)
            elif it.head == "store":
                at = it.index("with") if "with" in it else len(it)
                ahead += [(part, "store" if number < at else "value") for number, part in enumerate(it) if is_branch(part)]
            elif it.head == "call" and "result" in it:
                at = it.index("result")
                ahead += [(part, "store" if number > at else "value") for number, part in enumerate(it) if is_branch(part)]
            elif it.head == "load":
                ahead += [(part, "load") for part in it if is_branch(part)]
            else:
                ahead += [(part, kind) for part in it if is_branch(part)]

    def name(self, name: str, kind: str) -> None:
        if kind != "store":
            self.read.add(name)
        if kind != "load":
            self.written.add(name)


def is_branch(part: typing.Any) -> bool:
    return isinstance(part, Branch)


def fixed_in(printed: str, inputs: str | None) -> list[Fixed]:
    """Those of a program, by the text of ALF that `print` or `lower` prints of it, in the order of their declarations."""
    whole = tree_of(printed_words(printed))
    uses = Uses()
    for it in members_of(whole, "funcs"):
        uses.add(part_of(it, "scope"))
    ranged = ranged_bytes(inputs)
    found = []
    for frame in members_of(whole, "decls"):
        name, size = frame[2].strip('"'), int(frame[3]) // 8
        if name in uses.read and len(ranged.get(name, ())) < size:
            found.append(Fixed(name, value_text(whole, name), name in uses.written))
    return found


def ranged_bytes(inputs: str | None) -> dict[str, set[int]]:
    """The bytes of each frame that a file of inputs names."""
    found: dict[str, set[int]] = {}
    for entry in tomllib.loads(inputs).get("input", []) if inputs is not None else ():
        size, first = entry["size"] // 8, entry["offset"]
        found.setdefault(entry["frame"], set()).update(range(first, first + size * entry.get("count", 1)))
    return found


def value_text(whole: Branch, name: str) -> str:
    """What the frame is initialised with, as far as it is told."""
    values = [value_of(it) for it in members_of(whole, "inits") if is_of(it, name)]
    if not values:
        return "nothing"
    if len(values) == 1:
        return values[0]
    if len(set(values)) == 1:
        return f"{values[0]} everywhere"
    return "{" + ", ".join(values[:SHOWN]) + (", ..}" if len(values) > SHOWN else "}")


def is_of(init: Branch, name: str) -> bool:
    ref = part_of(init, "ref")
    return ref[1].strip('"') == name


def value_of(init: Branch) -> str:
    value = init[2]
    if value.head not in ("dec_signed", "dec_unsigned"):
        return "an address"
    return f"-{value[2][1]}" if is_branch(value[2]) else value[2]
