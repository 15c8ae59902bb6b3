"""What the report says of a line of the source."""

import dataclasses

from view.alarms import Alarms
from view.model import Block, Model, Node
from view.report import Range, range_text


@dataclasses.dataclass(frozen=True, slots=True)
class LineFacts:
    """How often a line is executed in a run, its share, its level of heat, and its parts where they differ.

    `state` is "live", "dead" (reached by no run), "noway" (no way through the program leads here), or "none" (nothing
    is executed). A share is told once, at the first line of a block; the heat is that of all blocks of the line.
    """

    count: Range | None
    share: float
    level: int
    state: str
    parts: list[tuple[int, str]]

    @property
    def count_text(self) -> str:
        if self.state in ("dead", "noway"):
            return "–"
        return range_text(*self.count) if self.count else ""


NOTHING = LineFacts(None, 0, 0, "none", [])


class Lines:
    """The facts of all lines, of all calls of a function together or of one."""

    def __init__(self, model: Model, alarms: Alarms) -> None:
        self.model, self.alarms = model, alarms
        self.found: dict[tuple[int, tuple[int, ...] | None], LineFacts] = {}

    def facts(self, line: int, path: tuple[int, ...] | None = None) -> LineFacts:
        """Of a line, counted from 0; with a path of that call alone."""
        if (line, path) not in self.found:
            self.found[line, path] = self.made(line, path)
        return self.found[line, path]

    def made(self, line: int, path: tuple[int, ...] | None) -> LineFacts:
        parts, share, heat = [], 0.0, 0.0
        best: Range | None = None
        for block in self.model.at_line.get(line, []):
            nodes = [it for it in block.nodes if path is None or it.place.path == path]
            if not nodes and block.is_weak:
                continue
            own = sum(it.share for it in nodes)
            heat += own
            share += own if block.home == line else 0
            low, high = self.count(block, nodes, line)
            parts.append((block.columns[line], range_text(low, high) if high else "–"))
            if nodes and (best is None or (high, low) > best[::-1]):
                best = low, high
        if not parts:
            return NOTHING
        state = "noway" if best is None else "dead" if best[1] == 0 else "live"
        if self.model.source.is_moved:
            # All stand at the first column, in the order of the text that they were moved from.
            parts = [(column, text) for text, column in {text: column for column, text in parts}.items()]
        shown = parts if len({text for _, text in parts}) > 1 else []
        return LineFacts(best, share, self.model.level(heat), state, shown)

    def count(self, block: Block, nodes: list[Node], line: int) -> Range:
        """How often a run comes to a line in nodes of one block. Behind an item that may fault it comes once less: a
        run faults once."""
        low, high = sum(it.low for it in nodes), sum(it.high for it in nodes)
        first, faults = block.first_item.get(line, 0), self.alarms.first_item
        may_stop = any(first > faults[it.number] for it in nodes if it.number in faults)
        return max(0, low - may_stop), high
