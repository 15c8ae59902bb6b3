"""The lines of a report."""

import dataclasses

from view.differs import Differs

Range = tuple[int, int]
# Lines of a certificate, which this viewer does not need.
CERTIFICATE = ("cert", "step", "merge", "scale", "mul")


@dataclasses.dataclass(frozen=True, slots=True)
class NodeLine:
    scope: int
    cost: int
    name: str


@dataclasses.dataclass(frozen=True, slots=True)
class ScopeLine:
    parent: int | None
    header: int
    kind: str


class Report:
    """The lines by their kinds, with their numbers."""

    def __init__(self, text: str) -> None:
        self.nodes: list[NodeLine] = []
        self.scopes: list[ScopeLine] = []
        self.loops: dict[int, Range] = {}
        self.counts: dict[tuple[int, int], Range] = {}
        self.totals: dict[int, Range] = {}
        self.dead: set[int] = set()
        self.pairs: list[tuple[int, int, int]] = []
        self.alarms: list[tuple[int, str]] = []
        self.count_bound = self.path_bound = 0
        self.path_word = ""
        for line in text.split("\n"):
            if line:
                self.take(line)
        if not self.path_word:
            raise Differs("the report has no path bound")

    def take(self, line: str) -> None:
        kind, *words = line.split(" ")
        if kind == "node":
            self.nodes.append(NodeLine(int(words[1]), int(words[2]), line.split(" ", 4)[4]))
        elif kind == "scope":
            self.scopes.append(ScopeLine(None if words[1] == "-" else int(words[1]), int(words[2]), words[3]))
        elif kind == "alarm":
            self.alarms.append((int(words[0]), words[1]))
        elif kind == "path-bound":
            self.path_bound, self.path_word = int(words[0]), words[1]
        elif kind not in ("facts", "end", *CERTIFICATE):
            self.take_numbers(kind, [int(it) for it in words if it.isdigit()])

    def take_numbers(self, kind: str, numbers: list[int]) -> None:
        """A line whose words are numbers alone."""
        match kind, numbers:
            case "loop", [scope, low, high]:
                self.loops[scope] = low, high
            case "count", [scope, node, low, high]:
                self.counts[scope, node] = low, high
            case "total", [node, low, high]:
                self.totals[node] = low, high
            case "dead", [node]:
                self.dead.add(node)
            case "pair", [scope, first, second]:
                self.pairs.append((scope, first, second))
            case "count-bound", [bound]:
                self.count_bound = bound
            case _:
                raise Differs(f"a line `{kind}` in the report that this viewer does not know")


def range_text(low: int, high: int) -> str:
    """A range as it is read: 5..17."""
    return str(high) if low == high else f"{low}..{high}"


def percent_text(share: float) -> str:
    """A share in three characters at most; nothing where there is none."""
    if share <= 0:
        return ""
    return "<1%" if share < 0.005 else f"{100 * share:.0f}%"
