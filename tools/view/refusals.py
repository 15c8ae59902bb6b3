"""Why there is no report, in words, and the place in the source where the answer tells one."""

import dataclasses

from view.graph import Graph
from view.name_places import named_place
from view.source import Source

# Faults of C with a line and a column.
PLACED = {
    "90": "This is no C",
    "91": "This number is too large",
    "92": "This is outside of the profile of C",
    "96": "These types do not fit",
}
# Departures of ALF with a line and a column.
PLACED_OF_ALF = {
    "10": "This is no ALF",
    "11": "This number is none here",
    "12": "This is outside of the profile of ALF",
}
WAITS = "The steps are used up; runs wait here. More --turns may help, or another --merge, or narrower inputs"


@dataclasses.dataclass(frozen=True, slots=True)
class Refusal:
    """The line of the answer and its status, and its place: line and column from 0, and what is wrong there."""

    line: str
    status: int
    place: tuple[int, int, str] | None = None

    @property
    def words(self) -> str:
        return f"The analysis answers `{self.line}` (status {self.status})."


def refusal_of(answer: str, status: int, text: str, is_c: bool) -> Refusal:
    """Of an answer without a report. Columns of an answer count bytes, those of a place characters."""
    line = answer.strip()
    told_line = line or "nothing"
    kind, *words = line.split(" ") if line else [""]
    told = PLACED if is_c else PLACED_OF_ALF
    if is_c and kind == "fault" and len(words) > 2:
        place = named_place(words[0], [it.strip('"') for it in words[2:]], text)
        if place:
            return Refusal(told_line, status, place)
    if kind != "fault" or len(words) < 4 or words[0] not in told:
        return Refusal(told_line, status)
    row, column = int(words[2]) - 1, int(words[3]) - 1
    rows = text.split("\n")
    before = rows[row].encode("utf-8", "surrogateescape")[:column] if row < len(rows) else b""
    return Refusal(told_line, status, (row, len(before.decode("utf-8", "replace")), told[words[0]]))


def waiting_place(answer: str, source: Source, root: str) -> tuple[int, int, str] | None:
    """Where runs wait when the steps are used up, of an answer `unbounded COUNT NODE`."""
    words = answer.strip().split(" ", 2)
    if words[0] != "unbounded" or len(words) < 3:
        return None
    graph = Graph(source.functions, root)
    for place in graph.places:
        if graph.name_of(place) == words[2]:
            token = source.tokens[graph.function_at(place.path).tokens_of(place.block)[0]]
            return token.line, token.column, WAITS
    return None
