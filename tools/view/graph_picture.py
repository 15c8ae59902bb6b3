"""The graph as a list: a row for each node, a column for each depth of scopes, scopes as nested boxes."""

from view.file_view import Analysis
from view.graph import ENTRY
from view.markup import Markup, element, shortened
from view.model import Node
from view.report import range_text

ROW, INDENT, LEFT, TOP, LANE, LETTER = 24, 22, 26, 16, 7, 7
LEAST = 500
# Letters of a node's name for those who hear it.
LONGEST = 200


def picture_of(analysis: Analysis) -> Markup:
    return Picture(analysis).html()


class Picture:
    """Where nodes, lanes of edges and texts stand."""

    def __init__(self, analysis: Analysis) -> None:
        self.found, self.model, self.rows = analysis, analysis.model, analysis.rows
        self.deepest = max(self.model.depth_of(node.scope) for node in self.model.nodes)
        self.lanes = self.lanes_of_targets()
        self.lane_start = LEFT + self.deepest * INDENT + 22
        self.text_start = self.lane_start + (max(self.lanes.values(), default=-1) + 1) * LANE + 10
        self.count_width = max(len(self.count(it)) for it in self.model.nodes) * LETTER + 12
        self.width = max(LEAST, self.text_start + self.count_width + 190)

    def lanes_of_targets(self) -> dict[int, int]:
        """A lane for each node to which an edge leads past other rows; two lanes of one number do not meet."""
        first_row: dict[int, int] = {}
        for source, target in self.model.graph.edges:
            if self.rows.row[target] - self.rows.row[source] > 1:
                row = self.rows.row[source]
                first_row[target] = min(row, first_row.get(target, row))
        taken: list[list[tuple[int, int]]] = []
        lanes = {}
        for target in sorted(first_row, key=lambda it: self.rows.row[it] - first_row[it]):
            low, high = first_row[target], self.rows.row[target]
            free = [it for it, spans in enumerate(taken) if all(high <= a or b <= low for a, b in spans)]
            lanes[target] = free[0] if free else len(taken)
            taken += [] if free else [[]]
            taken[lanes[target]].append((low, high))
        return lanes

    def x(self, node: int) -> int:
        return LEFT + self.model.depth_of(self.model.nodes[node].scope) * INDENT

    def y(self, node: int) -> int:
        return TOP + self.rows.row[node] * ROW

    def count(self, node: Node) -> str:
        return "–" if node.is_dead else range_text(node.low, node.high)

    def html(self) -> Markup:
        height = TOP + len(self.model.nodes) * ROW
        tip = element(
            "marker",
            element("path", d="M0 0L6 3L0 6z"),
            id="tip",
            viewBox="0 0 6 6",
            refX=5,
            refY=3,
            markerWidth=5,
            markerHeight=5,
            orient="auto",
        )
        picture = element(
            "svg",
            element("defs", tip),
            *(self.scope(it) for it in range(1, len(self.model.report.scopes))),
            *(self.edge(*it) for it in self.model.graph.edges),
            *(self.node(self.model.nodes[it]) for it in self.rows.order),
            width=self.width,
            height=height,
            viewBox=f"0 0 {self.width} {height}",
            role="list",
            aria_label="graph",
        )
        return element("div", picture, class_="graph")

    def scope(self, scope: int) -> Markup:
        """The box round the nodes of a scope."""
        rows = [self.rows.row[it] for it in self.rows.members(scope)]
        depth = self.model.depth_of(scope)
        left = LEFT + depth * INDENT - 17
        return element(
            "rect",
            element("title", self.found.loops.scope_words(scope)),
            class_=f"scope {self.model.report.scopes[scope].kind}",
            x=left,
            y=TOP + min(rows) * ROW - 11,
            rx=6,
            width=self.width - left - 3 * depth,
            height=(max(rows) - min(rows)) * ROW + 22,
        )

    def edge(self, source: int, target: int) -> Markup:
        """Down to the next row straight, further down in a lane to the right, and up to the left."""
        is_off = self.model.nodes[source].is_dead or self.model.nodes[target].is_dead
        distance = self.rows.row[target] - self.rows.row[source]
        kind = "next" if distance == 1 else "skip" if distance > 1 else "back"
        return element(
            "path",
            class_=f"e {kind} off" if is_off else f"e {kind}",
            d=self.way(kind, source, target),
            data_e=f"{source} {target}",
            marker_end=None if is_off else "url(#tip)",
        )

    def way(self, kind: str, source: int, target: int) -> str:
        left, top, right, bottom = self.x(source), self.y(source), self.x(target), self.y(target)
        if kind == "next":
            return f"M{left} {top + 8}L{right} {bottom - 9}"
        if kind == "skip":
            lane, start, end = self.lane_start + self.lanes[target] * LANE, top + 3, bottom - 3
            turn = f"Q{lane} {start} {lane} {start + 4}V{end - 4}Q{lane} {end} {lane - 4} {end}"
            return f"M{left + 12} {start}H{lane - 4}{turn}H{right + 14}"
        if source == target:
            return f"M{left - 12} {top + 4}h-3q-3 0 -3 -4t3 -4h1"
        lane = right - 16
        turn = f"Q{lane} {top} {lane} {top - 4}V{bottom + 5}Q{lane} {bottom + 1} {lane + 2} {bottom + 1}"
        return f"M{left - 12} {top}H{lane + 4}{turn}"

    def node(self, node: Node) -> Markup:
        number, line, count = node.number, node.block.home + 1, self.count(node)
        label = shortened(node.block.text, LONGEST) + (" is entered" if node.block.number == ENTRY else "")
        sign = "▲ " if number in self.found.alarms.first_item else ""
        kind = "dead" if node.is_dead else f"h{self.model.level(node.share)}"
        letters = (self.width - self.text_start - self.count_width - 44 - 3 * self.deepest) // LETTER
        is_entry = node.block.number == ENTRY
        x, y = self.x(number), self.y(number)
        text = self.text_start + self.count_width
        return element(
            "g",
            element("rect", class_="hit", x=0, y=y - 11, width=self.width, height=22),
            element("rect", class_="dot", x=x - 12, y=y - 8, width=24, height=16, rx=2 if is_entry else 8),
            element("text", str(number), class_="id", x=x, y=y + 4),
            element("text", count, class_="cn", x=text - 12, y=y + 4),
            element("text", sign + shortened(label, letters), class_="tx", x=text, y=y + 4),
            element("text", str(line), class_="lx", x=self.width - 8 - 3 * self.deepest, y=y + 4),
            class_=f"node {kind} entry" if is_entry else f"node {kind}",
            tabindex=-1,
            data_n=number,
            data_go=line,
            role="listitem",
            aria_label=f"node {number}, line {line}, {count} in a run: {label}",
        )
