"""What a page and its analysis must be."""

import html.parser

from view.file_view import Analysis, View
from view.graph import Graph
from view.markup import VOID


class Tags(html.parser.HTMLParser):
    """Whether each tag is closed in its order, and the names of what the page would fetch."""

    def __init__(self) -> None:
        super().__init__()
        self.open: list[str] = []
        self.faults: list[str] = []

    def handle_starttag(self, tag: str, attrs: list[tuple[str, str | None]]) -> None:
        self.open += [] if tag in VOID else [tag]
        self.faults += [f"{tag} fetches {value}" for name, value in attrs if name == "src"]
        self.faults += [f"{tag} fetches {value}" for name, value in attrs if name == "href" and value[:1] != "#"]

    def handle_endtag(self, tag: str) -> None:
        if not self.open or self.open.pop() != tag:
            self.faults.append(f"{tag} closes at {self.getpos()}")


def page_faults(page: str) -> list[str]:
    tags = Tags()
    tags.feed(page)
    tags.close()
    return tags.faults + [f"{it} is not closed" for it in tags.open]


def analysis_faults(view: View) -> list[str]:
    """Shares add up to 1, lines tell them once, pairs are whole, scopes stand together, and only back edges go up."""
    found = view.analysis
    nodes = found.model.nodes
    whole = 1 if any(it.cost and it.high for it in nodes) else 0
    told = sum(found.lines.facts(line).share for line in range(len(view.rows)))
    faults = []
    if abs(sum(it.share for it in nodes) - whole) > 1e-9:
        faults.append(f"the shares of nodes add up to {sum(it.share for it in nodes)}")
    if abs(told - whole) > 1e-9:
        faults.append(f"the shares of lines add up to {told}")
    if pairs_of(found) != sorted(found.report.pairs):
        faults.append("the sentences do not tell the pairs")
    return faults + row_faults(found, found.model.graph)


def pairs_of(found: Analysis) -> list[tuple[int, int, int]]:
    """The pairs that the sentences tell."""
    told = set()
    for it in found.exclusions:
        for group in it.groups:
            others = [node for other in it.groups if other is not group for node in other]
            told |= {(it.scope, min(one, two), max(one, two)) for one in group for two in others}
    return sorted(told)


def row_faults(found: Analysis, graph: Graph) -> list[str]:
    rows, faults = found.rows.row, []
    if sorted(rows) != list(range(len(found.model.nodes))):
        return ["a node has no row"]
    for scope in range(len(found.report.scopes)):
        own = sorted(rows[it] for it in found.rows.members(scope))
        if own != list(range(own[0], own[0] + len(own))):
            faults.append(f"the rows of scope {scope} do not stand together")
    for source, target in graph.edges:
        is_back = any(found.report.scopes[it].header == target for it in found.rows.around[source])
        if rows[source] >= rows[target] and not is_back:
            faults.append(f"the edge from {source} to {target} goes up")
    return faults
