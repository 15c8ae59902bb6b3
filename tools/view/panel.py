"""The lists beside the source: alarms, what the bound is made of, loops and calls, what excludes one another."""

from view.exclusions import Exclusion, lines_text
from view.file_view import Analysis
from view.graph_picture import picture_of
from view.loops import count_words
from view.markup import NOTHING, Content, Markup, element, item, joined, shortened
from view.model import Node
from view.report import percent_text, range_text

# Rows of the list of parts that are shown at once.
FIRST = 10
# Letters of a part that the box tells: a function of one long block may be called from many places.
LONGEST = 400


class Panel:
    """The lists of one analysis."""

    def __init__(self, analysis: Analysis) -> None:
        self.found, self.model, self.report = analysis, analysis.model, analysis.report

    def html(self) -> Markup:
        excluded = self.exclusions()
        is_less = self.report.path_bound < self.report.count_bound
        note = "One reason why the path bound is below the count bound." if is_less else ""
        return element(
            "aside",
            element("section", id="sel", class_="idle", aria_live="polite"),
            section("alarms", "Alarms", self.alarms()) if self.found.alarms.all else NOTHING,
            section("hot", "Where the bound comes from", self.parts()),
            section("loops", "Loops and calls", element("ul", self.scope(0), class_="tree")),
            section("never", "Never together", excluded, note) if self.found.exclusions else NOTHING,
            section("graph", "Graph", picture_of(self.found)),
            self.keys(),
            aria_label="what the report says",
        )

    def keys(self) -> Markup:
        keys = [
            ("↑ ↓", "move"),
            ("Enter", "keeps and follows"),
            ("n p", "next and last costly line"),
            *([("a", "next alarm")] if self.found.alarms.all else []),
            ("g", "source or panel"),
            ("Esc", "lets go"),
        ]
        told: list[Content] = ["Point at a line, a part or a node."]
        for words, what in keys:
            told += [piece for it in words.split() for piece in (" ", element("kbd", it))]
            told.append(f" {what}{',' if what != keys[-1][1] else '.'}")
        return element("p", *told, class_="hint keys")

    def caller(self, node: Node) -> str:
        """From where a node's function is called, where it is called more than once."""
        return f"from {self.model.call_words(node.place.path)}" if len(node.block.nodes) > 1 else ""

    # -- the parts of the bound

    def parts(self) -> Markup:
        order = self.found.rows.row
        nodes = sorted((it for it in self.model.nodes if it.share), key=lambda it: (-it.share, order[it.number]))
        cells = [cell("pc", "share"), cell("n", "in a run"), cell("what", "part"), cell("at", "line")]
        rows = [element("li", *cells, class_="head")] + [self.part(it) for it in nodes]
        shown = element("ol", *rows[: FIRST + 1], class_="list")
        return joined([shown, more(len(nodes) - FIRST, "more", element("ol", *rows[FIRST + 1 :], class_="list"))])

    def part(self, node: Node) -> Markup:
        times = "once" if node.counted == 1 else f"{count_text(node.counted)} times"
        counted = "" if node.counted == node.high else f"counted {times}"
        told = ", ".join(it for it in (self.caller(node), counted) if it)
        return item(
            "li",
            [node.number],
            node.block.home,
            bar(node.share / self.model.top_node),
            cell("pc", percent_text(node.share)),
            cell("n", range_text(node.low, node.high)),
            cell("what", element("code", shortened(node.block.text, 60)), element("small", told)),
            cell("at", str(node.block.home + 1)),
        )

    # -- loops and calls

    def scope(self, scope: int) -> Markup:
        """A scope with those within it."""
        header, nodes = self.model.header_of(scope), self.found.rows.members(scope)
        share = sum(self.model.nodes[it].share for it in nodes)
        kind = self.report.scopes[scope].kind
        name, line, words = self.loop_words(scope) if kind == "loop" else self.call_words(scope)
        row = item(
            "div",
            nodes,
            line,
            bar(share),
            cell("pc", percent_text(share)),
            cell("what", element("code", name), " ", element("small", words)),
            cell("at", str(line + 1)),
            kind=f"{kind} dead" if header.is_dead else kind,
        )
        return element("li", row, self.scopes_within(scope))

    def loop_words(self, scope: int) -> tuple[str, int, str]:
        loop = self.found.loops.of_scope[scope]
        return loop.statement.word, loop.line, self.found.loops.words(loop, [scope])

    def call_words(self, scope: int) -> tuple[str, int, str]:
        header = self.model.header_of(scope)
        calls = count_words((header.low, header.high), "call")
        words = f"{calls}, from line {self.model.call_words(header.place.path)}" if scope else "the run"
        return f"{header.block.function.name}()", header.block.home, words

    def scopes_within(self, scope: int) -> Markup:
        """The scopes within one in the order of rows; those that are never entered are folded where it is."""
        rows = self.found.rows
        within = sorted(rows.within[scope], key=lambda it: rows.row[self.report.scopes[it].header])
        is_dead = self.model.header_of(scope).is_dead
        shown = [it for it in within if is_dead or not self.model.header_of(it).is_dead]
        folded = [it for it in within if it not in shown]
        told = [self.scope(it) for it in shown]
        if folded:
            inner = element("ul", *(self.scope(it) for it in folded))
            told.append(element("li", more(len(folded), "never entered", inner)))
        return element("ul", *told) if told else NOTHING

    # -- alarms

    def alarms(self) -> Markup:
        rows = []
        for alarm in self.found.alarms.all:
            every = f"in each of its {len(alarm.nodes)} calls" if len(alarm.nodes) > 1 else ""
            calls = self.model.instance_words(alarm.nodes) or every
            several = " — one of these lines" if len(alarm.lines) > 1 else ""
            rows.append(
                item(
                    "li",
                    [it.number for it in alarm.nodes],
                    alarm.lines[0],
                    cell("kind", f"▲ {alarm.cause}"),
                    cell("what", alarm.words + several, element("small", calls)),
                    cell("at", ", ".join(str(it + 1) for it in alarm.lines)),
                )
            )
        return element("ol", *rows, class_="list alarms")

    # -- what excludes one another

    def exclusions(self) -> Markup:
        found, last = [], None
        for it in self.found.exclusions:
            if it.scope != last:
                words = self.found.loops.scope_words(it.scope)
                found.append(element("p", f"In one {words}, at most one of:"))
                last = it.scope
            found.append(self.exclusion(it))
        return joined(found)

    def exclusion(self, exclusion: Exclusion) -> Markup:
        rows = []
        for group in exclusion.groups:
            nodes = sorted((self.model.nodes[it] for it in group), key=lambda it: (it.block.home, it.number))
            texts = list(dict.fromkeys(it.block.text for it in nodes))
            lines = cell("at", lines_text(self.model, group))
            code = element("code", shortened(" / ".join(texts), 64))
            rows.append(item("li", group, nodes[0].block.home, lines, code))
        return element("ul", element("li", element("ul", *rows), class_="group"), class_="ex")

    # -- what the script tells of a node

    def node_data(self) -> list[list[object]]:
        """For each node: text, line, count in a run and per loop entry, cost, share, name, caller, times counted."""
        return [
            [
                shortened(it.block.text, LONGEST),
                it.block.home + 1,
                "–" if it.is_dead else range_text(it.low, it.high),
                self.per_entry(it),
                it.cost,
                percent_text(it.share) or "0",
                it.name,
                self.caller(it),
                count_text(it.counted),
            ]
            for it in self.model.nodes
        ]

    def per_entry(self, node: Node) -> str:
        """How often a node comes each time that its loop is entered."""
        if (node.scope, node.number) in self.report.counts:
            return range_text(*self.report.counts[node.scope, node.number])
        is_header = self.report.scopes[node.scope].header == node.number
        return range_text(*self.report.loops[node.scope]) if is_header and node.scope in self.report.loops else ""


def section(name: str, title: str, body: Markup, note: str = "") -> Markup:
    told = element("p", note, class_="note") if note else NOTHING
    return element("details", element("summary", element("h2", title)), told, body, class_="sec", id=name, open=True)


def more(count: int, words: str, body: Markup) -> Markup:
    """A part that is folded, with how many rows it has."""
    return element("details", element("summary", f"{count} {words}"), body, class_="more") if count > 0 else NOTHING


def cell(kind: str, *content: Content) -> Markup:
    return element("span", *content, class_=kind)


def bar(share: float) -> Markup:
    """Behind a row, as wide as its share, in hundredths: the page's style has a class for each."""
    return element("span", class_=f"bar w{round(100 * share)}")


def count_text(count: float) -> str:
    return f"{count:.0f}" if count == round(count) else f"{count:.1f}"
