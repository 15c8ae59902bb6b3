"""The rows of docs/bounds.md that a report makes, and a point of them that is worth the path bound.

The solver of the program is not asked: the report has no point. So a point is sought here, and taken only where it
meets each row and its worth, rounded down, is the path bound that the report tells.
"""

import dataclasses
import fractions
import math

from view.dual_simplex import Number, Row, Tableau
from view.graph import Graph
from view.report import Report

PAIRS = 128
# Past so many changes of a number in the tableau no point is sought further: about a second.
WORK = 1_000_000


@dataclasses.dataclass(frozen=True, slots=True)
class Column:
    """A way on from a node: an edge, or the end of the run at it, in a fault or not."""

    source: int
    target: int | None


def columns_of(graph: Graph, report: Report) -> list[Column]:
    edges = [Column(source, target) for source, target in graph.edges]
    ends = [Column(node, None) for node in graph.last]
    return edges + ends + [Column(node, None) for node in sorted({node for node, _ in report.alarms})]


class PathRows:
    """The rows of a report over the columns of its graph."""

    def __init__(self, graph: Graph, report: Report) -> None:
        self.report = report
        self.columns = columns_of(graph, report)
        self.costs = [report.nodes[it.source].cost for it in self.columns]
        self.leaving: list[list[int]] = [[] for _ in report.nodes]
        self.coming: list[list[int]] = [[] for _ in report.nodes]
        for number, column in enumerate(self.columns):
            self.leaving[column.source].append(number)
            if column.target is not None:
                self.coming[column.target].append(number)
        self.rows: list[Row] = []
        for node in range(len(report.nodes)):
            self.put([(1, self.leaving[node]), (-1, self.coming[node])], int(node == 0), is_equation=True)
        for node in sorted(report.dead):
            self.put([(1, self.leaving[node])], 0)
        for node, (low, high) in sorted(report.totals.items()):
            self.put([(1, self.leaving[node])], high)
            self.put([(-1, self.leaving[node])], -low)
        self.put_loops()
        for scope, first, second in report.pairs[:PAIRS]:
            header = report.scopes[scope].header
            self.put([(1, self.leaving[first]), (1, self.leaving[second]), (-1, self.leaving[header])], 0)

    def put(self, parts: list[tuple[int, list[int]]], most: int, is_equation: bool = False) -> None:
        """A row: the sum of columns, each part of them times its factor, is at most a number, or is that number."""
        terms: dict[int, Number] = {}
        for factor, columns in parts:
            for it in columns:
                terms[it] = terms.get(it, 0) + factor
        self.rows.append(Row({it: value for it, value in terms.items() if value}, most, is_equation))

    def put_loops(self) -> None:
        """How often a node comes each time that a loop is entered."""
        inside = [self.scopes_around(it.scope) for it in self.report.nodes]
        facts = [(scope, self.report.scopes[scope].header, it) for scope, it in self.report.loops.items()]
        facts += [(scope, node, it) for (scope, node), it in self.report.counts.items()]
        for scope, node, (low, high) in sorted(facts):
            header = self.report.scopes[scope].header
            entering = [it for it in self.coming[header] if scope not in inside[self.columns[it].source]]
            self.put([(1, self.leaving[node]), (-high, entering)], 0)
            self.put([(-1, self.leaving[node]), (low, entering)], 0)

    def scopes_around(self, scope: int | None) -> set[int]:
        found = set()
        while scope is not None:
            found.add(scope)
            scope = self.report.scopes[scope].parent
        return found

    def first_basis(self) -> dict[int, int]:
        """For each row that says how often a node comes at most a column that leaves it: where the search begins."""
        found = {}
        for number, row in enumerate(self.rows):
            if not row.is_equation and len({self.columns[it].source for it in row.terms}) == 1:
                if all(value == 1 for value in row.terms.values()):
                    found[number] = min(row.terms)
        return found

    def is_met(self, point: list[Number]) -> bool:
        for row in self.rows:
            value = sum(factor * point[it] for it, factor in row.terms.items())
            if value > row.most or row.is_equation and value != row.most:
                return False
        return all(value >= 0 for value in point)


def best_counts(graph: Graph, report: Report) -> list[fractions.Fraction] | None:
    """How often each node stands in a point that is worth the path bound. None where none was found."""
    if report.path_word != "least":
        return None
    rows = PathRows(graph, report)
    tableau = Tableau(rows.rows, rows.costs, WORK)
    point = tableau.best_point(rows.first_basis())
    if point is None or not rows.is_met(point):
        return None
    worth = sum(cost * value for cost, value in zip(rows.costs, point))
    if math.floor(worth) != report.path_bound:
        return None
    return [fractions.Fraction(sum(point[it] for it in leaving)) for leaving in rows.leaving]
