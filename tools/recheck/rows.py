"""The rows that a graph and the facts of a report make, and the multipliers that bound them: docs/bounds.md."""

from typing import NamedTuple

from recheck.graph import Graph
from recheck.report import WIDE, Fact, Report
from recheck.scopes import Outline

MOST_PAIRS = 128


class Row(NamedTuple):
    """Coefficients by column, the right side, and whether it is an equation."""

    coefficients: dict[int, int]
    right: int
    is_equation: bool


class System(NamedTuple):
    """The columns that leave each node, those that enter it, the cost of each column, and the rows."""

    leaving: list[list[int]]
    entering: list[list[int]]
    tails: list[int]
    rows: list[Row]


def system_of(graph: Graph, outline: Outline, report: Report) -> System:
    count = len(graph.nodes)
    alarmed = sorted({node for node, _ in report.alarms if node < count})
    tails = [tail for tail, _ in graph.edges] + alarmed
    leaving: list[list[int]] = [[] for _ in range(count)]
    entering: list[list[int]] = [[] for _ in range(count)]
    for column, tail in enumerate(tails):
        leaving[tail].append(column)
    for column, (_, head) in enumerate(graph.edges):
        if head >= 0:
            entering[head].append(column)
    system = System(leaving, entering, tails, [])
    for node in range(count):
        row = plus(counted(system, node), entering[node], -1)
        system.rows.append(Row(row, int(node == 0), True))
    for kind in ("loop", "dead", "total", "pair", "count"):
        for fact in report.of_kind(kind)[: MOST_PAIRS if kind == "pair" else None]:
            system.rows.extend(rows_of(system, outline, fact))
    return system


def counted(system: System, node: int, times: int = 1) -> dict[int, int]:
    return {column: times for column in system.leaving[node]}


def plus(row: dict[int, int], columns: list[int], times: int) -> dict[int, int]:
    found = dict(row)
    for column in columns:
        found[column] = found.get(column, 0) + times
    return found


def rows_of(system: System, outline: Outline, fact: Fact) -> list[Row]:
    numbers = fact.numbers
    match fact.kind:
        case "dead":
            return [Row(counted(system, numbers[0]), 0, False)]
        case "total":
            node, lo, hi = numbers
            return [Row(counted(system, node), hi, False), Row(counted(system, node, -1), -lo, False)]
        case "pair":
            scope, first, second = numbers
            row = plus(counted(system, first), system.leaving[second], 1)
            return [Row(plus(row, system.leaving[outline.scopes[scope].header], -1), 0, False)]
    scope, lo, hi = numbers[0], numbers[-2], numbers[-1]
    header = outline.scopes[scope].header
    node = header if fact.kind == "loop" else numbers[1]
    entries = [it for it in system.entering[header] if scope not in outline.around[system.tails[it]]]
    return [
        Row(plus(counted(system, node), entries, -hi), 0, False),
        Row(plus(counted(system, node, -1), entries, lo), 0, False),
    ]


class Wide(Exception):
    """A number at a row, or past all rows at a cost, has more than 128 bits."""


def narrow(number: int, row: int) -> int:
    if not -WIDE - 1 <= number <= WIDE:
        raise Wide(f"no wide {row}")
    return number


def against(system: System, costs: list[int], report: Report) -> str:
    """What speaks against the multipliers and the path bound; an empty text where nothing does."""
    for number, (row, times) in enumerate(zip(system.rows, report.multipliers, strict=True)):
        if times < 0 and not row.is_equation:
            return f"no negative {number}"
    terms: list[list[tuple[int, int]]] = [[] for _ in system.tails]
    for number, row in enumerate(system.rows):
        for column, coefficient in row.coefficients.items():
            terms[column].append((number, coefficient))
    try:
        for column, tail in enumerate(system.tails):
            found = added(terms[column], report.multipliers)
            if found < narrow(report.scale * costs[tail], len(system.rows)):
                return f"no column {column}"
        right = added([(number, row.right) for number, row in enumerate(system.rows)], report.multipliers)
    except Wide as wide:
        return str(wide)
    bound = right // report.scale
    most = (1 << 64) - 1 if report.path_bound is None else report.path_bound
    return f"no bound {bound}" if bound > most else ""


def added(terms: list[tuple[int, int]], multipliers: list[int]) -> int:
    """The rows' numbers, each times its multiplier, in the order of rows."""
    found = 0
    for row, number in terms:
        found = narrow(found + narrow(multipliers[row] * number, row), row)
    return found
