"""What speaks against a report, in the order of the list of docs/commands.md: the first thing is told."""

from typing import NamedTuple

from recheck.graph import Graph
from recheck.pool import Pool
from recheck.report import CAUSES, Fact, Report
from recheck.rows import against, system_of
from recheck.scopes import Outline
from recheck.step import Stepper


class Subject(NamedTuple):
    """A program with its inputs and costs, as it is explored: the cost and the name of each node."""

    graph: Graph
    outline: Outline
    costs: list[int]
    names: list[bytes]
    stepper: Stepper


def objection(subject: Subject, report: Report) -> str:
    """The line of the first objection; an empty text where there is none."""
    if not report.has_certificate:
        return "no cert"
    if not is_shaped(subject, report):
        return "no shape"
    system = system_of(subject.graph, subject.outline, report)
    if len(report.multipliers) != len(system.rows):
        return "no shape"
    pool = Pool(subject.stepper, subject.outline)
    for number, event in enumerate(report.events):
        if not pool.apply(event):
            return f"no event {number}"
    if pool.places:
        return f"no left {subject.outline.own[pool.places[0].node]}"
    return of_pool(pool, report) or of_counts(subject, report) or against(system, subject.costs, report)


def is_shaped(subject: Subject, report: Report) -> bool:
    """Whether nodes and scopes are the program's, and facts and alarms name what is there."""
    outline = subject.outline
    nodes = list(zip(outline.own, subject.costs, subject.names, strict=True))
    scopes = [(it.parent, it.header, it.kind) for it in outline.scopes]
    if report.nodes != nodes or report.scopes != scopes:
        return False
    if not all(is_fitting(outline, it) for it in report.facts) or any(node >= len(nodes) for node, _ in report.alarms):
        return False
    told = sorted(it.numbers[0] for it in report.facts if it.kind in ("dead", "total"))
    return told == list(range(len(nodes)))


def is_fitting(outline: Outline, fact: Fact) -> bool:
    numbers = fact.numbers
    if fact.kind in ("dead", "total"):
        return numbers[0] < len(outline.own)
    if numbers[0] >= len(outline.scopes):
        return False
    scope = outline.scopes[numbers[0]]
    nodes = {"loop": (), "count": numbers[1:2], "pair": numbers[1:]}[fact.kind]
    inside = all(it < len(outline.own) and outline.own[it] == numbers[0] and it != scope.header for it in nodes)
    is_kind = fact.kind == "pair" or scope.kind == "loop"
    return inside and is_kind and (fact.kind != "pair" or numbers[1] < numbers[2])


def of_pool(pool: Pool, report: Report) -> str:
    for node, faults in enumerate(pool.faults):
        for number, cause in enumerate(CAUSES):
            if faults >> number & 1 and (node, number) not in report.alarms:
                return f"no alarm {node} {cause}"
    for fact in report.facts:
        if is_excluded(pool, fact):
            return f"no fact {fact.line}"
    return ""


def is_excluded(pool: Pool, fact: Fact) -> bool:
    """Whether the line excludes what the events collected."""
    numbers, book = fact.numbers, pool.book
    match fact.kind:
        case "dead":
            return pool.stepped[numbers[0]]
        case "pair":
            return book.together(numbers[1], numbers[2])
        case "total":
            span = book.totals[numbers[0]]
        case "loop":
            span = book.visits[pool.outline.scopes[numbers[0]].header]
        case _:
            span = book.visits[numbers[1]]
    return span is not None and not (numbers[-2] <= span[0] and span[1] <= numbers[-1])


def of_counts(subject: Subject, report: Report) -> str:
    most = sum(subject.costs[it.numbers[0]] * it.numbers[2] for it in report.of_kind("total"))
    return "no count-bound" if most > report.count_bound else ""
