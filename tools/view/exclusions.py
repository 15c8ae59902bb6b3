"""The pairs of a report as sentences: of which groups of nodes an iteration has one at most."""

import dataclasses

from view.model import Model


@dataclasses.dataclass(frozen=True, slots=True)
class Exclusion:
    """In one iteration of a scope nodes of one of the groups come at most."""

    scope: int
    groups: list[list[int]]


def exclusions_of(model: Model) -> list[Exclusion]:
    """All pairs and no others: each pair is of two groups of one exclusion, and each two nodes of two such groups are
    a pair."""
    by_scope: dict[int, list[tuple[int, int]]] = {}
    for scope, first, second in model.report.pairs:
        by_scope.setdefault(scope, []).append((first, second))
    return [Exclusion(scope, it) for scope, pairs in sorted(by_scope.items()) for it in cliques_of(pairs)]


def cliques_of(pairs: list[tuple[int, int]]) -> list[list[list[int]]]:
    """Lists of groups that cover the pairs. Nodes with the same foes make a group: they do not exclude one another."""
    foes_of: dict[int, set[int]] = {}
    for first, second in pairs:
        foes_of.setdefault(first, set()).add(second)
        foes_of.setdefault(second, set()).add(first)
    by_foes: dict[frozenset[int], list[int]] = {}
    for node in sorted(foes_of):
        by_foes.setdefault(frozenset(foes_of[node]), []).append(node)
    groups = list(by_foes.values())
    group_of = {node: number for number, nodes in enumerate(groups) for node in nodes}
    foes = [{group_of[it] for it in foes_of[nodes[0]]} for nodes in groups]
    return [[groups[it] for it in clique] for clique in cover(foes)]


def cover(foes: list[set[int]]) -> list[list[int]]:
    """Sets of numbers each of which are foes of one another, until each two foes stand in one of them."""
    left = {(first, second) for first, others in enumerate(foes) for second in others if first < second}
    found = []
    while left:
        first, second = min(left)
        clique = [first, second]

        def news(number: int) -> tuple[int, int]:
            return -sum((min(number, it), max(number, it)) in left for it in clique), number

        for number in sorted(foes[first] & foes[second], key=news):
            if all(number in foes[it] for it in clique):
                clique.append(number)
        clique.sort()
        left -= {(one, two) for one in clique for two in clique}
        found.append(clique)
    return found


def lines_text(model: Model, nodes: list[int]) -> str:
    """The lines of nodes: 9, 11–13."""
    runs: list[list[int]] = []
    for line in sorted({model.nodes[it].block.home + 1 for it in nodes}):
        if runs and line == runs[-1][1] + 1:
            runs[-1][1] = line
        else:
            runs.append([line, line])
    return ", ".join(str(first) if first == last else f"{first}–{last}" for first, last in runs)
