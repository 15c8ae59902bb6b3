"""The scopes of a graph: calls of functions and loops, and the ranks of its nodes (docs/scopes.md)."""

from typing import NamedTuple

from recheck.graph import ENTRY, Graph
from recheck.unread import Unread


class Scope(NamedTuple):
    parent: int | None
    header: int
    kind: str


class Outline(NamedTuple):
    """Scopes by number; for each node its own scope, its rank, and the scopes around it from the outermost."""

    scopes: list[Scope]
    own: list[int]
    ranks: list[int]
    around: list[tuple[int, ...]]


def outline_of(graph: Graph) -> Outline:
    heads = [[head for tail, head in graph.edges if tail == node and head >= 0] for node in range(len(graph.nodes))]
    dominators = dominators_of(heads)
    back = {(tail, head) for tail in range(len(heads)) for head in heads[tail] if dominators[tail] >> head & 1}
    ranks = ranks_of(heads, back)
    entries = [node for node, it in enumerate(graph.nodes) if it[1] == ENTRY]
    members = {("call", node): calls_in(graph, graph.nodes[node][0]) for node in entries}
    for header in {head for _, head in back}:
        members["loop", header] = loop_of(graph, heads, header, [tail for tail, head in back if head == header])
    return scoped(members, ranks, len(heads))


def scoped(members: dict[tuple[str, int], set[int]], ranks: list[int], count: int) -> Outline:
    kinds = sorted(members, key=lambda it: it[1])
    around = []
    for node in range(count):
        holding = [number for number, it in enumerate(kinds) if node in members[it]]
        around.append(tuple(sorted(holding, key=lambda it: ranks[kinds[it][1]])))
    scopes = []
    for number, (kind, header) in enumerate(kinds):
        outer = around[header][: around[header].index(number)]
        scopes.append(Scope(outer[-1] if outer else None, header, kind))
    return Outline(scopes, [it[-1] for it in around], ranks, around)


def dominators_of(heads: list[list[int]]) -> list[int]:
    """For each node, as bits, the nodes that lie on every walk to it from node 0."""
    every = (1 << len(heads)) - 1
    found = [1] + [every] * (len(heads) - 1)
    changed = True
    while changed:
        changed = False
        for tail, goals in enumerate(heads):
            for head in goals:
                mask = found[head] & (found[tail] | 1 << head)
                if mask != found[head]:
                    found[head], changed = mask, True
    return found


def ranks_of(heads: list[list[int]], back: set[tuple[int, int]]) -> list[int]:
    """The next rank goes to the least node without one whose predecessors, but along back edges, have theirs."""
    count = len(heads)
    missing = [0] * count
    for tail in range(count):
        for head in heads[tail]:
            missing[head] += (tail, head) not in back
    ranks = [-1] * count
    for rank in range(count):
        node = next((it for it in range(count) if ranks[it] < 0 and missing[it] == 0), None)
        if node is None:
            raise Unread("program irreducible")
        ranks[node] = rank
        for head in heads[node]:
            missing[head] -= (node, head) not in back
    return ranks


def calls_in(graph: Graph, path: tuple[int, ...]) -> set[int]:
    return {number for number, it in enumerate(graph.nodes) if it[0][: len(path)] == path}


def loop_of(graph: Graph, heads: list[list[int]], header: int, tails: list[int]) -> set[int]:
    """What reaches a source of a back edge without passing the header, and what is called from there."""
    sources: list[list[int]] = [[] for _ in heads]
    for tail, goals in enumerate(heads):
        for head in goals:
            sources[head].append(tail)
    found, waiting = {header}, [it for it in tails if it != header]
    while waiting:
        node = waiting.pop()
        if node not in found:
            found.add(node)
            waiting += sources[node]
    called = {(*graph.nodes[it][0], graph.nodes[it][1]) for it in found}
    for number, (path, _) in enumerate(graph.nodes):
        if any(path[:most] in called for most in range(1, len(path) + 1)):
            found.add(number)
    return found
