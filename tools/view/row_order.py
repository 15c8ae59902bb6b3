"""The order of the graph's rows: scopes stay together, a call stands behind its block, and only back edges go up."""

from view.model import Model

# A part of a scope: a node of its own, or a scope within it.
Part = tuple[str, int]
PartEdges = dict[Part, set[Part]]


class RowOrder:
    """The nodes in the order of rows, and for each node its row and its scopes from the outermost."""

    def __init__(self, model: Model) -> None:
        self.model = model
        self.around = [model.scopes_around(node) for node in model.nodes]
        scopes = range(len(model.report.scopes))
        self.within: dict[int, list[int]] = {it: [] for it in scopes}
        self.own: dict[int, list[int]] = {it: [] for it in scopes}
        for scope, line in enumerate(model.report.scopes):
            if line.parent is not None:
                self.within[line.parent].append(scope)
        for node in model.nodes:
            self.own[node.scope].append(node.number)
        self.order: list[int] = []
        self.lay(0, 0)
        self.row = {node: row for row, node in enumerate(self.order)}

    def members(self, scope: int) -> list[int]:
        """All nodes of a scope and of those within it."""
        return [node for node, around in enumerate(self.around) if scope in around]

    def first_node(self, part: Part) -> int:
        """Where a part stands in the text of the program."""
        kind, number = part
        return number if kind == "node" else self.model.report.scopes[number].header

    def lay(self, scope: int, depth: int) -> None:
        """Puts the nodes of a scope into the order."""
        parts: list[Part] = [("node", it) for it in self.own[scope]] + [("scope", it) for it in self.within[scope]]
        after, before = self.part_edges(scope, depth, parts)
        ready, last = [it for it in parts if not before[it]], None
        while parts:
            # A graph is reducible, so that some part is ready; no node is lost where it were not.
            choice = [it for it in ready if it[0] == "scope" and last and it in after[last]] or ready or parts
            last = min(choice, key=self.first_node)
            ready = [it for it in ready if it != last]
            parts.remove(last)
            if last[0] == "node":
                self.order.append(last[1])
            else:
                self.lay(last[1], depth + 1)
            for it in after[last]:
                before[it].discard(last)
                ready += [it] if not before[it] and it in parts and it not in ready else []

    def part_edges(self, scope: int, depth: int, parts: list[Part]) -> tuple[PartEdges, PartEdges]:
        """Which parts follow on each part, and which come before it, but for the edges back to the header."""
        header = self.part_of(self.model.report.scopes[scope].header, scope, depth)
        after: PartEdges = {it: set() for it in parts}
        before: PartEdges = {it: set() for it in parts}
        for source, target in self.model.graph.edges:
            first, second = self.part_of(source, scope, depth), self.part_of(target, scope, depth)
            if first and second and first != second and second != header:
                after[first].add(second)
                before[second].add(first)
        return after, before

    def part_of(self, node: int, scope: int, depth: int) -> Part | None:
        """The part of a scope that a node is in."""
        around = self.around[node]
        if len(around) <= depth or around[depth] != scope:
            return None
        return ("node", node) if len(around) == depth + 1 else ("scope", around[depth + 1])
