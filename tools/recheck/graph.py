"""The graph of a program: nodes with their call paths, and edges, as docs/formats/runs.md has them."""

from typing import NamedTuple

from recheck.program import Program
from recheck.tree import Call, Jump, Return, Switch
from recheck.unread import Unread

MOST_NODES, MOST_EDGES = 512, 1024
ENTRY = -1
END = -1
# A node: the blocks of the calls that lead to its instance, and its block or ENTRY.
Node = tuple[tuple[int, ...], int]


class Graph(NamedTuple):
    """Nodes by number, for each its function, and edges in their order; an edge to END leads to the end."""

    nodes: list[Node]
    functions: list[int]
    edges: list[tuple[int, int]]
    numbers: dict[Node, int]


def graph_of(program: Program, root: int) -> Graph:
    first: Node = ((), ENTRY)
    functions = {first: root}
    goals: dict[Node, list[Node | None]] = {}
    waiting = [first]
    while waiting:
        node = waiting.pop()
        goals[node] = []
        for goal, function in goals_of(program, root, node, functions[node]):
            goals[node].append(goal)
            if goal is not None and goal not in functions:
                functions[goal] = function
                waiting.append(goal)
        if len(functions) > MOST_NODES:
            raise Unread("program nodes")
    nodes = sorted(functions)
    numbers = {node: number for number, node in enumerate(nodes)}
    edges = sorted({(numbers[node], numbers[it] if it else len(nodes)) for node in nodes for it in goals[node]})
    if len(edges) > MOST_EDGES:
        raise Unread("program edges")
    ended = [(tail, head if head < len(nodes) else END) for tail, head in edges]
    return Graph(nodes, [functions[it] for it in nodes], ended, numbers)


def goals_of(program: Program, root: int, node: Node, function: int) -> list[tuple[Node | None, int]]:
    """The nodes to which edges lead, with their functions; None is the end."""
    path, block = node
    if block == ENTRY:
        return [((path, 0), function)]
    routine = program.routines[function]
    match routine.blocks[block].ending:
        case Jump(label):
            return [((path, routine.labels[label]), function)]
        case Switch(_, targets, default):
            labels = [label for _, label in targets] + [default]
            return [((path, routine.labels[it]), function) for it in labels]
        case Call(called, _, _):
            return [(((*path, block), ENTRY), program.numbers[called])]
        case Return(_):
            caller = caller_of(program, root, path)
            return [((path[:-1], path[-1] + 1), caller) if path else (None, function)]
    return [((path, block + 1), function)]


def caller_of(program: Program, root: int, path: tuple[int, ...]) -> int:
    """The function of the instance that made the last call of a path."""
    function = root
    for block in path[:-1]:
        function = called_at(program, function, block)
    return function


def called_at(program: Program, function: int, block: int) -> int:
    ending = program.routines[function].blocks[block].ending
    assert isinstance(ending, Call)
    return program.numbers[ending.function]


def name_of(program: Program, root: int, node: Node) -> str:
    path, block = node
    words, function = [f'"{program.routines[root].name}"'], root
    for call in path:
        function = called_at(program, function, call)
        words.append(f'.{call}"{program.routines[function].name}"')
    return "".join(words) + ":" + ("entry" if block == ENTRY else str(block))
