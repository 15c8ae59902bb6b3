"""A step of the analysis: what the block of a node makes of a memory, and to which nodes it leads (docs/values.md)."""

from typing import NamedTuple

from recheck.arms import arms_of
from recheck.expressions import Expressions
from recheck.given import Row
from recheck.graph import END, ENTRY, Graph
from recheck.memory import EMPTY, Memory, strong
from recheck.program import Block, Program
from recheck.strides import norm, single
from recheck.tree import Call, Expression, Initial, Jump, Return, Switch, size_of
from recheck.values import Value, of_words, pointer


class Stepped(NamedTuple):
    """The nodes that come next, in their order, each with its memory, and the faults that may come."""

    ways: list[tuple[int, Memory]]
    faults: int


class Stepper:
    """The steps of a program along its graph."""

    def __init__(self, program: Program, graph: Graph, rows: list[Row]) -> None:
        self.program = program
        self.graph = graph
        at_paths = {path: Expressions(program.frames, self.active_at(path)) for path, _ in graph.nodes}
        self.expressions = [at_paths[path] for path, _ in graph.nodes]
        self.start = self.with_initials({}, program.initials)
        self.start = self.with_initials(self.start, program.routines[graph.functions[0]].initials)
        for row in rows:
            value = of_words(norm(row.size, row.low, row.high, 1))
            self.start[row.frame] = strong(self.start.get(row.frame, EMPTY), (row.offset, row.size), value)

    def active_at(self, path: tuple[int, ...]) -> frozenset[int]:
        """The frames that are global, or of the functions that run in the instance of a call path."""
        running = {self.graph.functions[self.graph.numbers[path[:most], ENTRY]] for most in range(len(path) + 1)}
        owners = [it.owner for it in self.program.frames]
        return frozenset(number for number, it in enumerate(owners) if it is None or it in running)

    def with_initials(self, memory: Memory, initials: tuple[tuple[int, Initial], ...]) -> Memory:
        found = dict(memory)
        for frame, it in initials:
            value = of_words(single(it.number.size, it.number.word))
            found[frame] = strong(found.get(frame, EMPTY), (it.offset, it.number.size), value)
        return found

    def step(self, node: int, memory: Memory) -> Stepped:
        path, number = self.graph.nodes[node]
        if number == ENTRY:
            return Stepped([(self.graph.numbers[path, 0], memory)], 0)
        block = self.program.routines[self.graph.functions[node]].blocks[number]
        expressions, faults = self.expressions[node], 0
        for store in block.stores:
            (address, value), fault = values_of(expressions, (store.address, store.value), memory)
            faults |= fault
            if address is None or value is None:
                return Stepped([], faults)
            stored, fault = expressions.stored(address, size_of(store.value), value, memory)
            faults |= fault
            if stored is None:
                return Stepped([], faults)
            memory = stored
        ways, fault = self.ended(block, node, memory)
        return Stepped(ways, faults | fault)

    def ended(self, block: Block, node: int, memory: Memory) -> Stepped:
        path, number = self.graph.nodes[node]
        labels = self.program.routines[self.graph.functions[node]].labels
        match block.ending:
            case Jump(label):
                return Stepped([(self.graph.numbers[path, labels[label]], memory)], 0)
            case Switch():
                arms, faults = arms_of(block.ending, self.expressions[node], memory)
                return Stepped([(self.graph.numbers[path, labels[label]], it) for label, it in arms], faults)
            case Call():
                return self.call(block.ending, node, memory)
            case Return(term):
                return self.returned(term, node, memory)
        return Stepped([(self.graph.numbers[path, number + 1], memory)], 0)

    def call(self, call: Call, node: int, memory: Memory) -> Stepped:
        values, faults = values_of(self.expressions[node], call.arguments, memory)
        function = self.program.numbers[call.function]
        routine = self.program.routines[function]
        found = {it: kept for it, kept in memory.items() if self.program.frames[it].owner != function}
        for frame, value, term in zip(routine.arguments, values, call.arguments, strict=True):
            if value is None:
                return Stepped([], faults)
            found[frame] = strong(EMPTY, (0, size_of(term)), value)
        path, number = self.graph.nodes[node]
        entry = self.graph.numbers[(*path, number), ENTRY]
        return Stepped([(entry, self.with_initials(found, routine.initials))], faults)

    def returned(self, term: Expression | None, node: int, memory: Memory) -> Stepped:
        """The result is stored where the call was made; a fault of that is one of the return."""
        path, _ = self.graph.nodes[node]
        (value,), faults = values_of(self.expressions[node], (term,), memory) if term else ((None,), 0)
        if term and value is None:
            return Stepped([], faults)
        if not path:
            return Stepped([(END, memory)], faults)
        caller = self.graph.numbers[path[:-1], path[-1]]
        after = self.graph.numbers[path[:-1], path[-1] + 1]
        call = self.program.routines[self.graph.functions[caller]].blocks[path[-1]].ending
        if not isinstance(call, Call) or call.result is None or term is None or value is None:
            return Stepped([(after, memory)], faults)
        address = pointer(int(call.result.frame), call.result.offset)
        stored, fault = self.expressions[caller].stored(address, size_of(term), value, memory)
        return Stepped([(after, stored)] if stored is not None else [], faults | fault)


def values_of(
    expressions: Expressions, terms: tuple[Expression, ...], memory: Memory
) -> tuple[list[Value | None], int]:
    """The values from left to right; from one that has none on there are none."""
    found: list[Value | None] = []
    faults = 0
    for term in terms:
        value, fault = expressions.value(term, memory) if None not in found else (None, 0)
        found.append(value)
        faults |= fault
    return found, faults
