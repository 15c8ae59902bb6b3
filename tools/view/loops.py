"""The loops of a report, at the statements that they come from."""

import dataclasses

from view.items import Function, LoopStatement
from view.model import Model, Node
from view.report import Range, range_text


@dataclasses.dataclass(slots=True, eq=False)
class Loop:
    """A loop statement with its scopes, one for each call of its function.

    `is_tested` says that its header is a test, so that visits of the header are tests and those of the body turns.
    `entry` bounds the visits each time that it is entered, `run` those of a whole run, `turns` the turns each time.
    """

    statement: LoopStatement
    function: Function
    line: int
    unit: str
    shares_header: bool
    scopes: list[int] = dataclasses.field(default_factory=list)
    turns_of: dict[int, Range] = dataclasses.field(default_factory=dict)


class Loops:
    """All loops, those of each line and of each scope."""

    def __init__(self, model: Model) -> None:
        self.model = model
        self.all: list[Loop] = []
        self.of_scope: dict[int, Loop] = {}
        self.at_line: dict[int, list[Loop]] = {}
        found: dict[int, Loop] = {}
        for scope, line in enumerate(model.report.scopes):
            for function, statement in self.statements(model.nodes[line.header]) if line.kind == "loop" else []:
                if id(statement) not in found:
                    found[id(statement)] = self.loop_of(function, statement)
                loop = found[id(statement)]
                loop.scopes.append(scope)
                self.of_scope.setdefault(scope, loop)
        self.all = list(found.values())
        for loop in self.all:
            self.at_line.setdefault(loop.line, []).append(loop)
            self.find_turns(loop)

    def statements(self, header: Node) -> list[tuple[Function, LoopStatement]]:
        """The loop statements whose header a node is. Programs of ALF have none, so one is made for the header."""
        function, number = header.block.function, header.block.number
        found = [it for it in function.loops if function.block_of_label[it.head] == number]
        if not found:
            label = next(it for it, block in function.block_of_label.items() if block == number)
            found = [LoopStatement("loop", header.block.tokens[0], label, label)]
            function.loops += found
        return [(function, it) for it in found]

    def loop_of(self, function: Function, statement: LoopStatement) -> Loop:
        head, body = function.block_of_label[statement.head], function.block_of_label[statement.body]
        is_test = function.last_item(head).kind == "switch"
        unit = "visit" if statement.word == "loop" else "test" if is_test and head != body else "turn"
        if self.model.source.is_moved and head != body and not function.last_item(head).frames:
            # Written without a test at its head: the loop that it came from may have had one.
            statement, unit = dataclasses.replace(statement, word="loop"), "visit"
        same = [it for it in function.loops if function.block_of_label[it.head] == head]
        line = self.model.tokens[statement.token].line
        return Loop(statement, function, line, unit, len(same) > 1)

    def find_turns(self, loop: Loop) -> None:
        body = loop.function.block_of_label[loop.statement.body]
        for scope in loop.scopes if loop.unit == "test" else ():
            path = self.model.header_of(scope).place.path
            for node in self.model.blocks[loop.function.name, body].nodes:
                if node.place.path == path and (scope, node.number) in self.model.report.counts:
                    loop.turns_of[scope] = self.model.report.counts[scope, node.number]

    def words(self, loop: Loop, scopes: list[int] | None = None, with_run: bool = True) -> str:
        """A loop's bounds in words, of all of its scopes or of some; with the count in a run where that is another."""
        scopes = loop.scopes if scopes is None else scopes
        entries = [self.model.report.loops[it] for it in scopes if it in self.model.report.loops]
        if not entries:
            return "never entered"
        entry, turns = widest(entries), [loop.turns_of[it] for it in scopes if it in loop.turns_of]
        headers = [self.model.header_of(it) for it in scopes]
        run = sum(it.low for it in headers), sum(it.high for it in headers)
        text = count_words(entry, loop.unit)
        if turns:
            text = f"{count_words(widest(turns), 'turn')} ({text})"
        if entry == run:
            return text
        return f"{text} per entry" + (f", {count_words(run, loop.unit)} in a run" if with_run else "")

    def scope_words(self, scope: int) -> str:
        """What an iteration of a scope is."""
        line, header = self.model.report.scopes[scope], self.model.header_of(scope)
        if line.kind == "loop":
            loop = self.of_scope[scope]
            return f"turn of the {loop.statement.word} at line {loop.line + 1}"
        if scope == 0:
            return "run"
        return f"call of {header.block.function.name} from line {self.model.call_words(header.place.path)}"


def widest(ranges: list[Range]) -> Range:
    return min(low for low, _ in ranges), max(high for _, high in ranges)


def count_words(count: Range, unit: str) -> str:
    return f"{range_text(*count)} {unit}{'' if count == (1, 1) else 's'}"
