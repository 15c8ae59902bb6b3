"""The nodes of a report, and the parts of the source that they stand for."""

import dataclasses

from view.graph import ENTRY, Graph, Place
from view.items import Function, Item
from view.path_rows import best_counts
from view.report import Report
from view.source import Source

# Of heat.
LEVELS = 8


@dataclasses.dataclass(slots=True, eq=False)
class Block:
    """A block of a function, or its entry: its tokens, their lines from 0, and the first of these, its home.

    `columns` has for each line the column of the first token there, and `first_item` the number of the first item
    that has a token there.
    """

    function: Function
    number: int
    tokens: list[int]
    is_weak: bool
    lines: list[int]
    text: str
    columns: dict[int, int]
    first_item: dict[int, int]
    nodes: list["Node"] = dataclasses.field(default_factory=list)

    @property
    def home(self) -> int:
        return self.lines[0]

    @property
    def key(self) -> str:
        return f"{self.function.name}:{'entry' if self.number == ENTRY else self.number}"

    @property
    def is_shown(self) -> bool:
        """Whether its tokens are marked: a brace behind a return is no part that is never reached."""
        return bool(self.nodes) or not self.is_weak


@dataclasses.dataclass(slots=True, eq=False)
class Node:
    """A node of the report. `counted` is how often it stands in the bound that the heat is of, and `share` its part of
    it, from 0 to 1."""

    number: int
    place: Place
    block: Block
    scope: int
    cost: int
    name: str
    low: int
    high: int
    is_dead: bool
    counted: float = 0
    share: float = 0


class Model:
    """Nodes, blocks, and the blocks of each line. `Differs` where the report has other nodes."""

    def __init__(self, source: Source, report: Report, root: str) -> None:
        self.source, self.report = source, report
        self.tokens = source.tokens
        self.graph = Graph(source.functions, root)
        self.graph.hold([it.name for it in report.nodes])
        self.blocks = {
            (function.name, number): self.block_of(function, number)
            for function in source.functions
            for number in range(ENTRY, len(function.blocks))
        }
        counts = best_counts(self.graph, report)
        self.is_by_path = counts is not None
        self.nodes = [self.node_of(number, place) for number, place in enumerate(self.graph.places)]
        self.give_shares([float(it) for it in counts or [node.high for node in self.nodes]])
        # The call paths of each function.
        self.paths: dict[str, list[tuple[int, ...]]] = {}
        for path, name in sorted(self.graph.called.items()):
            self.paths.setdefault(name, []).append(path)
        self.at_line: dict[int, list[Block]] = {}
        for block in self.blocks.values():
            for line in block.lines if block.is_shown else ():
                self.at_line.setdefault(line, []).append(block)
        for line, blocks in self.at_line.items():
            blocks.sort(key=lambda it: it.columns[line])
        heats = [sum(node.share for block in blocks for node in block.nodes) for blocks in self.at_line.values()]
        self.top_line = max(heats, default=0)
        self.top_node = max((node.share for node in self.nodes), default=0)

    def block_of(self, function: Function, number: int) -> Block:
        tokens, first_item = function.tokens_of(number), {}
        for item in reversed(function.blocks[number] if number != ENTRY else []):
            for token in function.items[item].strong:
                first_item[self.tokens[token].line] = item
        text, columns = self.text_of(function, number), self.columns_of(tokens)
        return Block(function, number, tokens, function.is_weak(number), sorted(columns), text, columns, first_item)

    def columns_of(self, tokens: list[int]) -> dict[int, int]:
        """The lines of tokens, each with the first column of one there."""
        found: dict[int, int] = {}
        for token in (self.tokens[it] for it in tokens):
            found[token.line] = min(token.column, found.get(token.line, token.column))
        return found

    def node_of(self, number: int, place: Place) -> Node:
        line, block = self.report.nodes[number], self.blocks[self.graph.called[place.path], place.block]
        low, high = self.report.totals.get(number, (0, 0))
        dead = number in self.report.dead
        node = Node(number, place, block, line.scope, line.cost, line.name, low, high, dead)
        block.nodes.append(node)
        return node

    def give_shares(self, counts: list[float]) -> None:
        worths = [node.cost * count for node, count in zip(self.nodes, counts)]
        whole = sum(worths)
        for node, count, worth in zip(self.nodes, counts, worths):
            node.counted, node.share = count, worth / whole if whole else 0

    def level(self, share: float) -> int:
        """One scale of heat for lines, parts and nodes: the costliest line has the greatest."""
        if share <= 0 or not self.top_line:
            return 0
        return min(LEVELS, max(1, round(LEVELS * (share / self.top_line) ** 0.8)))

    def text_of(self, function: Function, number: int) -> str:
        """What a block says, in the words of the file."""
        if number == ENTRY:
            return f"{function.name}()"
        items = function.items_of(number)
        is_more = any(it.strong and it.role not in ("case", "label") for it in items)
        parts: list[str] = []
        for item in items:
            if item.strong and not (is_more and item.role in ("case", "label")):
                part = self.item_text(item)
                parts += [part] if part not in parts[-1:] else []
        return "; ".join(parts) or items[-1].role

    def item_text(self, item: Item) -> str:
        text = self.source.words_of(sorted(item.strong))
        if item.kind == "switch" and not item.frames and item.role.startswith("test"):
            # A constant alone, as of `while (1)`, would tell little.
            return f"{text}, the {item.role}"
        return text + " …" if item.kind == "store" and text.endswith("=") else text

    # -- calls

    def call_token(self, function: Function, block: int) -> int:
        return function.last_item(block).strong[0]

    def call_places(self, path: tuple[int, ...]) -> list[str]:
        """Where an instance is called from, outermost first: lines, and columns where a line has several calls. Of
        lines that tokens were moved to no columns are known."""
        found = []
        for count, block in enumerate(path):
            function = self.graph.function_at(path[:count])
            token = self.tokens[self.call_token(function, block)]
            calls = [it for it in range(len(function.blocks)) if function.last_item(it).kind == "call"]
            here = [it for it in calls if self.tokens[self.call_token(function, it)].line == token.line]
            column = f" (call {here.index(block) + 1})" if self.source.is_moved else f":{token.column + 1}"
            found.append(f"{token.line + 1}{column}" if len(here) > 1 else str(token.line + 1))
        return found

    def call_words(self, path: tuple[int, ...]) -> str:
        """As much of these, from the innermost on, as tells an instance from the others of its function."""
        own = self.call_places(path)
        others = [self.call_places(it) for it in self.paths[self.graph.called[path]] if it != path]
        for count in range(1, len(own) + 1):
            if all(it[-count:] != own[-count:] for it in others):
                return " › ".join(own[-count:])
        return " › ".join(own)

    def instance_words(self, nodes: list[Node]) -> str:
        """In which calls of their function nodes of one block are, where these are not all that it has."""
        if len(nodes) == len(nodes[0].block.nodes):
            return ""
        return "called from line " + " and ".join(self.call_words(it.place.path) for it in nodes)

    # -- scopes

    def scopes_around(self, node: Node) -> list[int]:
        """The scopes that hold a node, from the outermost."""
        found, scope = [], node.scope
        while scope is not None:
            found.append(scope)
            scope = self.report.scopes[scope].parent
        return found[::-1]

    def depth_of(self, scope: int) -> int:
        return len(self.scopes_around(self.nodes[self.report.scopes[scope].header])) - 1

    def header_of(self, scope: int) -> Node:
        return self.nodes[self.report.scopes[scope].header]
