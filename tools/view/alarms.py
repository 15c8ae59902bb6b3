"""The alarms of a report, at the parts of the source where the fault may come."""

import dataclasses
import re

from view.alf_tree import Branch, branches_in
from view.items import Item
from view.model import Model, Node

WORDS = {
    "divide": "may divide by 0",
    "uninit": "may read what was never stored",
    "mixed": "may read a part of a pointer as a number",
    "bounds": "may reach outside of its object",
    "dead": "may use a local of a call that is over",
    "kind": "may use a number as a pointer, or a pointer as a number",
    "pointers": "may compare or subtract pointers into two objects",
}
# What ./sweet-c writes for `exit`: a function with this name, and this alone in it.
EXIT, ENDS = re.compile(r"sw_exit_\d+(_sw\d+)?"), re.compile(r"(sweet_none\w*) = 7 / \1;?")
DIVISIONS = ("s_div", "u_div", "s_mod", "u_mod")


@dataclasses.dataclass(slots=True, eq=False)
class Alarm:
    """A cause at a block, for all of its nodes that have it. `lines` are those where items that may fault so begin."""

    cause: str
    tokens: list[int]
    lines: list[int]
    nodes: list[Node]

    @property
    def words(self) -> str:
        is_exit = self.cause == "divide" and all(is_exit_of(it) for it in self.nodes)
        return "may end here by exit" if is_exit else WORDS.get(self.cause, "may fault")


class Alarms:
    """All alarms, those of each line, and for each node with one the first item that may fault."""

    def __init__(self, model: Model) -> None:
        self.all: list[Alarm] = []
        self.at_line: dict[int, list[Alarm]] = {}
        self.first_item: dict[int, int] = {}
        found: dict[tuple[str, str], Alarm] = {}
        for number, cause in model.report.alarms:
            node = model.nodes[number]
            key = cause, node.block.key
            if key not in found:
                found[key] = self.alarm_of(model, node, cause)
            found[key].nodes.append(node)
            first = min(suspects_of(node, cause), default=0)
            self.first_item[number] = min(first, self.first_item.get(number, first))
        self.all = list(found.values())
        for alarm in self.all:
            for line in alarm.lines:
                self.at_line.setdefault(line, []).append(alarm)
        self.tokens = {token for alarm in self.all for token in alarm.tokens}

    def alarm_of(self, model: Model, node: Node, cause: str) -> Alarm:
        items = [node.block.function.items[it] for it in suspects_of(node, cause)]
        tokens = sorted({token for it in items for token in it.strong}) or node.block.tokens
        lines = sorted({model.tokens[min(it.strong)].line for it in items}) or [node.block.home]
        return Alarm(cause, tokens, lines, [])


def is_exit_of(node: Node) -> bool:
    """Whether a division stands for an `exit` of the program that ./sweet-c was given."""
    return bool(EXIT.fullmatch(node.block.function.name) and ENDS.fullmatch(node.block.text))


def suspects_of(node: Node, cause: str) -> list[int]:
    """The items of a node's block that may have the fault, by their operators; else all that have a token."""
    function, number = node.block.function, node.block.number
    marked = [it for it in (function.blocks[number] if number >= 0 else []) if function.items[it].strong]
    return [it for it in marked if may_fault(function.items[it], cause)] or marked


def may_fault(item: Item, cause: str) -> bool:
    """Whether an item may have a fault at all, by its operators."""
    if cause in ("kind", "pointers"):
        return True
    return any(operator_may_fault(it, cause) for it in branches_in(item.term))


def operator_may_fault(branch: Branch, cause: str) -> bool:
    if cause == "divide" and branch.head in DIVISIONS:
        divisor = branch[-1]
        return not (divisor.head.startswith("dec") and divisor[2] != "0")
    if cause in ("uninit", "mixed"):
        return branch.head == "load"
    if branch.head == "load":
        return branch[2].head != "addr"
    return branch.head == "store" and branch[1].head != "addr"
