"""The rules of docs/lowering.md: the items of a function in their order, each with the tokens that it comes from."""

import functools

from view.c_tree import Case, Compound, Do, Expression, For, If, Leave, Plain, Statement, Switch, While
from view.items import Function, Item, LoopStatement


def lower(function: Function, body: Compound) -> None:
    """Puts the items and the loops of a body into its function."""
    Lowering(function).whole(body)


class Lowering:
    """The items of a function so far."""

    def __init__(self, function: Function) -> None:
        self.function = function
        self.items = function.items
        self.labels = 0

    def whole(self, body: Compound) -> None:
        self.add(body, "", "")
        self.items.append(Item("return", weak=[self.function.last], role="end of the function"))

    def new_labels(self, count: int) -> list[str]:
        self.labels += count
        return [f"{self.function.name}::L{self.labels - count + it}" for it in range(count)]

    def put_label(self, label: str, weak: tuple[int, ...] = ()) -> None:
        self.items.append(Item("label", weak=[*weak], labels=[label], role="label"))

    def put_jump(self, label: str, token: int, role: str) -> None:
        self.items.append(Item("jump", weak=[token], labels=[label], role=role))

    def put_test(self, test: Expression, true: str, false: str, role: str) -> None:
        """A condition, to a label where it holds and to one where it does not."""
        if test.operator in ("&&", "||"):
            left, right = test.operands
            (middle,) = self.new_labels(1)
            self.put_test(left, *((true, middle) if test.operator == "||" else (middle, false)), role)
            self.put_label(middle)
            self.put_test(right, true, false, role)
        elif test.operator == "!":
            self.put_test(test.operands[0], false, true, role)
        else:
            given = {"frames": test.frames, "marks": test.marks, "role": role}
            self.items.append(Item("switch", test.tokens, labels=[true, false], **given))

    def loop(self, word: str, statement: While | Do | For, head: str, body: str) -> None:
        self.function.loops.append(LoopStatement(word, statement.first, head, body))

    @functools.singledispatchmethod
    def add(self, statement: Statement, leave: str, again: str) -> None:
        """The items of a statement; `break` leads to the label `leave`, and `continue` to the label `again`."""
        raise TypeError(statement)

    @add.register
    def _(self, statement: Plain, leave: str, again: str) -> None:
        self.items += statement.items

    @add.register
    def _(self, statement: Compound, leave: str, again: str) -> None:
        for member in statement.members:
            self.add(member, leave, again)

    @add.register
    def _(self, statement: If, leave: str, again: str) -> None:
        then, other = statement.then, statement.other
        true, false, end = self.new_labels(3) if other else [*self.new_labels(1), "", *self.new_labels(1)]
        self.put_test(statement.test, true, false or end, "test of the if")
        self.put_label(true)
        self.add(then, leave, again)
        self.put_jump(end, then.last, "end of the branch")
        if other:
            self.put_label(false, weak=(then.last + 1,))
            self.add(other, leave, again)
        self.put_label(end)

    @add.register
    def _(self, statement: While, leave: str, again: str) -> None:
        head, inner, end = self.new_labels(3)
        self.loop("while", statement, head, inner)
        self.put_label(head)
        self.put_test(statement.test, inner, end, "test of the while")
        self.put_label(inner)
        self.add(statement.body, end, head)
        self.put_jump(head, statement.last, "back to the test")
        self.put_label(end)

    @add.register
    def _(self, statement: Do, leave: str, again: str) -> None:
        inner, test, end = self.new_labels(3)
        self.loop("do", statement, inner, inner)
        self.put_label(inner, weak=(statement.first,))
        self.add(statement.body, end, test)
        self.put_label(test)
        self.put_test(statement.test, inner, end, "test of the do")
        self.put_label(end)

    @add.register
    def _(self, statement: For, leave: str, again: str) -> None:
        head, inner, step, end = self.new_labels(4)
        self.loop("for", statement, head, inner)
        self.items += statement.before
        self.put_label(head)
        if statement.test is None:
            self.put_jump(inner, statement.separator, "empty test of the for")
        else:
            self.put_test(statement.test, inner, end, "test of the for")
        self.put_label(inner)
        self.add(statement.body, end, step)
        self.put_label(step)
        self.items += statement.step
        self.put_jump(head, statement.last, "back to the test")
        self.put_label(end)

    @add.register
    def _(self, statement: Switch, leave: str, again: str) -> None:
        cases = [it for it in statement.body.members if isinstance(it, Case)]
        labels = self.new_labels(len(cases))
        (end,) = self.new_labels(1)
        given = [label for case, label in zip(cases, labels) if not case.is_default]
        other = [label for case, label in zip(cases, labels) if case.is_default] or [end]
        head = Item("switch", statement.head, labels=given + other, role="switch")
        head.frames, head.marks = statement.subject.frames, statement.subject.marks
        self.items.append(head)
        ahead = iter(labels)
        for member in statement.body.members:
            if isinstance(member, Case):
                tokens = list(range(member.first, member.last + 1))
                self.items.append(Item("label", tokens, labels=[next(ahead)], role="case"))
            else:
                self.add(member, end, again)
        self.put_label(end)

    @add.register
    def _(self, statement: Leave, leave: str, again: str) -> None:
        target = leave if statement.word == "break" else again
        self.items.append(Item("jump", [statement.first], labels=[target], role=statement.word))
