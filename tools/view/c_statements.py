"""Statements of C and local declarations."""

from view.c_cursor import TYPE_WORDS
from view.c_expressions import Expressions
from view.c_tree import Case, Compound, Do, Expression, For, If, Leave, Plain, Statement, Switch, While
from view.items import Item, Mark


class Statements(Expressions):
    """The reader up to the body of a function."""

    def __init__(self, text: str) -> None:
        super().__init__(text)
        # How often a name was declared in the function.
        self.declared: dict[str, int] = {}

    def declare(self, name: str) -> str:
        """The frame of a further object of the function."""
        count = self.declared.get(name, 0)
        self.declared[name] = count + 1
        frame = f"{self.function.name}::{name}" + (f"::{count}" if count else "")
        self.scopes[-1][name] = frame
        return frame

    def local(self) -> list[Item]:
        """The items of one declarator."""
        self.take_stars()
        first = self.at
        frame = self.declare(self.take_name())
        self.function.frames.append(frame)
        count = None
        if self.ahead() == "[":
            self.take()
            count = self.constant()
            self.take("]")
        if self.ahead() != "=":
            return []
        self.take()
        if count is None:
            return self.value_into(Item("store", list(range(first, self.at)), frames=[frame], role="store"))
        marks = self.elements()
        tokens = list(range(first, self.at))
        given = {"frames": [frame], "role": "store"}
        return [Item("store", tokens, offset=it, marks=sum(marks[it : it + 1], []), **given) for it in range(count)]

    def elements(self) -> list[list[Mark]]:
        """The constants of an array in braces, each with its minus."""
        self.take("{")
        found = []
        while self.ahead() != "}":
            minus = ["unary -"] if self.ahead() == "-" and self.take() else []
            found.append([*minus, self.constant()])
            if self.ahead() == ",":
                self.take()
        self.take("}")
        return found

    def locals(self) -> list[Item]:
        """The items of a declaration, up to its semicolon."""
        self.take_type()
        items = self.local()
        while self.take(",", ";") == ",":
            items += self.local()
        return items

    def compound(self, has_scope: bool = True) -> Compound:
        """A block; that of a function shares the scope of the parameters."""
        self.scopes += [{}] if has_scope else []
        first = self.at
        self.take("{")
        members = []
        while self.ahead() != "}":
            members.append(self.member())
        self.take("}")
        if has_scope:
            self.scopes.pop()
        return Compound(members, first, self.at - 1)

    def member(self) -> Statement:
        first, word = self.at, self.ahead()
        if word in TYPE_WORDS:
            items = self.locals()
            return Plain(items, first, self.at - 1)
        if word in ("case", "default"):
            while self.take() != ":":
                pass
            return Case(word == "default", first, self.at - 1)
        return self.statement()

    def test(self) -> Expression:
        self.take("(")
        test = self.expression()
        self.take(")")
        return test

    def statement(self) -> Statement:
        forms = {
            "{": self.compound,
            "if": self.branch,
            "while": self.while_loop,
            "do": self.do_loop,
            "for": self.for_loop,
            "switch": self.switch,
            "break": self.leave,
            "continue": self.leave,
            "return": self.give,
        }
        return forms.get(self.ahead(), self.plain)()

    def plain(self) -> Plain:
        first = self.at
        items = [] if self.ahead() == ";" else self.effect()
        self.take(";")
        return Plain(items, first, self.at - 1)

    def branch(self) -> If:
        first = self.at
        self.take("if")
        test, then, other = self.test(), self.statement(), None
        if self.ahead() == "else":
            self.take()
            other = self.statement()
        return If(test, then, other, first, self.at - 1)

    def while_loop(self) -> While:
        first = self.at
        self.take("while")
        return While(self.test(), self.statement(), first, self.at - 1)

    def do_loop(self) -> Do:
        first = self.at
        self.take("do")
        body = self.statement()
        self.take("while")
        test = self.test()
        self.take(";")
        return Do(test, body, first, self.at - 1)

    def for_loop(self) -> For:
        first = self.at
        self.take("for")
        self.take("(")
        self.scopes.append({})
        before = self.for_first()
        test = None if self.ahead() == ";" else self.expression()
        separator = self.at
        self.take(";")
        step = [] if self.ahead() == ")" else self.effect()
        self.take(")")
        body = self.statement()
        self.scopes.pop()
        for item in before:
            item.role = "first part of the for"
        for item in step:
            item.role = "step of the for"
        return For(before, test, separator, step, body, first, self.at - 1)

    def for_first(self) -> list[Item]:
        """The items of the first part of a `for`, up to its semicolon."""
        if self.ahead() in TYPE_WORDS:
            return self.locals()
        items = [] if self.ahead() == ";" else self.effect()
        self.take(";")
        return items

    def switch(self) -> Switch:
        first = self.at
        self.take("switch")
        subject = self.test()
        head = list(range(first, self.at))
        return Switch(subject, head, self.compound(), first, self.at - 1)

    def leave(self) -> Leave:
        first, word = self.at, self.take()
        self.take(";")
        return Leave(word, first, self.at - 1)

    def give(self) -> Plain:
        first = self.at
        self.take("return")
        item = Item("return", [first], role="return")
        items = [item] if self.ahead() == ";" else self.value_into(item)
        self.take(";")
        return Plain(items, first, self.at - 1)
