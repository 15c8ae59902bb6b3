"""Expressions of C, calls and what assigns."""

from view.c_cursor import TYPE_WORDS, Cursor
from view.c_tokens import value_of
from view.c_tree import Expression
from view.items import Function, Item

# How tightly a binary operator binds.
LEVELS = {
    word: level
    for level, words in enumerate(
        ("||", "&&", "|", "^", "&", "== !=", "< > <= >=", "<< >>", "+ -", "* / %"), 1
    )
    for word in words.split()
}
# How unary operators are told from binary ones. The others change no value, or are loads and addresses.
UNARY = {"!": "unary !", "~": "unary ~", "-": "unary -"}
ASSIGNMENTS = ("=", "+=", "-=", "*=", "/=", "%=", "<<=", ">>=", "&=", "^=", "|=")


class Expressions(Cursor):
    """The reader up to what assigns and what calls."""

    def __init__(self, text: str) -> None:
        super().__init__(text)
        self.function = Function("")
        # Whether a function, by its latest declaration, gives nothing.
        self.gives_nothing: dict[str, bool] = {}
        self.calls = 0

    def expression(self, level: int = 1) -> Expression:
        left = self.unary()
        while LEVELS.get(self.ahead(), 0) >= level:
            operator = self.take()
            right = self.expression(LEVELS[operator] + 1)
            frames, marks = left.frames + right.frames, [operator, *left.marks, *right.marks]
            left = Expression(operator, (left, right), left.first, right.last, frames, marks)
        return left

    def unary(self) -> Expression:
        first, word = self.at, self.ahead()
        if word in ("!", "~", "-", "+", "*", "&"):
            self.take()
            inner = self.unary()
            marks = [UNARY[word], *inner.marks] if word in UNARY else inner.marks
            return Expression("!" if word == "!" else None, (inner,), first, inner.last, inner.frames, marks)
        if word == "(" and self.ahead(1) in TYPE_WORDS:
            while self.ahead() != ")":
                self.take()
            self.take()
            inner = self.unary()
            return Expression(None, (), first, inner.last, inner.frames, inner.marks)
        return self.postfix()

    def postfix(self) -> Expression:
        first = self.at
        value = self.primary()
        while self.ahead() == "[":
            self.take()
            index = self.expression()
            self.take("]")
            frames, marks = value.frames + index.frames, ["+", *value.marks, *index.marks]
            value = Expression(None, (), first, self.at - 1, frames, marks)
        return value

    def primary(self) -> Expression:
        first = self.at
        if self.ahead() == "(":
            self.take()
            inner = self.expression()
            self.take(")")
            # Parentheses change nothing but the tokens.
            return Expression(inner.operator, inner.operands, first, self.at - 1, inner.frames, inner.marks)
        if self.is_name():
            return Expression(None, (), first, first, [self.frame_of(self.take())], [])
        return Expression(None, (), first, first, [], [self.constant()])

    def constant(self) -> int:
        if self.at >= len(self.tokens) or not self.tokens[self.at].is_constant:
            self.fail("no expression")
        return value_of(self.take())

    def is_call(self) -> bool:
        return self.is_name() and self.ahead(1) == "("

    def call(self) -> tuple[Item, list[str]]:
        """The item of a call, and the frame of its result, if it has one."""
        first = self.at
        name = self.take_name()
        if name not in self.gives_nothing:
            self.fail(f"no function {name}")
        result = []
        if not self.gives_nothing[name]:
            result.append(f"{self.function.name}::${self.calls}")
            self.calls += 1
            self.function.frames += result
        self.take("(")
        item = Item("call", labels=[name], role="call")
        while self.ahead() != ")":
            argument = self.expression()
            item.frames += argument.frames
            item.marks += argument.marks
            if self.ahead() == ",":
                self.take()
        self.take(")")
        item.frames += result
        item.strong = list(range(first, self.at))
        return item, result

    def value_into(self, item: Item) -> list[Item]:
        """What stands after `=` and `return`, for the item that takes it: that item, and before it the call, if it is
        one. The tokens of a call are its own."""
        if self.is_call():
            call, result = self.call()
            item.frames += result
            return [call, item]
        value = self.expression()
        item.strong += value.tokens
        item.frames += value.frames
        item.marks += value.marks
        return [item]

    def effect(self) -> list[Item]:
        """The items of an assignment, a step or a call."""
        first = self.at
        if self.is_call():
            return [self.call()[0]]
        item = Item("store", role="store")
        if self.ahead() in ("++", "--"):
            word, place = self.take(), self.unary()
        else:
            place = self.unary()
            word = self.take("++", "--", *ASSIGNMENTS)
        item.frames, item.marks = [*place.frames], [*place.marks]
        if word == "=":
            item.strong = list(range(first, self.at))
            return self.value_into(item)
        # The place is stored to and loaded from.
        item.frames += place.frames
        item.marks += [word.removesuffix("=") if word not in ("++", "--") else word[0], *place.marks]
        if word not in ("++", "--"):
            value = self.expression()
            item.frames += value.frames
            item.marks += value.marks
        item.strong = list(range(first, self.at))
        return [item]
