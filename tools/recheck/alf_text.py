"""The reader of texts of ALF: the grammar of docs/formats/alf.md. A text that is no program is not read."""

from collections.abc import Callable
from typing import Any

from recheck.tokens import MOST_BYTES, Token, tokens_of, unread
from recheck.tree import (
    Address, Allocation, Call, Expression, Function, Initial, Item, Jump, Label, Load, Null, Number, Operation, Return,
    Store, Switch, Text,
)  # fmt: skip
from recheck.unread import Unread
from recheck.words import LAYOUTS

MOST_DEPTH, MOST_FUNCTIONS, MOST_FRAMES = 64, 256, 256
MOST_FRAME_BYTES, MOST_ALL_BYTES = 65_536, 1_048_576


def text_of(text: bytes) -> Text:
    if len(text) > MOST_BYTES:
        raise Unread("program bytes")
    reader = Reader(text)
    found = reader.program()
    if reader.next < len(reader.tokens):
        raise reader.unread()
    return found


class Reader:
    """The tokens ahead, and how much was counted of what has a limit."""

    def __init__(self, text: bytes) -> None:
        self.text = text
        self.tokens = tokens_of(text)
        self.next = 0
        self.frames = 0
        self.bytes = 0

    def unread(self) -> Unread:
        return unread(self.text, self.tokens[self.next].at if self.next < len(self.tokens) else len(self.text))

    def ahead(self, more: int = 0) -> Token:
        at = self.next + more
        return self.tokens[at] if at < len(self.tokens) else Token("end", "", len(self.text))

    def take(self, kind: str, text: str | None = None) -> str:
        token = self.ahead()
        if token.kind != kind or text not in (None, token.text):
            raise self.unread()
        self.next += 1
        return token.text

    def open(self, word: str) -> None:
        self.take("brace", "{")
        self.take("word", word)

    def close(self) -> None:
        self.take("brace", "}")

    def word_ahead(self) -> str:
        """The word behind the opening brace ahead; an empty text where there are not both."""
        brace, word = self.ahead(), self.ahead(1)
        return word.text if (brace.kind, brace.text, word.kind) == ("brace", "{", "word") else ""

    def number(self, least: int, most: int) -> int:
        token = self.ahead()
        if token.kind != "number" or not least <= int(token.text) <= most:
            raise self.unread()
        self.next += 1
        return int(token.text)

    def thirty_two(self) -> int:
        return self.number(32, 32)

    def name(self) -> str:
        return self.take("name")

    def part(self, word: str, *members: Callable[[], Any]) -> list[Any]:
        """Braces with a word and these members."""
        self.open(word)
        found = [member() for member in members]
        self.close()
        return found

    def listed(self, word: str, member: Callable[[], Any], most: int = MOST_BYTES) -> list[Any]:
        """Braces with a word and any number of members."""
        self.open(word)
        found: list[Any] = []
        while self.ahead().text != "}" and len(found) < most:
            found.append(member())
        self.close()
        return found

    def program(self) -> Text:
        self.open("alf")
        self.part("macro_defs")
        self.part("least_addr_unit", lambda: self.number(8, 8))
        self.take("word", "little_endian")
        exported_frames, exported_labels = self.outside("exports", MOST_BYTES)
        self.outside("imports", 0)
        frames = self.listed("decls", self.allocation)
        initials = self.listed("inits", self.initial)
        functions = self.listed("funcs", self.function, MOST_FUNCTIONS)
        self.close()
        return Text(exported_frames, exported_labels, frames, initials, functions)

    def outside(self, word: str, most: int) -> list[Any]:
        return self.part(
            word,
            lambda: self.listed("frefs", lambda: self.reference("fref"), most),
            lambda: self.listed("lrefs", lambda: self.reference("lref"), most),
        )

    def reference(self, word: str) -> str:
        return str(self.part(word, self.thirty_two, self.name)[1])

    def allocation(self) -> Allocation:
        self.frames += 1
        if self.frames > MOST_FRAMES:
            raise self.unread()
        _, name, bits = self.part("alloc", self.thirty_two, self.name, lambda: self.number(8, 8 * MOST_FRAME_BYTES))
        self.bytes += bits // 8
        if bits % 8 or self.bytes > MOST_ALL_BYTES:
            raise self.unread()
        return Allocation(name, bits)

    def offset(self, most: int = (1 << 32) - 1) -> int:
        return int(self.part("dec_unsigned", self.thirty_two, lambda: self.number(0, most))[1])

    def initial(self) -> Initial:
        (name, offset), number = self.part("init", lambda: self.part("ref", self.name, self.offset), self.numeral)
        return Initial(name, offset, number)

    def label(self) -> str:
        return str(self.part("label", self.thirty_two, lambda: self.reference("lref"), lambda: self.offset(0))[1])

    def function(self) -> Function:
        self.open("func")
        name = self.label()
        arguments = self.listed("arg_decls", self.allocation)
        frames, initials, items = self.part(
            "scope",
            lambda: self.listed("decls", self.allocation),
            lambda: self.listed("inits", self.initial),
            lambda: self.listed("stmts", self.item),
        )
        if not items or not isinstance(items[-1], (Jump, Switch, Return)):
            raise self.unread()
        self.close()
        return Function(name, arguments, frames, initials, items)

    def item(self) -> Item:
        word = self.word_ahead()
        if word == "label":
            return Label(self.label())
        if word not in ITEMS:
            raise self.unread()
        self.open(word)
        item = ITEMS[word](self)
        self.close()
        return item

    def store(self) -> Store:
        address = self.expression()
        self.take("word", "with")
        return Store(address, self.expression())

    def jump(self) -> Jump:
        label = self.label()
        self.take("word", "leaving")
        self.number(0, 0)
        return Jump(label)

    def switch(self) -> Switch:
        value = self.expression()
        targets = []
        while self.word_ahead() == "target":
            targets.append(tuple(self.part("target", self.numeral, self.label)))
        return Switch(value, tuple(targets), self.part("default", self.label)[0])

    def call(self) -> Call:
        function, arguments = self.label(), []
        while self.ahead().text == "{":
            arguments.append(self.expression())
        self.take("word", "result")
        return Call(function, tuple(arguments), self.address() if self.word_ahead() else None)

    def returned(self) -> Return:
        return Return(self.expression() if self.word_ahead() else None)

    def address(self) -> Address:
        return Address(*self.part("addr", self.thirty_two, lambda: self.reference("fref"), self.offset)[1:])

    def numeral(self) -> Number:
        signed = self.word_ahead() == "dec_signed"
        self.open("dec_signed" if signed else "dec_unsigned")
        size = self.number(1, 64)
        if signed and self.word_ahead() == "minus":
            word = -self.part("minus", lambda: self.number(0, 1 << (size - 1)))[0] % (1 << size)
        else:
            word = self.number(0, (1 << (size - signed)) - 1)
        self.close()
        return Number(size, word)

    def expression(self, depth: int = 1) -> Expression:
        word = self.word_ahead()
        if depth > MOST_DEPTH or word not in (*LAYOUTS, "load", "addr", "dec_unsigned", "dec_signed"):
            raise self.unread()
        if word in ("dec_unsigned", "dec_signed"):
            return self.numeral()
        if word == "addr":
            return self.address()
        self.open(word)
        found = self.load(depth) if word == "load" else self.operation(word, depth)
        self.close()
        return found

    def load(self, depth: int) -> Load:
        size = self.number(8, 64)
        if size % 8:
            raise self.unread()
        return Load(size, self.expression(depth + 1))

    def operation(self, name: str, depth: int) -> Operation:
        count, operands, _ = LAYOUTS[name]
        others = (0, 63) if name == "select" else (1, 64)
        sizes = (self.number(1, 64), *(self.number(*others) for _ in range(count - 1)))
        return Operation(name, sizes, tuple(self.expression(depth + 1) for _ in range(operands)))


ITEMS: dict[str, Callable[[Reader], Item]] = {
    "null": lambda _: Null(), "store": Reader.store, "jump": Reader.jump, "switch": Reader.switch,
    "call": Reader.call, "return": Reader.returned,
}  # fmt: skip
