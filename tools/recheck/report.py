"""The reader of reports: the grammar of docs/formats/report.md, and its refusals."""

import dataclasses
import re
from typing import NamedTuple

from recheck.unread import Refused

MOST_BYTES = 67_108_864
WORD, BOUND, WIDE = (1 << 32) - 1, (1 << 64) - 1, (1 << 127) - 1
CAUSES = ("divide", "uninit", "mixed", "bounds", "dead", "kind", "pointers")
TEXT = rb'"[ !#-\[\]-~]{1,64}"'
NAME = re.compile(rb"%s(?:\.(?:0|[1-9][0-9]*)%s)*:(?:entry|0|[1-9][0-9]*)(?=[ \n]|\Z)" % (TEXT, TEXT))
NATURAL = re.compile(rb"[0-9]+\Z")
INTEGER = re.compile(rb"-?[0-9]+\Z")
# The kinds of lines of facts, in their order, with how many numbers each has, and whether the last two are LO and HI.
FACTS = {"loop": (3, True), "count": (4, True), "dead": (1, False), "total": (3, True), "pair": (3, False)}


class Fact(NamedTuple):
    """A line that says something of each run: its kind, its numbers, and its line."""

    kind: str
    numbers: tuple[int, ...]
    line: int


@dataclasses.dataclass(slots=True)
class Report:
    nodes: list[tuple[int, int, bytes]] = dataclasses.field(default_factory=list)
    scopes: list[tuple[int | None, int, str]] = dataclasses.field(default_factory=list)
    facts: list[Fact] = dataclasses.field(default_factory=list)
    alarms: list[tuple[int, int]] = dataclasses.field(default_factory=list)
    count_bound: int = 0
    path_bound: int | None = None
    has_certificate: bool = False
    events: list[tuple[int, ...]] = dataclasses.field(default_factory=list)
    scale: int = 1
    multipliers: list[int] = dataclasses.field(default_factory=list)

    def of_kind(self, kind: str) -> list[Fact]:
        return [it for it in self.facts if it.kind == kind]


def report_of(text: bytes) -> Report:
    """The report that a text spells; `Refused` with its first departure."""
    if len(text) > MOST_BYTES:
        raise Refused(f"fault 13 limit bytes {MOST_BYTES + 1}", 2)
    return Reader(text).report()


class Reader:
    """A place in the text: where it is, and the number and the first byte of its line."""

    def __init__(self, text: bytes) -> None:
        self.text = text
        self.at = 0
        self.line = 1
        self.begin = 0

    def fault(self, at: int, kind: str = "60 syntax") -> Refused:
        return Refused(f"fault {kind} {self.line} {at - self.begin + 1}", 2)

    def piece(self) -> bytes:
        """The word ahead, up to a space or the end of its line."""
        ends = [it for it in (self.text.find(b" ", self.at), self.text.find(b"\n", self.at)) if it >= 0]
        return self.text[self.at : min(ends, default=len(self.text))]

    def is_next(self, kind: str) -> bool:
        return self.piece() == kind.encode()

    def space(self) -> None:
        """A space before a further word; where there is none the word is missing."""
        if self.text[self.at : self.at + 1] != b" ":
            raise self.fault(self.at)
        self.at += 1

    def take(self, *words: str) -> str:
        piece = self.piece()
        for word in words:
            if piece == word.encode():
                self.at += len(piece)
                return word
        raise self.fault(self.at)

    def number(self, least: int, most: int) -> int:
        self.space()
        piece = self.piece()
        if not (NATURAL if least >= 0 else INTEGER).match(piece):
            raise self.fault(self.at)
        digits = piece.lstrip(b"-")
        found = int(digits) if len(digits) < 4000 else int(digits.lstrip(b"0")[:60] or b"0")
        found = -found if piece[:1] == b"-" else found
        if not least <= found <= most:
            raise self.fault(self.at, "61 number")
        if str(found).encode() != piece:
            raise self.fault(self.at)
        self.at += len(piece)
        return found

    def exactly(self, number: int) -> None:
        begin = self.at + 1
        if self.number(0, WORD) != number:
            raise self.fault(begin)

    def end_line(self) -> None:
        if self.at >= len(self.text):
            raise self.fault(self.at)
        if self.text[self.at : self.at + 1] != b"\n":
            raise self.fault(self.at + 1)
        self.at += 1
        self.line += 1
        self.begin = self.at

    def name(self) -> bytes:
        self.space()
        found = NAME.match(self.text, self.at)
        blocks = re.findall(rb"[0-9]+", re.sub(TEXT, b"", found[0])) if found else []
        if not found or any(len(it) > 10 or int(it) > WORD for it in blocks):
            raise self.fault(self.at)
        self.at = found.end()
        return found[0]

    def report(self) -> Report:
        found = Report()
        self.take("facts")
        self.space()
        form = self.take("1", "2")
        self.end_line()
        while self.is_next("node"):
            self.node(found)
        while self.is_next("scope"):
            self.scope(found)
        for kind in FACTS:
            if kind != "count" or form == "2":
                self.facts(found, kind)
        while self.is_next("alarm"):
            self.alarm(found)
        self.bounds(found)
        if self.is_next("cert"):
            self.certificate(found)
        self.take("end")
        self.end_line()
        if self.at < len(self.text):
            raise self.fault(self.at)
        return found

    def node(self, found: Report) -> None:
        self.take("node")
        self.exactly(len(found.nodes))
        scope, cost = self.number(0, WORD), self.number(0, WORD)
        found.nodes.append((scope, cost, self.name()))
        self.end_line()

    def scope(self, found: Report) -> None:
        self.take("scope")
        self.exactly(len(found.scopes))
        parent = None
        if self.text[self.at : self.at + 2] == b" -" and self.text[self.at + 2 : self.at + 3] in (b" ", b"\n", b""):
            self.at += 2
        else:
            parent = self.number(0, WORD)
        header = self.number(0, WORD)
        self.space()
        found.scopes.append((parent, header, self.take("call", "loop")))
        self.end_line()

    def facts(self, found: Report, kind: str) -> None:
        count, has_span = FACTS[kind]
        before: tuple[int, ...] = ()
        while self.is_next(kind):
            self.take(kind)
            numbers = []
            for _ in range(count):
                at = self.at + 1
                numbers.append(self.number(0, WORD))
            if tuple(numbers) <= before:
                raise self.fault(self.begin)
            if has_span and numbers[-1] < numbers[-2]:
                raise self.fault(at)
            before = tuple(numbers)
            found.facts.append(Fact(kind, before, self.line))
            self.end_line()

    def alarm(self, found: Report) -> None:
        self.take("alarm")
        node = self.number(0, WORD)
        self.space()
        cause = CAUSES.index(self.take(*CAUSES))
        if found.alarms and (node, cause) <= found.alarms[-1]:
            raise self.fault(self.begin)
        found.alarms.append((node, cause))
        self.end_line()

    def bounds(self, found: Report) -> None:
        self.take("count-bound")
        found.count_bound = self.number(0, BOUND)
        self.end_line()
        if self.is_next("path-bound"):
            self.take("path-bound")
            found.path_bound = self.number(0, BOUND)
            self.space()
            self.take("least", "stopped")
            self.end_line()

    def certificate(self, found: Report) -> None:
        found.has_certificate = True
        self.take("cert")
        self.end_line()
        while self.is_next("step") or self.is_next("merge"):
            kind = self.take("step", "merge")
            found.events.append(tuple(self.number(0, WORD) for _ in range(1 if kind == "step" else 2)))
            self.end_line()
        self.take("scale")
        at = self.at + 1
        found.scale = self.number(-WIDE - 1, WIDE)
        if found.scale < 1:
            raise self.fault(at)
        self.end_line()
        while self.is_next("mul"):
            self.take("mul")
            found.multipliers.append(self.number(-WIDE - 1, WIDE))
            self.end_line()
