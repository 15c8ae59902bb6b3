"""What goes along with a run, and the book of what is over: docs/recorders.md.

Counts are pairs of lists, the least and the greatest of each node, which are one list until two that differ are joined.
"""

import dataclasses

from recheck.scopes import Outline

Spans = tuple[list[int], list[int]]


@dataclasses.dataclass(slots=True)
class Recorder:
    """Visits of each node in the run, those in the open execution of its own loop, and what iterations have seen.

    `pairs` has, for each node that was seen, the nodes seen before it in the iteration, as bits, itself among them.
    """

    totals: Spans
    visits: Spans
    seen: int
    pairs: dict[int, int]

    def copy(self) -> "Recorder":
        return Recorder(copied(self.totals), copied(self.visits), self.seen, dict(self.pairs))


def copied(spans: Spans) -> Spans:
    least = spans[0].copy()
    return least, least if spans[1] is spans[0] else spans[1].copy()


def joined(first: Spans, second: Spans) -> Spans:
    if first[0] is first[1] and second[0] is second[1] and first[0] == second[0]:
        return first
    return list(map(min, first[0], second[0])), list(map(max, first[1], second[1]))


def join(first: Recorder, second: Recorder) -> Recorder:
    pairs = dict(first.pairs)
    for node, bits in second.pairs.items():
        pairs[node] = pairs.get(node, 0) | bits
    totals, visits = joined(first.totals, second.totals), joined(first.visits, second.visits)
    return Recorder(totals, visits, first.seen | second.seen, pairs)


def add(spans: Spans, node: int) -> None:
    spans[0][node] += 1
    if spans[1] is not spans[0]:
        spans[1][node] += 1


def clear(spans: Spans, node: int) -> None:
    spans[0][node] = spans[1][node] = 0


class Book:
    """What was collected of all runs: the least and the greatest of each count, and pairs."""

    def __init__(self, outline: Outline) -> None:
        count = len(outline.own)
        self.outline = outline
        self.totals: list[tuple[int, int] | None] = [None] * count
        self.visits: list[tuple[int, int] | None] = [None] * count
        self.pairs = [0] * count
        self.members: list[list[int]] = [[] for _ in outline.scopes]
        for node, scope in enumerate(outline.own):
            self.members[scope].append(node)
        self.masks = [sum(1 << node for node in nodes) for nodes in self.members]

    def start(self) -> Recorder:
        count = len(self.outline.own)
        totals, visits = [0] * count, [0] * count
        found = Recorder((totals, totals), (visits, visits), 0, {})
        self.enter(found, 0)
        return found

    def go(self, recorder: Recorder, tail: int, head: int) -> None:
        """The recorder goes on along an edge."""
        outline = self.outline
        around = outline.around[head]
        for scope in outline.around[tail]:
            if scope not in around:
                self.end_execution(recorder, scope)
                self.end_iteration(recorder, scope)
            elif outline.scopes[scope].header == head:
                self.end_iteration(recorder, scope)
        self.enter(recorder, head)

    def enter(self, recorder: Recorder, node: int) -> None:
        scope = self.outline.own[node]
        add(recorder.totals, node)
        if self.outline.scopes[scope].kind == "loop":
            add(recorder.visits, node)
        recorder.seen |= 1 << node
        recorder.pairs[node] = recorder.pairs.get(node, 0) | (recorder.seen & self.masks[scope])

    def end_execution(self, recorder: Recorder, scope: int) -> None:
        if self.outline.scopes[scope].kind == "loop":
            for node in self.members[scope]:
                note(self.visits, node, recorder.visits)
                clear(recorder.visits, node)

    def end_iteration(self, recorder: Recorder, scope: int) -> None:
        seen = recorder.seen & self.masks[scope]
        recorder.seen ^= seen
        for node in bits_of(seen):
            self.pairs[node] |= recorder.pairs.pop(node)

    def finish(self, recorder: Recorder, node: int) -> None:
        """A run ends, or may end, at a node: what is open enters the book, and the recorder is as it was."""
        for at in range(len(self.totals)):
            note(self.totals, at, recorder.totals)
        for scope in self.outline.around[node]:
            if self.outline.scopes[scope].kind == "loop":
                for member in self.members[scope]:
                    note(self.visits, member, recorder.visits)
        for seen, bits in recorder.pairs.items():
            self.pairs[seen] |= bits

    def together(self, first: int, second: int) -> bool:
        return bool(self.pairs[first] >> second & 1 or self.pairs[second] >> first & 1)


def note(book: list[tuple[int, int] | None], node: int, spans: Spans) -> None:
    least, greatest = spans[0][node], spans[1][node]
    held = book[node]
    book[node] = (min(held[0], least), max(held[1], greatest)) if held else (least, greatest)


def bits_of(mask: int) -> list[int]:
    found = []
    while mask:
        lowest = mask & -mask
        found.append(lowest.bit_length() - 1)
        mask ^= lowest
    return found
