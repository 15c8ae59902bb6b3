"""What is said while crates are proved: on a terminal one line that is kept up to date, elsewhere a line for each."""

import os
import sys
import time

from building.ending import is_terminal, put

from .graph import Graph

NAME = "sweet"


def width() -> int:
    try:
        return os.get_terminal_size(sys.stderr.fileno()).columns - 1
    except OSError:
        return 79


class Progress:
    """How far it is, and about how long it will be."""

    def __init__(self, graph: Graph, places: int) -> None:
        self.graph, self.places = graph, places
        self.begun, self.proved, self.done = time.monotonic(), 0, 0
        self.is_terminal = is_terminal()

    def add(self, crate: str, left: list[str]) -> None:
        """A crate was proved in this call, and these are left."""
        self.done += self.graph.size(crate)
        if not self.is_terminal:
            put(f"{NAME}: {crate} ({self.so_far(left)})")

    def so_far(self, left: list[str]) -> str:
        minutes = (time.monotonic() - self.begun) / 60
        told = f"{self.proved} of {len(self.graph.named)} crates proved, {minutes:.1f} min"
        sizes = sum(self.graph.size(it) for it in left) / self.places
        least = max(sizes, max((self.graph.way_up(it) for it in left), default=0))
        # The first crates are small, and tell little of what is to come.
        if 0 < self.places * least <= 20 * self.done:
            told += f", about {max(1, round(minutes * self.places * least / self.done))} min more"
        return told

    def show(self, left: list[str], at_work: list[str]) -> None:
        if self.is_terminal:
            line = f"{NAME}: {self.so_far(left)}; at work: {' '.join(sorted(at_work))}"
            put(f"\r\033[K{line[:width()]}", end="")

    def clear(self) -> None:
        if self.is_terminal:
            put("\r\033[K", end="")
