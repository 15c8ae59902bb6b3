"""What is said while the program is built: a line for each step, and in between that it is still at work."""

import time

from building.ending import is_terminal, put, say

STEPS = 3
SECONDS = 30


class Progress:
    """How far a build is. On a terminal a dot is set each half minute, and elsewhere a line."""

    def __init__(self, name: str) -> None:
        self.name, self.step, self.begun = name, 0, time.monotonic()
        self.next, self.dots = self.begun + SECONDS, 0
        self.is_terminal = is_terminal()

    def line(self, text: str) -> None:
        self.end_dots()
        say(self.name, text)

    def begin(self, what: str) -> None:
        """Says which step begins."""
        self.step += 1
        self.line(f"step {self.step} of {STEPS}, after {self.seconds()} s: {what}")
        self.next = time.monotonic() + SECONDS

    def heed(self) -> None:
        """Says, each half minute, that the step goes on."""
        if time.monotonic() < self.next:
            return
        self.next += SECONDS
        if self.is_terminal:
            put(".", end="")
            self.dots += 1
        else:
            say(self.name, f"still at step {self.step} of {STEPS}, after {self.seconds()} s")

    def end_dots(self) -> None:
        if self.dots:
            put("")
        self.dots = 0

    def seconds(self) -> int:
        return round(time.monotonic() - self.begun)
