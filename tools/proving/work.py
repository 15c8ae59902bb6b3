"""The order of work: what is proved, what is at work, and what waits, the longest way up first."""

import os
import time

from building.crates import is_program
from building.ending import Refused, say

from . import proof
from .progress import NAME, Progress
from .proof import Proof
from .store import Store

# What one proof takes of memory, in kB, where it is large.
ROOM = 2_500_000
SECONDS = 0.2


def places() -> int:
    """How many proofs may be at work."""
    with open("/proc/meminfo", encoding="ascii") as told:
        free = next(int(it.split()[1]) for it in told if it.startswith("MemAvailable"))
    return max(1, min(len(os.sched_getaffinity(0)), free // ROOM))


class Work:
    """The crates of a store on their way to be proved; `since` is when the call began.

    `first` is said before the first proof, if one has to be made.
    """

    def __init__(self, store: Store, since: float, first: str = "") -> None:
        self.store, self.since, self.first = store, since, first
        self.places = places()
        self.progress = Progress(store.graph, self.places)
        self.waiting = sorted(store.graph.named, key=lambda it: -store.graph.way_up(it))
        self.running: dict[str, Proof] = {}
        self.proved: set[str] = set()

    def is_over(self) -> bool:
        return not self.waiting and not self.running

    def left(self) -> list[str]:
        return [*self.waiting, *self.running]

    def fill(self) -> None:
        """Starts what may be started, and takes what is kept."""
        for crate in list(self.waiting):
            if len(self.running) == self.places:
                return
            if not self.proved.issuperset(self.store.graph.below(crate)):
                continue
            self.waiting.remove(crate)
            if self.store.is_kept(crate):
                self.take_in(crate)
            else:
                self.begin(crate)

    def begin(self, crate: str) -> None:
        if self.first:
            say(NAME, self.first)
        self.first = ""
        self.running[crate] = proof.begun(self.store, crate)

    def take_in(self, crate: str) -> None:
        self.store.use(crate)
        self.proved.add(crate)
        self.progress.proved = len(self.proved)
        if is_program(crate):
            self.store.hand_out(crate, self.since)

    def take(self) -> None:
        """Takes what has ended."""
        for crate, it in list(self.running.items()):
            if not it.is_over():
                continue
            refused = it.refusal()
            if refused is not None:
                self.progress.clear()
                raise Refused(f"{crate} was not proved", refused)
            it.keep()
            del self.running[crate]
            self.take_in(crate)
            self.progress.add(crate, self.left())

    def step(self) -> None:
        """Goes on by what can be done now, and waits a moment where proofs are at work."""
        self.fill()
        self.take()
        self.progress.show(self.left(), list(self.running))
        if self.running:
            time.sleep(SECONDS)

    def stop(self) -> None:
        """Ends what is at work, if anything is."""
        for it in self.running.values():
            it.stop()
        self.progress.clear()
