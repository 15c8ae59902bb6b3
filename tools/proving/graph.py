"""The crates that one stands on, what each takes to prove by its size, and the longest way up from it."""

import dataclasses
import functools
import pathlib

from building.crates import named_below, sources_of

# To read what a crate below states takes as long as to prove so many lines of code.
LINES_TO_READ = 4


def lines_of(file: pathlib.Path) -> int:
    return file.read_bytes().count(b"\n")


@dataclasses.dataclass(frozen=True)
class Graph:
    """What each crate names, of the repository and of the kit."""

    named: dict[str, list[str]]

    def below(self, crate: str) -> list[str]:
        """The crates of the repository that the crate names."""
        return [it for it in self.named[crate] if it in self.named]

    @functools.cache
    def all_below(self, crate: str) -> tuple[str, ...]:
        """The crates of the repository that the crate stands on."""
        found = dict.fromkeys(self.below(crate))
        for it in self.below(crate):
            found |= dict.fromkeys(self.all_below(it))
        return tuple(found)

    @functools.cache
    def size(self, crate: str) -> int:
        """In lines of code: proofs and definitions add little to the time that a crate takes."""
        code = sum(lines_of(it) for it in sources_of(crate, ("src",)))
        return code + LINES_TO_READ * len(self.all_below(crate))

    @functools.cache
    def way_up(self, crate: str) -> int:
        """The sizes on the longest way from the crate up to the last."""
        above = (self.way_up(it) for it in self.named if crate in self.named[it])
        return self.size(crate) + max(above, default=0)

    def __hash__(self) -> int:
        return id(self)


def graph_below(name: str) -> Graph:
    return Graph(named_below(name))
