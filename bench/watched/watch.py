"""What was seen of a gate: what each process took, how each crate was proved, and who was at work alone."""

import collections
import collections.abc
import dataclasses
import os
import pathlib
import shutil
import time

from .processes import REST, Key, Kind, Process, family_of, kind_of

SECONDS = 0.5


@dataclasses.dataclass(frozen=True, slots=True)
class Told:
    """The folder and the words of a proof."""

    folder: str
    words: list[str]


def linked(file: str, copy: str) -> None:
    try:
        os.link(file, copy)
    except OSError:
        shutil.copy2(file, copy)


class Watch:
    """Looks at a gate each half second; libraries that it removes at its end are kept on the shelf."""

    def __init__(self, shelf: str) -> None:
        self.shelf = shelf
        self.seconds: dict[Key, float] = {}
        self.kinds: dict[Key, Kind] = {}
        self.proofs: dict[Kind, Told] = {}
        # The clock seconds in which one crate alone was at work.
        self.alone: collections.Counter[Kind] = collections.Counter()
        self.looked = time.monotonic()

    def look(self, number: int) -> None:
        """Adds what the process and those that it started took so far."""
        at_work = set()
        for it in family_of(number):
            self.seconds[it.key] = it.seconds
            kind = kind_of(it)
            self.kinds[it.key] = kind or self.kinds.get(it.key) or Kind(REST, "rest")
            if kind:
                at_work.add(kind)
                self.note(kind, it)
        now = time.monotonic()
        if len(at_work) == 1:
            self.alone[at_work.pop()] += now - self.looked
        self.looked = now

    def note(self, kind: Kind, process: Process) -> None:
        """Notes how the crate is proved."""
        if kind.part != "edits" and "rattle" in process.words[0] and kind not in self.proofs:
            self.proofs[kind] = Told(process.folder, [self.kept(word) for word in process.words])

    def kept(self, word: str) -> str:
        """The word, where a library of the repository is replaced by a copy that outlives the gate."""
        name, _, path = word.partition("=")
        if "/out/rlib" not in path:
            return word
        is_one = path.endswith(".rlib")
        for library in [pathlib.Path(path)] if is_one else pathlib.Path(path).glob("*.rlib"):
            copy = pathlib.Path(self.shelf, library.name)
            if library.is_dir() and not copy.exists():
                shutil.copytree(library, copy, copy_function=linked)
        return f"{name}={pathlib.Path(self.shelf, pathlib.Path(path).name) if is_one else self.shelf}"

    def until(self, number: int, is_over: collections.abc.Callable[[], bool]) -> None:
        self.looked = time.monotonic()
        while not is_over():
            self.look(number)
            time.sleep(SECONDS)

    def minutes(self) -> dict[str, collections.Counter[str]]:
        """The processor minutes of each crate, part by part."""
        taken: dict[str, collections.Counter[str]] = collections.defaultdict(collections.Counter)
        for key, seconds in self.seconds.items():
            kind = self.kinds[key]
            taken[kind.crate][kind.part] += seconds / 60
        return taken
