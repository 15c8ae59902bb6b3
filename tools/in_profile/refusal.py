"""What ends `sweet-c` before its work is done: sentences, each with its place where it has one, and the status."""

import dataclasses
import re
import sys

# As docs/programs.md tells them. A signal adds its number.
DONE, REFUSED, BROKEN, SIGNALLED = 0, 1, 70, 128


@dataclasses.dataclass(frozen=True, order=True)
class Told:
    """A sentence, and where it belongs: line 0 is the whole file, and no file is `sweet-c` itself."""

    file: str
    line: int
    what: str

    def __str__(self) -> str:
        if not self.file:
            return f"sweet-c: {self.what}"
        return f"{self.file}:{self.line}: {self.what}" if self.line else f"{self.file}: {self.what}"


class Refusal(Exception):
    """The program, a file or the words are not taken, for what is told."""

    def __init__(self, *told: Told | str) -> None:
        self.told = [it if isinstance(it, Told) else Told("", 0, it) for it in told]
        super().__init__("; ".join(map(str, self.told)))


def outside(file: str, line: int, why: str) -> Told:
    return Told(file, line, f"outside of the profile: {why}")


def shown(name: str) -> str:
    """A name as it may stand in a sentence, in a line of the preprocessor and on a terminal."""
    return re.sub(r'[^ !#-\[\]-~]', "_", name)


def say(*told: Told | str) -> None:
    """Prints sentences. Where nobody can read them the status is left."""
    try:
        if sys.stderr is not None:
            lines = (it if isinstance(it, Told) else Told("", 0, it) for it in told)
            print(*lines, sep="\n", file=sys.stderr, flush=True)
    except OSError:
        # Else Python tries again at its end, and has a status of its own for that.
        sys.stderr = None
