"""What the proof of each function takes: a crate is proved once more, by a process that tells when it ends with each."""

import collections.abc
import re
import subprocess

from .processes import stat_of
from .watch import Told

SHOWN = 25
# What only a build has, with a word behind it or alone.
OF_BUILDS = {"-o": 2, "--toolchain": 2, "--backend": 2, "--jobs": 2, "--statements": 1, "--empty-contracts": 1}


def check_of(words: list[str]) -> list[str]:
    """The words of a check that tells when it ends with each function."""
    rest, told = list(words[2:]), [words[0], "check"]
    while rest:
        count = OF_BUILDS.get(rest[0], 0)
        if not count:
            told.append(rest[0])
        del rest[: count or 1]
    return [*told, "--jobs", "1", "--progress"]


def checked(line: str) -> str | None:
    """The function that the check says it has ended with."""
    told = re.match(r"checked (\S+), \d+ of \d+", line)
    return told[1] if told else None


def functions_of(proof: Told) -> collections.abc.Iterator[tuple[str, float]]:
    """The functions that the check proves, with the processor seconds that each took."""
    none = subprocess.DEVNULL
    # The lines of --progress go to standard error.
    words = {"cwd": proof.folder, "text": True, "errors": "replace", "stdin": none, "stdout": none}
    with subprocess.Popen(check_of(proof.words), stderr=subprocess.PIPE, **words) as ran:
        before = 0.0
        for name in filter(None, map(checked, ran.stderr or ())):
            now = stat_of(ran.pid)[2]
            yield name, now - before
            before = now


def rows(found: list[tuple[str, float]]) -> list[str]:
    return [f"{seconds:>9.1f} s  {name}" for name, seconds in sorted(found, key=lambda it: -it[1])[:SHOWN]]
