"""The processes of the machine as /proc tells them, and what those of a gate are for."""

import collections.abc
import dataclasses
import os
import pathlib
import re

TICKS = os.sysconf("SC_CLK_TCK")
KINDS = ("proof", "edits", "tests", "rest")
REST = "(programs, compilers, rt)"
# A process is known by its number and its start, since numbers come again.
Key = tuple[int, str]


@dataclasses.dataclass(frozen=True, slots=True)
class Process:
    """One process: its key, the number of its parent, its processor seconds, its words and its folder."""

    key: Key
    parent: int
    seconds: float
    words: list[str]
    folder: str


@dataclasses.dataclass(frozen=True, slots=True)
class Kind:
    """What a process is for: a crate, or `REST`, and one of `KINDS`."""

    crate: str
    part: str


def stat_of(number: int | str) -> tuple[str, int, float]:
    """The start, the parent and the processor seconds of a process."""
    told = pathlib.Path("/proc", str(number), "stat").read_text(encoding="utf-8", errors="replace")
    fields = told[told.rindex(")") + 2 :].split()
    return fields[19], int(fields[1]), (int(fields[11]) + int(fields[12])) / TICKS


def process_of(number: str) -> Process:
    start, parent, seconds = stat_of(number)
    words = pathlib.Path("/proc", number, "cmdline").read_bytes().decode("utf-8", "replace").split("\0")[:-1]
    return Process((int(number), start), parent, seconds, words, os.readlink(f"/proc/{number}/cwd"))


def processes() -> collections.abc.Iterator[Process]:
    for name in os.listdir("/proc"):
        if name.isdigit():
            try:
                yield process_of(name)
            except OSError:
                continue


def family_of(number: int) -> collections.abc.Iterator[Process]:
    """The process and those that it started, and so on."""
    below, ahead = collections.defaultdict(list), []
    for it in processes():
        below[it.parent].append(it)
        if it.key[0] == number:
            ahead.append(it)
    while ahead:
        it = ahead.pop()
        yield it
        ahead += below[it.key[0]]


def kind_of(process: Process) -> Kind | None:
    """What the process is for, if its words tell: an edit is tried on a copy of its crate."""
    words = process.words
    run = re.search(r"/bin/(\w+)_tests$", words[0]) if words else None
    if run:
        return Kind(run[1], "tests")
    if "--crate-name" not in words[:-1] or "--crate-checked" in words:
        return None
    crate = words[words.index("--crate-name") + 1]
    if "/rt-edit-" in process.folder:
        return Kind(crate, "edits")
    return Kind(crate, "tests" if "--test" in words else "proof")
