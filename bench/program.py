"""The program `sweet`, what a run takes, and the crates that a program stands on."""

import functools
import os
import pathlib
import subprocess
import sys
import time
import typing

TOP = pathlib.Path(__file__).resolve().parent.parent
CRATES = TOP / "crates"
# By a run of these words, in its folder, a program is built.
SHORT_RUNS = {"sweet": ("analyse", "data/a.alf")}
# For proofs of a program and of all below it.
PROVING = 6 * 3600


def crates():
    """What each crate names that it stands on, in the order of crates.txt."""
    found = {}
    for line in (TOP / "crates.txt").read_text(encoding="utf-8").splitlines():
        crate, _, below = line.partition("#")[0].partition(":")
        if crate.strip():
            found[crate.strip()] = below.split()
    return found


def crates_below(name):
    """What each crate names, of this one and of all of the repository that it stands on."""
    named, found, ahead = crates(), {}, [name]
    while ahead:
        crate = ahead.pop()
        if crate not in found:
            found[crate] = named[crate]
            ahead += [it for it in named[crate] if it in named]
    return found


@functools.cache
def built(name):
    """The program of this name, proved and built where a source is newer."""
    made = CRATES / name / "out" / name
    sources = [TOP / "crates.txt", *(it for part in ("src", "specs", "proofs") for it in CRATES.glob(f"*/{part}/**/*"))]
    if not made.exists() or made.stat().st_mtime < max(it.stat().st_mtime for it in sources):
        words = ["rt", "run", "--", *SHORT_RUNS[name]]
        subprocess.run(
            words, cwd=CRATES / name, stdin=subprocess.DEVNULL, stdout=subprocess.DEVNULL, check=True, timeout=PROVING
        )
    return made


class Run(typing.NamedTuple):
    """What a run wrote, its seconds: by the clock, of the processor, of the user alone; and its peak memory in KiB."""

    text: str
    clock: float
    processor: float
    user: float
    memory: int


def measured(words, room=None):
    """What a run takes, in this folder where one is given. The script ends, and says so, where its status is not 0."""
    begun = time.monotonic()
    with subprocess.Popen(words, cwd=room, stdin=subprocess.DEVNULL, stdout=subprocess.PIPE) as started:
        wrote = started.stdout.read()
        _, status, used = os.wait4(started.pid, 0)
        clock = time.monotonic() - begun
        started.returncode = os.waitstatus_to_exitcode(status)
    text = wrote.decode(errors="replace").strip()
    if started.returncode:
        sys.exit(f"{' '.join(map(str, words))}: status {started.returncode} {text[:400]}")
    return Run(text, clock, used.ru_utime + used.ru_stime, used.ru_utime, used.ru_maxrss)


def quickest(words):
    """The run that takes the processor least, of three runs of these words."""
    return min((measured(words) for _ in range(3)), key=lambda run: run.processor)
