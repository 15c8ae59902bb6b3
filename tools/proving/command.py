"""The command `tools/prove`: proves a crate and all that it stands on, and with --run becomes the program."""

import argparse
import os
import signal
import time

from building import ending, lock
from building.crates import folder_of
from building.ending import Failure, put, say
from building.kit import found_kit

from .graph import graph_below
from .progress import NAME
from .store import store_of
from .work import Work

WAITS = "another call is proving in this repository; waiting for it, to take what it proves"
BEGINS = (
    "the program is proved first. From nothing ./sweet takes half an hour to an hour on four processors; "
    "./sweet-try answers sooner, without proof"
)
ABOUT = """\
Proves a crate and those that it stands on, as many side by side as there are processors and memory, and keeps what is
proved, also where it is stopped: docs/how-to.md, "What a change costs". A library is proved to its statements, which
are all that the crates above read of it, and a program to the file crates/NAME/out/NAME. What the prover says of a
crate is shown only where it is not proved; the status is then 1, and 70 where this was stopped or could not work."""
RUNS = "tools/prove --run NAME WORDS is what ./sweet calls: it becomes the program, once it is proved."


def given(words: list[str]) -> argparse.Namespace:
    reader = argparse.ArgumentParser(prog="tools/prove", description=ABOUT, epilog=RUNS)
    way = reader.add_mutually_exclusive_group()
    way.add_argument("--anew", action="store_true", help="uses nothing that was kept: all of it goes first")
    over_kept = "for work: over folders in which the prover keeps what it checked, to crates/NAME/out/NAME.over-kept"
    way.add_argument("--over-kept", action="store_true", help=over_kept)
    reader.add_argument("name", metavar="NAME", help="a crate of crates.txt")
    return reader.parse_args(words)


def prove(name: str, is_anew: bool = False, is_over_kept: bool = False, first: str = "") -> None:
    """Proves the crate; each other call on the same part of the store waits until this has ended."""
    since = time.time()
    store = store_of(graph_below(name), found_kit(), is_over_kept)
    with lock.held(store.folder, lambda: say(NAME, WAITS)):
        store.remove_left()
        if is_anew:
            store.remove_all()
        work = Work(store, since, first)
        try:
            while not work.is_over():
                work.step()
        finally:
            work.stop()


def run(name: str, words: list[str]) -> int:
    """Proves the program where that is not done, and becomes it."""
    program = folder_of(name) / "out" / name
    prove(name, first="" if program.exists() else BEGINS)
    # Python ignores it, and what it becomes would too.
    signal.signal(signal.SIGPIPE, signal.SIG_DFL)
    os.execv(program, [program, *words])


def main(words: list[str]) -> int:
    if words[:1] == ["--run"] and len(words) > 1:
        return run(words[1], words[2:])
    told = given(words)
    try:
        prove(told.name, told.anew, told.over_kept)
    except ending.Refused as error:
        put(error.said.rstrip("\n"))
        say(NAME, str(error))
        return 1
    return 0
