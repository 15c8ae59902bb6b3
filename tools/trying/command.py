"""The command `./sweet-try`: builds the program where it is not kept, and becomes it."""

import os
import pathlib
import signal
import subprocess
import typing

from building import ending, lock
from building.crates import folder_of
from building.ending import Failure
from building.kit import Kit, found_kit

from .build import CRATE, KEPT, PROGRAM, build, is_kept, remove_rooms, sum_of_sources
from .progress import Progress

NAME = "sweet-try"
FIRST = "nothing is proved of this program, which is some two times slower than ./sweet, the proved one"
BUILDS = "it is built first, which takes some minutes; after that a call takes no time of its own"
WAITS = "another call is building it; waiting for it, to take what it builds"
SLOWLY = "this kit makes no bitcode, so each call has rt try build and run it, some hundreds of times slower"


def say(text: str) -> None:
    ending.say(NAME, text)


def run_in_copies(words: list[str]) -> int:
    """Runs `rt try` on copies of the files that the words name, since it runs in a folder of its own."""
    given, data = [], []
    for number, word in enumerate(words):
        name, equals, value = word.rpartition("=")
        if os.path.isfile(value):
            copy = f"file{number}{pathlib.Path(value).suffix}"
            data += ["--data", f"{copy}={os.path.abspath(value)}"]
            word = name + equals + copy
        given.append(word)
    words = ["rt", "try", *data, "--", *given]
    none = subprocess.DEVNULL
    ran = subprocess.run(words, cwd=folder_of(CRATE), stdin=none, stderr=subprocess.PIPE, check=False)
    if b"\nrun=ended " not in b"\n" + ran.stderr:
        raise Failure("the program was not built", ran.stderr.decode("utf-8", "replace"))
    return ran.returncode


def has_program(kit: Kit) -> bool:
    """Builds the program, unless another call does. Whether this kit lets it be kept."""
    with lock.held(KEPT, lambda: say(WAITS)):
        total = sum_of_sources(kit)
        if is_kept(total):
            return True
        say(BUILDS)
        remove_rooms()
        progress = Progress(NAME)
        try:
            return build(kit, total, progress)
        finally:
            progress.end_dots()


def become(words: list[str]) -> typing.NoReturn:
    # Python ignores it, and what it becomes would too.
    signal.signal(signal.SIGPIPE, signal.SIG_DFL)
    os.execv(PROGRAM, [PROGRAM, *words])


def main(words: list[str]) -> int:
    say(FIRST)
    kit = found_kit()
    if not is_kept(sum_of_sources(kit)) and not has_program(kit):
        say(SLOWLY)
        return run_in_copies(words)
    become(words)
