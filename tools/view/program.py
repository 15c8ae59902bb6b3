"""The program `sweet`, as it is called."""

import dataclasses
import os
import pathlib
import subprocess

TOP = pathlib.Path(__file__).resolve().parent.parent.parent
# Options of `analyse` that have a value. Others are passed on as they stand.
VALUED = ("--root", "--inputs", "--costs", "--merge", "--turns", "--pivots")


def program_path() -> str:
    """The variable SWEET names the program; without it it is `./sweet` of this repository."""
    return os.environ.get("SWEET") or str(TOP / "sweet")


def unproved() -> str:
    """A sentence where the answers are not those of the proved program."""
    name = os.environ.get("SWEET")
    return f"The answers are those of {name}, and not of the proved program ./sweet." if name else ""


@dataclasses.dataclass(frozen=True, slots=True)
class Answer:
    """What a call wrote, and its status."""

    text: str
    status: int


def call(*words: str) -> Answer:
    # The words may name files that are open, as <(..) of a shell does.
    ran = subprocess.run(
        [program_path(), *words], stdin=subprocess.DEVNULL, stdout=subprocess.PIPE, close_fds=False
    )
    return Answer(ran.stdout.decode("utf-8", "surrogateescape"), ran.returncode)


def options_of(words: list[str]) -> tuple[str | None, dict[str, str]]:
    """The FILE among the words of `analyse`, and the values of its options."""
    file, options, ahead = None, {}, iter(words)
    is_plain = False
    for word in ahead:
        name, equals, value = word.partition("=")
        if is_plain or not word.startswith("-") or word == "-":
            file = word if file is None else file
        elif word == "--":
            is_plain = True
        elif equals:
            options[name] = value
        elif word in VALUED:
            options[word] = next(ahead, "")
    return file, options
