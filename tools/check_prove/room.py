"""A copy of crates and of what proves them, in which changes are tried."""

import dataclasses
import pathlib
import re
import shutil
import subprocess

TOP = pathlib.Path(__file__).resolve().parent.parent.parent
# Two quick crates of the repository, and a small one that stands on them, so that it is proved with both.
NAMED = {"lists": "", "whole_numbers": "", "above": "whole_numbers lists"}
LAST = "above"
SOURCE = pathlib.Path(__file__).with_name("above.txt")
COPIED = ("tools/prove", "tools/building", "tools/proving", "bench/program.py")
SECONDS = 3600


@dataclasses.dataclass(frozen=True, slots=True)
class Answer:
    """What `tools/prove` ended with: the crates that it proved, the one that it refused, and all that it said."""

    status: int
    proved: list[str]
    refused: str | None
    text: str


def copy_of(path: pathlib.Path, room: pathlib.Path) -> None:
    to = room / path.relative_to(TOP)
    to.parent.mkdir(parents=True, exist_ok=True)
    if path.is_dir():
        shutil.copytree(path, to, ignore=shutil.ignore_patterns("out", "__pycache__"))
    else:
        shutil.copy2(path, to)


def fill(room: pathlib.Path) -> None:
    for name in (*COPIED, *(f"crates/{it}" for it in NAMED if it != LAST)):
        copy_of(TOP / name, room)
    source = room / "crates" / LAST / "src"
    source.mkdir(parents=True)
    shutil.copy2(SOURCE, source / "lib.rt")
    lines = (f"{crate}: {below}\n" for crate, below in NAMED.items())
    (room / "crates.txt").write_text("".join(lines), encoding="ascii")


def prove(room: pathlib.Path) -> Answer:
    words = [room / "tools" / "prove", "--over-kept", LAST]
    ran = subprocess.run(words, stdin=subprocess.DEVNULL, capture_output=True, timeout=SECONDS, check=False)
    text = ran.stderr.decode("utf-8", "replace")
    refused = re.search(r"^sweet: (\w+) was not proved\n\Z", text, re.MULTILINE)
    return Answer(ran.returncode, re.findall(r"^sweet: (\w+) \(", text, re.MULTILINE), refused and refused[1], text)
