"""Where it is kept what was proved, by a checksum of all that it was proved from.

It is git's own folder, which neither `rt ci` nor a new checkout empties and which the worktrees of a repository share;
where there is no git it is a folder `out` of the repository. What was proved from nothing and what was proved over
folders of the kit have a part each, and neither takes anything of the other.
"""

import dataclasses
import functools
import hashlib
import os
import pathlib
import shutil
import subprocess

from building.crates import TOP, add_sources, is_program
from building.ending import Failure
from building.kit import Kit

from .graph import Graph

# So many makes of a crate are kept, the newest: what is changed back is not proved again.
KEPT = 2
WHOLE, OVER_KEPT = "whole", "over-kept"
VERDICT = "logic=proved "
# Words of a verdict that rests on more than this run, its kit, and libraries whose own verdicts were held.
OF_KEPT = ("incremental=", "cache=", "crate-checked=", "batches=")


def git_folder() -> pathlib.Path | None:
    """The folder of git that all worktrees of this repository share."""
    if not (TOP / ".git").exists() or not shutil.which("git"):
        return None
    words = ["git", "-C", TOP, "rev-parse", "--path-format=absolute", "--git-common-dir"]
    # A hook of git has variables that name another repository.
    variables = {name: it for name, it in os.environ.items() if not name.startswith("GIT_")}
    ran = subprocess.run(words, env=variables, capture_output=True, timeout=60, check=False)
    return pathlib.Path(os.fsdecode(ran.stdout.rstrip(b"\n"))) if ran.returncode == 0 else None


def proved_folder() -> pathlib.Path:
    return (git_folder() or TOP / "out") / "proved"


@dataclasses.dataclass(frozen=True)
class Store:
    """One of both parts. The sum of a crate is told once those below it are kept."""

    graph: Graph
    kit: Kit
    folder: pathlib.Path
    is_over_kept: bool

    def __hash__(self) -> int:
        return id(self)

    @functools.cache
    def format_of(self, crate: str) -> bytes:
        """What the kit says of a library that is kept: it has a sum of each file of it, to which the kit holds them."""
        return (self.library(crate) / "format").read_bytes()

    def sum_now(self, crate: str) -> str:
        """The checksum of all that the crate is proved from, as its sources stand."""
        told = hashlib.sha256(self.kit.version + f"{self.graph.named[crate]}".encode())
        for it in sorted(self.graph.all_below(crate)):
            told.update(self.format_of(it))
        add_sources(told, crate)
        return told.hexdigest()

    @functools.cache
    def sum_of(self, crate: str) -> str:
        return self.sum_now(crate)

    def room(self, crate: str) -> pathlib.Path:
        return self.folder / crate

    def kept(self, crate: str) -> pathlib.Path:
        return self.room(crate) / self.sum_of(crate)

    def is_kept(self, crate: str) -> bool:
        made = crate if is_program(crate) else f"{crate}.rlib/format"
        return (self.kept(crate) / made).is_file() and (self.kept(crate) / "verdict").is_file()

    def library(self, name: str) -> pathlib.Path:
        """Where the library is that a crate names: one of the repository or of the kit."""
        return (self.kept(name) if name in self.graph.named else self.kit.libraries) / f"{name}.rlib"

    def use(self, crate: str) -> None:
        """Notes that what is kept of the crate was wanted."""
        os.utime(self.kept(crate))

    def keep(self, crate: str, made: pathlib.Path, said: str) -> None:
        """Keeps what was made of the crate and what the kit said of it last, and removes what was longest not used."""
        (made / "verdict").write_text(f"{self.verdict_in(crate, said)}\n", encoding="utf-8")
        shutil.rmtree(self.kept(crate), ignore_errors=True)
        made.replace(self.kept(crate))
        others = [it for it in self.room(crate).iterdir() if it.name != "incremental"]
        for it in sorted(others, key=lambda one: -one.stat().st_mtime)[KEPT:]:
            shutil.rmtree(it)

    def verdict_in(self, crate: str, said: str) -> str:
        verdicts = [line for line in said.split("\n") if line.startswith(VERDICT)]
        if not verdicts:
            raise Failure(f"the kit gave no verdict on {crate}", said)
        if not self.is_over_kept and any(it in verdicts[-1] for it in OF_KEPT):
            raise Failure(f"{crate} was not proved from nothing: {verdicts[-1]}")
        return verdicts[-1]

    def hand_out(self, crate: str, since: float) -> None:
        """Puts a program where it is run from, and the kit's verdict beside it; it is as old as this call is."""
        out = TOP / "crates" / crate / "out"
        name = crate + (".over-kept" if self.is_over_kept else "")
        out.mkdir(exist_ok=True)
        for made, to in (("verdict", f"{name}.verdict"), (crate, name)):
            copy = pathlib.Path(shutil.copy2(self.kept(crate) / made, out / f"new-{to}"))
            # A source that was changed since is newer than the program.
            os.utime(copy, (since, since))
            copy.replace(out / to)

    def remove_left(self) -> None:
        """Removes what was made by calls that were killed. Whoever calls this holds the lock."""
        for it in self.folder.glob("*/made-*"):
            shutil.rmtree(it)

    def remove_all(self) -> None:
        for it in self.folder.iterdir():
            if it.is_dir():
                shutil.rmtree(it)


def store_of(graph: Graph, kit: Kit, is_over_kept: bool) -> Store:
    return Store(graph, kit, proved_folder() / (OVER_KEPT if is_over_kept else WHOLE), is_over_kept)
