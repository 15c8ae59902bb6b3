"""The program `sweet_bench`, which does the work whose times the scripts beside this file take.

Its sources are kept in bench/sweet_bench, each with the ending `.txt`, since no one but these scripts needs it: the gate
does not prove it. It is proved and built in a work tree of what is committed, which stands in git's own folder and
is kept there for the next call.
"""

import functools
import pathlib
import shutil
import subprocess
import sys

from program import TOP

NAME = "sweet_bench"
KEPT = TOP / "bench" / NAME
DATA = KEPT / "data"
# For what proves nothing, and for proofs.
SECONDS, PROVING = 120, 6 * 3600


def git(*words: str) -> str:
    """What git says, at the top of the repository."""
    ran = subprocess.run(["git", "-C", TOP, *words], stdout=subprocess.PIPE, text=True, check=True, timeout=SECONDS)
    return ran.stdout.strip()


def work_tree() -> pathlib.Path:
    """A work tree of what is committed, without anything that was left there."""
    tree = pathlib.Path(TOP, git("rev-parse", "--git-common-dir"), "measured").resolve()
    commit = git("rev-parse", "HEAD")
    git("worktree", "prune")
    if not (tree / ".git").exists():
        git("worktree", "add", "--quiet", "--detach", str(tree), commit)
    git("-C", str(tree), "checkout", "--quiet", "--force", "--detach", commit)
    return tree


def put_sources(tree: pathlib.Path) -> pathlib.Path:
    """The crate, with its sources under their own names, and its line in crates.txt."""
    crate = tree / "crates" / NAME
    for part in ("src", "specs", "proofs"):
        shutil.rmtree(crate / part, ignore_errors=True)
        for file in sorted((KEPT / part).rglob("*.txt")):
            made = crate / file.relative_to(KEPT).with_suffix("")
            made.parent.mkdir(parents=True, exist_ok=True)
            shutil.copyfile(file, made)
    with (tree / "crates.txt").open("a", encoding="utf-8") as listed:
        listed.write(f"{NAME}: {(KEPT / 'uses').read_text(encoding='utf-8')}")
    return crate


@functools.cache
def measuring() -> pathlib.Path:
    """The program, proved and built where a source is new; its stored run has to give what is stored."""
    tree = work_tree()
    made = put_sources(tree) / "out" / NAME
    subprocess.run([tree / "tools" / "prove", NAME], cwd=tree, stdin=subprocess.DEVNULL, check=True, timeout=PROVING)
    words = (KEPT / "args").read_text(encoding="utf-8").split()
    wrote = subprocess.run([made, *words], cwd=DATA, stdout=subprocess.PIPE, check=True, timeout=SECONDS).stdout
    if wrote != (KEPT / "stdout").read_bytes():
        sys.exit(f"{NAME}: the stored run gives something else than bench/{NAME}/stdout")
    return made


def bench_of(subject: str) -> list[str]:
    """The words that begin each run of a subject: the program `sweet_bench`, and the subject."""
    return [str(measuring()), subject]
