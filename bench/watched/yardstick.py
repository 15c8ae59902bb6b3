"""A yardstick for machines: what the proof of one crate, which is always the same, takes of the processor."""

import pathlib
import resource
import subprocess
import sys
import tempfile

TOP = pathlib.Path(__file__).resolve().parent.parent.parent
sys.path.insert(0, str(TOP / "tools"))

from building.kit import found_kit  # noqa: E402
from proving.graph import graph_below  # noqa: E402
from proving.proof import command  # noqa: E402
from proving.store import Store  # noqa: E402

# It names no other crate of the repository.
CRATE = "whole_numbers"


def used() -> float:
    """The processor seconds of all children that have ended."""
    told = resource.getrusage(resource.RUSAGE_CHILDREN)
    return told.ru_utime + told.ru_stime


def seconds() -> float:
    """The processor seconds of its proof, from nothing."""
    with tempfile.TemporaryDirectory() as room:
        store = Store(graph_below(CRATE), found_kit(), pathlib.Path(room), False)
        words = command(store, CRATE, pathlib.Path(room))
        before = used()
        none = subprocess.DEVNULL
        folder = TOP / "crates" / CRATE
        subprocess.run(words, cwd=folder, stdin=none, stdout=none, stderr=none, check=True)
        return used() - before
