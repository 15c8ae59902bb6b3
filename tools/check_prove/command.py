"""The command `tools/check-prove`."""

import pathlib
import resource
import shutil
import sys
import tempfile

from . import room
from .changes import Change, changes
from .room import Answer


def wanted(change: Change) -> str:
    return f"{change.refused} refused" if change.refused else f"{' '.join(change.proved)} proved anew"


def told(answer: Answer) -> str:
    if answer.refused:
        return f"{answer.refused} refused"
    return f"{' '.join(answer.proved) or 'nothing'} proved anew" if answer.status == 0 else f"status {answer.status}"


def is_right(change: Change, answer: Answer) -> bool:
    if change.refused:
        return answer.status == 1 and answer.refused == change.refused
    return answer.status == 0 and sorted(answer.proved) == sorted(change.proved)


def tried(change: Change, folder: pathlib.Path) -> bool:
    """Whether the change ends as the table says; the file is as it was afterwards."""
    before = processor_seconds()
    with change.made(folder / "crates"):
        answer = room.prove(folder)
    if is_right(change, answer):
        print(f"{change.name}: {told(answer)}, {processor_seconds() - before:.0f} s", flush=True)
        return True
    print(f"{change.name}: {told(answer)}, in place of {wanted(change)}\n{answer.text}", flush=True)
    return False


def processor_seconds() -> float:
    used = resource.getrusage(resource.RUSAGE_CHILDREN)
    return used.ru_utime + used.ru_stime


def main() -> int:
    if shutil.which("rt") is None:
        print("prove: skipped, there is no command rt")
        return 0
    with tempfile.TemporaryDirectory(prefix="check-prove-") as name:
        folder = pathlib.Path(name)
        room.fill(folder)
        begun = room.prove(folder)
        if begun.status:
            print(f"prove: the crates are not proved as they stand\n{begun.text}")
            return 1
        print(f"as they stand: proved, {processor_seconds():.0f} s", flush=True)
        table = changes()
        faults = sum(not tried(it, folder) for it in table)
    print(f"prove: {len(table)} changes, {faults} faults, {processor_seconds():.0f} processor seconds")
    return 1 if faults else 0


def run() -> None:
    sys.exit(main())
