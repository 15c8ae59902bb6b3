"""A program that is called, within limits of time, memory and of what it writes. It ends with all that it began."""

import contextlib
import dataclasses
import os
import pathlib
import resource
import signal
import subprocess
import tempfile

from .ending import undivided

MEMORY, MOST_WRITTEN = 2 << 30, 64 << 20


@dataclasses.dataclass(frozen=True)
class Ran:
    """The status, or None where the time was over, and what was written."""

    status: int | None
    out: bytes
    err: bytes


def run(words: list[str], seconds: float, given: bytes = b"", most: int = MOST_WRITTEN,
        folder: pathlib.Path | None = None, temporary: pathlib.Path | None = None) -> Ran:
    """Runs a program on these bytes, with a folder for what it leaves where it is ended.

    It has so many seconds, and each of its files at most so many bytes.
    """

    def limit() -> None:
        limits = {resource.RLIMIT_AS: MEMORY, resource.RLIMIT_FSIZE: most, resource.RLIMIT_CORE: 0}
        for what, number in limits.items():
            hard = resource.getrlimit(what)[1]
            number = number if hard == resource.RLIM_INFINITY else min(number, hard)
            resource.setrlimit(what, (number, number))

    with tempfile.TemporaryFile() as file, tempfile.TemporaryFile() as out, tempfile.TemporaryFile() as err:
        file.write(given)
        file.seek(0)
        how = {"stdin": file, "stdout": out, "stderr": err, "preexec_fn": limit, "cwd": folder}
        how["env"] = {**os.environ, "TMPDIR": str(temporary)} if temporary else None
        status = waited(words, seconds, how)
        out.seek(0)
        err.seek(0)
        return Ran(status, out.read(most), err.read(most))


def waited(words: list[str], seconds: float, files: dict) -> int | None:
    """The status of a program in a session of its own, of which nothing is left at the end."""
    started = None
    try:
        with undivided():
            started = subprocess.Popen(words, start_new_session=True, **files)
        return started.wait(seconds)
    except subprocess.TimeoutExpired:
        return None
    finally:
        if started is not None:
            with undivided():
                with contextlib.suppress(ProcessLookupError, PermissionError):
                    os.killpg(started.pid, signal.SIGKILL)
                started.wait()
