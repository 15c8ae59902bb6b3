"""A process that is begun in a session of its own, so that it is ended with all that it began."""

import collections.abc
import contextlib
import ctypes
import os
import pathlib
import signal
import subprocess
import typing

SECONDS = 10
# Of prctl: the signal that the process is sent when the one that began it has ended, however that ended.
PR_SET_PDEATHSIG = 1
LIBC = ctypes.CDLL(None)


def end_with_caller() -> None:
    LIBC.prctl(PR_SET_PDEATHSIG, signal.SIGTERM)


def begun(
    words: collections.abc.Sequence[str | pathlib.Path],
    folder: pathlib.Path,
    log: typing.BinaryIO,
    room: pathlib.Path | None = None,
) -> subprocess.Popen[bytes]:
    """Begins the process in this folder; what it writes goes to the log, and its own files into the room."""
    variables = {**os.environ, **({"TMPDIR": str(room)} if room else {})}
    return subprocess.Popen(
        words,
        cwd=folder,
        env=variables,
        stdin=subprocess.DEVNULL,
        stdout=log,
        stderr=log,
        start_new_session=True,
        preexec_fn=end_with_caller,
    )


def send(ran: subprocess.Popen[bytes], number: int) -> None:
    with contextlib.suppress(ProcessLookupError):
        os.killpg(ran.pid, number)


def stop(ran: subprocess.Popen[bytes]) -> None:
    """Ends the process and all that it began."""
    send(ran, signal.SIGTERM)
    with contextlib.suppress(subprocess.TimeoutExpired):
        ran.wait(SECONDS)
    send(ran, signal.SIGKILL)
    ran.wait()


def text_of(log: typing.BinaryIO) -> str:
    log.seek(0)
    return log.read().decode("utf-8", "replace")
