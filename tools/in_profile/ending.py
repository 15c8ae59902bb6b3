"""The end by a signal, or by the time: what was begun is cleaned up, and the status tells the signal."""

import collections.abc
import contextlib
import pathlib
import shutil
import signal
import tempfile
import types

SIGNALS = (signal.SIGTERM, signal.SIGINT, signal.SIGHUP)
# It comes after so many seconds of the processor, of our own work alone.
LATE, SECONDS = signal.SIGPROF, 120


class Ended(BaseException):
    """A signal came. It is no Exception, so that nothing takes it for a fault of its own."""

    def __init__(self, number: int) -> None:
        super().__init__(number)
        self.number = number


class Guard:
    """Whether a signal has to wait, and the one that waits."""

    depth = 0
    waiting: int | None = None


def take(number: int, _frame: types.FrameType | None) -> None:
    # A second signal would end the cleaning up.
    for it in (*SIGNALS, LATE):
        signal.signal(it, signal.SIG_IGN)
    if Guard.depth:
        Guard.waiting = number
        return
    raise Ended(number)


@contextlib.contextmanager
def listening() -> collections.abc.Iterator[None]:
    """Makes an Ended of each signal, but of one that the caller has ignored, as nohup does."""
    before = {it: signal.getsignal(it) for it in (*SIGNALS, LATE)}
    try:
        for it, handler in before.items():
            if handler is not signal.SIG_IGN:
                signal.signal(it, take)
        signal.setitimer(signal.ITIMER_PROF, SECONDS)
        yield
    finally:
        signal.setitimer(signal.ITIMER_PROF, 0)
        for it, handler in before.items():
            signal.signal(it, handler)


@contextlib.contextmanager
def undivided() -> collections.abc.Iterator[None]:
    """Signals wait: what is begun here is known to who cleans up before one is taken."""
    Guard.depth += 1
    try:
        yield
    finally:
        Guard.depth -= 1
    if Guard.waiting is not None and not Guard.depth:
        raise Ended(Guard.waiting)


@contextlib.contextmanager
def room() -> collections.abc.Iterator[pathlib.Path]:
    """A folder of its own, which is gone at the end, whatever that is."""
    made = None
    try:
        with undivided():
            made = pathlib.Path(tempfile.mkdtemp(prefix="sweet-c-"))
        yield made
    finally:
        if made is not None:
            with undivided():
                shutil.rmtree(made, ignore_errors=True)
