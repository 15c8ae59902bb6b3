"""How a script that builds ends: with its status, or by one sentence on standard error and a status of its own."""

import collections.abc
import contextlib
import signal
import subprocess
import sys
import types

FAILED = 70


class Failure(Exception):
    """Why a build ended, as one sentence, and what a command said that failed."""

    def __init__(self, sentence: str, said: str = "") -> None:
        super().__init__(sentence)
        self.said = said


class Refused(Failure):
    """The prover does not take a crate: that is an answer, and no fault of the build."""


class Stopped(BaseException):
    """The script was told to stop, by a signal or since the process that called it ended."""


def stopped(number: int, frame: types.FrameType | None) -> None:
    raise Stopped


def heed_signals() -> None:
    """From now on what ends a script raises, so that what it began is ended too, and what it made is removed."""
    for it in (signal.SIGINT, signal.SIGTERM, signal.SIGHUP):
        # Whoever has a signal ignored, as nohup does, wants it ignored.
        if signal.getsignal(it) != signal.SIG_IGN:
            signal.signal(it, stopped)


def put(text: str, end: str = "\n") -> None:
    """Writes to standard error, if anyone still listens there."""
    # Where it was closed Python has none, and would print to standard output.
    if sys.stderr is not None:
        with contextlib.suppress(OSError):
            print(text, end=end, file=sys.stderr, flush=True)


def say(name: str, text: str) -> None:
    put(f"{name}: {text}")


def is_terminal() -> bool:
    return sys.stderr is not None and sys.stderr.isatty()


def sentence_of(error: BaseException) -> str:
    if isinstance(error, Stopped):
        return "stopped"
    if isinstance(error, OSError) and error.strerror:
        where = f": {ascii(str(error.filename))[1:-1]}" if error.filename else ""
        return f"{error.strerror.lower()}{where}"
    if isinstance(error, subprocess.SubprocessError):
        return "a command of the kit failed"
    text = " ".join(str(error).split())
    return text if isinstance(error, Failure) else f"{type(error).__name__} {text}".rstrip()


def status_of(name: str, main: collections.abc.Callable[[list[str]], int], words: list[str]) -> int:
    """The status of a script; whatever is raised in it ends as one sentence."""
    try:
        heed_signals()
        return main(words)
    except (Exception, Stopped, KeyboardInterrupt) as error:
        if isinstance(error, Failure) and error.said:
            put(error.said.rstrip("\n"))
        say(name, sentence_of(error))
        return FAILED
