"""A lock on a folder, which is free again however the process that holds it ends."""

import collections.abc
import contextlib
import fcntl
import pathlib
import time


def is_free(file: int) -> bool:
    try:
        fcntl.flock(file, fcntl.LOCK_EX | fcntl.LOCK_NB)
    except BlockingIOError:
        return False
    return True


@contextlib.contextmanager
def held(folder: pathlib.Path, told: collections.abc.Callable[[], None]) -> collections.abc.Iterator[None]:
    """Holds the folder. While another holds it this waits, and has `told` say so once."""
    folder.mkdir(parents=True, exist_ok=True)
    with open(folder / "lock", "ab") as lock:
        if not is_free(lock.fileno()):
            told()
        while not is_free(lock.fileno()):
            time.sleep(0.2)
        yield
