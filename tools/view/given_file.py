"""Files as they are read: regular ones alone, and no more of them than `./sweet` reads of a program."""

import os
import stat

MOST = 1_048_576


class Unreadable(Exception):
    """There is nothing to show, or nothing to write it to, for the reason told."""


def text_of(path: str) -> str:
    """The text of a file. Bytes that are no UTF-8 are surrogates."""
    return bytes_of(path).decode("utf-8", "surrogateescape")


def bytes_of(path: str, links: bool = True) -> bytes:
    """The bytes of a file; without `links` the path is no symbolic link."""
    # Not to wait for a writer, should the file have become a pipe since it was looked at.
    flags = os.O_RDONLY | os.O_CLOEXEC | os.O_NONBLOCK | (0 if links else os.O_NOFOLLOW)
    try:
        if not stat.S_ISREG(os.stat(path, follow_symlinks=links).st_mode):
            raise Unreadable(f"{path}: is not a regular file")
        with open(os.open(path, flags), "rb") as file:
            is_regular = stat.S_ISREG(os.fstat(file.fileno()).st_mode)
            given = file.read(MOST + 1) if is_regular else b""
    except OSError as error:
        raise Unreadable(f"{path}: {error.strerror}") from error
    except ValueError as error:
        raise Unreadable(f"{path}: {error}") from error
    if not is_regular or len(given) > MOST:
        raise Unreadable(f"{path}: {'has more than 1,048,576 bytes' if is_regular else 'is not a regular file'}")
    return given
