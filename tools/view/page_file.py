"""Where the page goes: of files that are there none is written over but a page that the viewer made."""

import contextlib
import os
import stat
import sys
import tempfile

from view.given_file import Unreadable
from view.html_page import BEGIN

STREAMS = (stat.S_ISFIFO, stat.S_ISCHR, stat.S_ISSOCK)


def write(page: bytes, out: str, words: list[str]) -> bool:
    """Whether the page stands in a file of this name, and did not go on by standard output or by another stream. No
    file that one of the words names is written over."""
    try:
        found = None if out == "-" else os.stat(out)
        if found is None or is_output(found):
            put_out(page, out, words)
        elif any(it(found.st_mode) for it in STREAMS):
            with open(os.open(out, os.O_WRONLY | os.O_CLOEXEC), "wb") as stream:
                stream.write(page)
        else:
            put_file(page, out, words)
            return True
        return False
    except FileNotFoundError:
        put_file(page, out, words)
        return True
    except OSError as error:
        raise Unreadable(f"{'standard output' if out == '-' else out}: {error.strerror}") from error


def is_output(found: os.stat_result) -> bool:
    """Whether a name leads to what standard output is, as /dev/stdout does."""
    return sys.stdout is not None and os.path.samestat(found, os.fstat(1))


def put_out(page: bytes, out: str, words: list[str]) -> None:
    if sys.stdout is None:
        raise Unreadable("standard output is closed")
    if is_named(os.fstat(1), words):
        raise Unreadable(f"{out}: standard output is a file that the words name")
    sys.stdout.buffer.write(page)
    sys.stdout.buffer.flush()


def put_file(page: bytes, out: str, words: list[str]) -> None:
    """Writes the page under another name, and gives it this one once it is whole."""
    try:
        hold(out, words)
        number, name = tempfile.mkstemp(prefix=".sweet-view-", dir=os.path.dirname(out) or ".")
        try:
            with open(number, "wb") as file:
                file.write(page)
                os.fchmod(number, mode_for(out))
            give_name(name, out, words)
        finally:
            with contextlib.suppress(FileNotFoundError):
                os.unlink(name)
    except OSError as error:
        raise Unreadable(f"{out}: {error.strerror}") from error


def give_name(name: str, out: str, words: list[str]) -> None:
    """A link is made only where nothing is; what came since it was looked at is looked at, too."""
    try:
        os.link(name, out, follow_symlinks=False)
    except OSError:
        # Something is there, or the file system has no links.
        hold(out, words)
        os.replace(name, out)


def hold(out: str, words: list[str]) -> None:
    """Nothing is there, or a page of the viewer that is none of the files that the words name."""
    try:
        found = os.lstat(out)
    except FileNotFoundError:
        return
    why = ""
    if stat.S_ISLNK(found.st_mode):
        why = "is a symbolic link"
    elif not stat.S_ISREG(found.st_mode):
        why = "is a folder" if stat.S_ISDIR(found.st_mode) else "is no regular file"
    elif is_named(found, words):
        why = "is a file that the words name"
    elif not is_page(out):
        why = "is there, and is no page of sweet-view"
    if why:
        raise Unreadable(f"{out}: {why}, so nothing is written; name another file by -o")


def is_named(found: os.stat_result, words: list[str]) -> bool:
    """Whether a file is one that a word names, or what stands behind its `=`."""
    for name in {part for word in words for part in (word, word.partition("=")[2])}:
        with contextlib.suppress(OSError, ValueError):
            if stat.S_ISREG(found.st_mode) and os.path.samestat(found, os.stat(name)):
                return True
    return False


def is_page(path: str) -> bool:
    with open(os.open(path, os.O_RDONLY | os.O_CLOEXEC | os.O_NONBLOCK | os.O_NOFOLLOW), "rb") as file:
        return file.read(len(BEGIN)) == BEGIN.encode("ascii")


def mode_for(out: str) -> int:
    """As the page had it that is there, or as new files have it."""
    with contextlib.suppress(FileNotFoundError):
        return stat.S_IMODE(os.lstat(out).st_mode)
    mask = os.umask(0)
    os.umask(mask)
    return 0o666 & ~mask
