"""Files of the caller: those that are read are regular and not too long, and none of them is written."""

import dataclasses
import os
import stat
import typing

from .refusal import Refusal, shown

MOST = 1 << 20
Identity = tuple[int, int]


@dataclasses.dataclass(frozen=True)
class Given:
    """A file as it was read: its bytes, and by which file that is known under each of its names."""

    data: bytes
    identity: Identity


def identity_of(it: os.stat_result) -> Identity:
    return it.st_dev, it.st_ino


def reason(error: OSError | ValueError) -> str:
    return getattr(error, "strerror", None) or type(error).__name__


def read(name: str, is_any: bool = False) -> Given:
    """The file of a name, at most a MiB; with `is_any` also a pipe."""
    try:
        # A FIFO that nobody writes is opened at once, and then found to be no file.
        with open(os.open(name, os.O_RDONLY | (0 if is_any else os.O_NONBLOCK)), "rb") as file:
            found = os.fstat(file.fileno())
            if not (is_any or stat.S_ISREG(found.st_mode)):
                raise Refusal(f"{shown(name)} is no regular file")
            data = file.read(MOST + 1)
    except FileNotFoundError:
        raise Refusal(f"there is no file {shown(name)}") from None
    except OSError as error:
        raise Refusal(f"{shown(name)} is not read: {reason(error)}") from None
    if len(data) > MOST:
        raise Refusal(f"{shown(name)} has more than {MOST:,} bytes")
    return Given(data, identity_of(found))


def identities(names: typing.Iterable[str]) -> dict[Identity, str]:
    """The files of these names that are there."""
    found = {}
    for it in names:
        try:
            found[identity_of(os.stat(it))] = it
        except (OSError, ValueError):
            continue
    return found


def write(name: str, data: bytes, kept: dict[Identity, str]) -> None:
    """Writes a file that is none of those to keep. Where that fails nothing of it stands."""
    try:
        # Whether it is one of these is seen of the file that is open, before anything of it is lost.
        with open(os.open(name, os.O_WRONLY | os.O_CREAT | os.O_CLOEXEC, 0o666), "wb", buffering=0) as file:
            found = os.fstat(file.fileno())
            if identity_of(found) in kept:
                raise Refusal(f"{shown(name)} is not written: it is {shown(kept[identity_of(found)])}, which was read")
            write_whole(file, data, stat.S_ISREG(found.st_mode))
    except OSError as error:
        raise Refusal(f"{shown(name)} is not written: {reason(error)}") from None


def hold_new(name: str) -> None:
    """Sees that there is no file of a name, as `write_new` does, before anything else is written."""
    if os.path.lexists(name):
        raise Refusal(f"{shown(name)} is not written: there is a file of that name")


def write_new(name: str, data: bytes) -> None:
    """Writes a file that is not there yet. Where that fails none is there."""
    try:
        with open(os.open(name, os.O_WRONLY | os.O_CREAT | os.O_EXCL | os.O_CLOEXEC, 0o666), "wb", buffering=0) as file:
            try:
                write_whole(file, data, False)
            except BaseException:
                os.unlink(name)
                raise
    except FileExistsError:
        raise Refusal(f"{shown(name)} is not written: there is a file of that name") from None
    except (OSError, ValueError) as error:
        raise Refusal(f"{shown(name)} is not written: {reason(error)}") from None


def write_whole(file: typing.BinaryIO, data: bytes, is_regular: bool) -> None:
    """All of the bytes, or none of them: the beginning of a program may be one too."""
    try:
        if is_regular:
            file.truncate(0)
        rest = memoryview(data)
        while rest:
            rest = rest[file.write(rest) :]
    except BaseException:
        if is_regular:
            file.truncate(0)
        raise
