"""The crates that a program stands on, and their sources."""

import hashlib
import pathlib
import sys

TOP = pathlib.Path(__file__).resolve().parent.parent.parent
sys.path.insert(0, str(TOP / "bench"))

from program import crates_below  # noqa: E402

from .ending import Failure  # noqa: E402

PARTS = ("src", "specs", "proofs")
ENDINGS = (".rt", ".antt")


def folder_of(crate: str) -> pathlib.Path:
    return TOP / "crates" / crate


def is_program(crate: str) -> bool:
    return (folder_of(crate) / "src" / "main.rt").is_file()


def sources_of(crate: str, parts: tuple[str, ...] = PARTS) -> list[pathlib.Path]:
    found = (it for part in parts for it in (folder_of(crate) / part).rglob("*"))
    return sorted(it for it in found if it.suffix in ENDINGS)


def add_sources(told: "hashlib._Hash", crate: str, parts: tuple[str, ...] = PARTS) -> None:
    """Adds the names and texts of the sources of a crate to a checksum."""
    for file in sources_of(crate, parts):
        code = file.read_bytes()
        told.update(f"{file.relative_to(TOP)} {len(code)}\n".encode() + code)


def named_below(name: str) -> dict[str, list[str]]:
    """What each crate names, of this one and of all of the repository that it stands on."""
    try:
        return crates_below(name)
    except KeyError as error:
        raise Failure(f"crates.txt has no crate {ascii(error.args[0])}") from error


def in_order(name: str) -> dict[str, list[str]]:
    """The same, each crate after those that it names."""
    named = named_below(name)
    found: dict[str, list[str]] = {}

    def add(crate: str) -> None:
        for it in named[crate]:
            if it in named and it not in found:
                add(it)
        found[crate] = named[crate]

    add(name)
    return found
