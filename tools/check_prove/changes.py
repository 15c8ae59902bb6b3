"""The changes, as they stand in the table beside this file."""

import collections.abc
import contextlib
import dataclasses
import pathlib
import tomllib

TABLE = pathlib.Path(__file__).with_name("changes.toml")


@dataclasses.dataclass(frozen=True, slots=True)
class Change:
    """A change of one place of a file, with the crate that is refused then, or those that are proved anew."""

    name: str
    file: str
    old: str
    new: str
    refused: str | None = None
    proved: list[str] = dataclasses.field(default_factory=list)

    @contextlib.contextmanager
    def made(self, crates: pathlib.Path) -> collections.abc.Iterator[None]:
        """The file has the new text where it had the old one, once; afterwards it is as it was."""
        file = crates / self.file
        text = file.read_text(encoding="utf-8")
        if text.count(self.old) != 1:
            raise ValueError(f"{self.name}: {self.file} has its old text {text.count(self.old)} times")
        file.write_text(text.replace(self.old, self.new), encoding="utf-8")
        try:
            yield
        finally:
            file.write_text(text, encoding="utf-8")


def changes() -> list[Change]:
    with open(TABLE, "rb") as table:
        return [Change(**row) for row in tomllib.load(table)["change"]]
