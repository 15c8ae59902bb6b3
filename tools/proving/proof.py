"""One proof that is at work: the words of the kit's prover, what they make, and what is said of it."""

import dataclasses
import pathlib
import shutil
import subprocess
import tempfile
import typing

from building import process
from building.crates import folder_of, is_program

from .store import Store


def passed(store: Store, crate: str) -> list[str | pathlib.Path]:
    """The libraries that the crate names, and where those are that they name."""
    named = ["std", *store.graph.named[crate]]
    words: list[str | pathlib.Path] = [word for it in named for word in ("--extern", f"{it}={store.library(it)}")]
    folders = [store.kit.libraries, *(store.kept(it) for it in store.graph.all_below(crate))]
    return [*words, *(word for it in folders for word in ("-L", f"dependency={it}"))]


def command(store: Store, crate: str, made: pathlib.Path) -> list[str | pathlib.Path]:
    """The words that prove the crate, and what they make."""
    kit, root = store.kit, "src/main.rt" if is_program(crate) else "src/lib.rt"
    # With more jobs some crates took several times the processor time.
    words = [kit.tool("rattle"), "build", "--crate-name", crate, root, "--links", f"{crate}=", "--jobs", "1"]
    words += passed(store, crate)
    words += ["--antt-project", kit.folder / "rattle" / "logic" / "antt-project.json"]
    words += ["--logic-built", kit.folder / "logic_built"]
    if store.is_over_kept:
        words += ["--incremental", store.room(crate) / "incremental"]
    if is_program(crate):
        return [*words, "--toolchain", kit.toolchain, "--backend", "llvm", "-o", made / f"{crate}.o"]
    # The kit takes no folder of its own beside this word.
    return [*words, *([] if store.is_over_kept else ["--statements"]), "-o", made / f"{crate}.rlib"]


@dataclasses.dataclass
class Proof:
    """What a proof makes becomes what is kept, once it has ended well."""

    store: Store
    crate: str
    process: subprocess.Popen[bytes]
    log: typing.BinaryIO
    made: pathlib.Path

    def is_over(self) -> bool:
        return self.process.poll() is not None

    def refusal(self) -> str | None:
        """What is said where the crate was not proved, and None where it was."""
        if self.process.returncode or is_program(self.crate) and not self.link():
            return process.text_of(self.log)
        is_same = self.store.sum_now(self.crate) == self.store.sum_of(self.crate)
        return None if is_same else "a source was changed while it was read\n"

    def link(self) -> bool:
        """Links the program beside what it is linked from. Whether that went well."""
        return self.store.kit.link(self.made / self.crate, self.made / f"{self.crate}.o", self.log)

    def keep(self) -> None:
        self.store.keep(self.crate, self.made, process.text_of(self.log))

    def stop(self) -> None:
        process.stop(self.process)
        self.remove()

    def remove(self) -> None:
        shutil.rmtree(self.made, ignore_errors=True)


def begun(store: Store, crate: str) -> Proof:
    store.sum_of(crate)
    store.room(crate).mkdir(parents=True, exist_ok=True)
    made = pathlib.Path(tempfile.mkdtemp(prefix="made-", dir=store.room(crate)))
    log = tempfile.TemporaryFile()
    return Proof(store, crate, process.begun(command(store, crate, made), folder_of(crate), log), log, made)
