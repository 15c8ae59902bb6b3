"""The kit: where it is, which one it is, and how it links a program."""

import dataclasses
import pathlib
import re
import shutil
import subprocess
import typing

from .ending import Failure

TARGET = "x86_64-unknown-linux-gnu"
SECONDS = 60


@dataclasses.dataclass(frozen=True, slots=True)
class Kit:
    """The folder of the kit whose command `rt` is found, and the line by which it names itself."""

    folder: pathlib.Path
    version: bytes

    def tool(self, name: str) -> pathlib.Path:
        return self.folder / "bin" / name

    @property
    def toolchain(self) -> pathlib.Path:
        return self.folder / "toolchain"

    @property
    def libraries(self) -> pathlib.Path:
        """The libraries of the kit, as they were built."""
        return self.folder / "rlibs"

    def c_libraries(self) -> list[pathlib.Path]:
        """The code of C that every program is linked with."""
        return [self.folder / "c" / it for it in ("libos_c.a", "liblibc_c.a")]

    def named_by(self, library: str) -> list[str]:
        """The libraries of the kit that this one of its own names."""
        told = (self.libraries / f"{library}.rlib" / "format").read_text(encoding="utf-8")
        return re.findall(r"^dep (\w+)$", told, re.MULTILINE)

    def link(self, program: pathlib.Path, made: pathlib.Path, log: typing.BinaryIO) -> bool:
        """Links what was compiled to a program. Whether that went well."""
        words = [self.tool("rattle-link"), "--target", TARGET, "--toolchain", self.toolchain]
        words += ["-o", program, made, *self.c_libraries()]
        ran = subprocess.run(words, stdin=subprocess.DEVNULL, stdout=log, stderr=log, check=False)
        return ran.returncode == 0


def found_kit() -> Kit:
    """The kit of the command `rt`."""
    command = shutil.which("rt")
    if command is None:
        raise Failure("there is no command rt to build the program")
    words = {"stdin": subprocess.DEVNULL, "stdout": subprocess.PIPE, "stderr": subprocess.DEVNULL}
    ran = subprocess.run(["rt", "version"], **words, timeout=SECONDS, check=False)
    if ran.returncode:
        raise Failure(f"rt version ended with status {ran.returncode}")
    return Kit(pathlib.Path(command).resolve().parent.parent, ran.stdout)
