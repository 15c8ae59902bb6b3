"""The steps from the sources to the program that is kept."""

import hashlib
import pathlib
import shutil
import subprocess
import tempfile
import time

from building import process
from building.crates import add_sources, folder_of, named_below
from building.ending import Failure
from building.kit import TARGET, Kit

from . import bitcode
from .progress import Progress

CRATE = "sweet"
KEPT = folder_of(CRATE) / "out" / "try"
PROGRAM = KEPT / "sweet"
# As the kit compiles a program, but for size, which is as quick and takes less time, and without the address sanitizer:
# the tests of indices and of sums stand in the bitcode itself.
OPTIMISED = ("-Os", "-fPIE", "-ffunction-sections", "-fdata-sections", "-mllvm", "-trap-unreachable")
# Without words the program answers so.
ANSWER, STATUS = b"fault usage\n", 1
SECONDS = 1800


def sum_of_sources(kit: Kit) -> str:
    """The checksum of all that the program is built from."""
    told = hashlib.sha256(kit.version + repr(OPTIMISED).encode())
    for crate in sorted(named_below(CRATE)):
        add_sources(told, crate, ("src",))
    return told.hexdigest()


def is_kept(total: str) -> bool:
    told = KEPT / "sum"
    return PROGRAM.is_file() and told.is_file() and told.read_text(encoding="ascii", errors="replace") == total


def remove_rooms() -> None:
    """Removes the folders of builds that were killed. Whoever calls this holds the lock."""
    for it in KEPT.iterdir():
        if it.is_dir():
            shutil.rmtree(it)


def compile_bitcode(kit: Kit, code: pathlib.Path, to: pathlib.Path, progress: Progress) -> None:
    words = [kit.toolchain / "bin" / "clang", f"--target={TARGET}", f"--sysroot={kit.toolchain}", "-march=x86-64"]
    words += ["--no-default-config", *OPTIMISED, "-c", "-x", "ir", code, "-o", to]
    with open(code.with_name("compiled"), "w+b") as log:
        ran, ends = process.begun(words, code.parent, log, code.parent), time.monotonic() + SECONDS
        try:
            while ran.poll() is None and time.monotonic() < ends:
                progress.heed()
                time.sleep(0.05)
        finally:
            process.stop(ran)
        if ran.returncode:
            raise Failure("the bitcode was not compiled", process.text_of(log))


def link(kit: Kit, made: pathlib.Path, program: pathlib.Path) -> None:
    with open(made.with_name("linked"), "w+b") as log:
        if not kit.link(program, made, log):
            raise Failure("the program was not linked", process.text_of(log))
    ran = subprocess.run([program], stdin=subprocess.DEVNULL, capture_output=True, timeout=SECONDS, check=False)
    if (ran.stdout, ran.returncode) != (ANSWER, STATUS):
        raise Failure("the program that was built does not answer")


def build(kit: Kit, total: str, progress: Progress) -> bool:
    """Builds the program and keeps it. Whether this kit lets it be kept."""
    with tempfile.TemporaryDirectory(dir=KEPT) as folder:
        room = pathlib.Path(folder)
        code, made, program = room / "sweet.bc", room / "sweet.o", room / "sweet"
        progress.begin("the sources become bitcode")
        if not bitcode.make(kit, CRATE, room, code, progress.heed):
            return False
        progress.begin("the bitcode is compiled")
        compile_bitcode(kit, code, made, progress)
        progress.begin("it is linked, and asked for an answer")
        link(kit, made, program)
        if sum_of_sources(kit) != total:
            raise Failure("a source was changed while it was read")
        program.replace(PROGRAM)
        (room / "sum").write_text(total, encoding="ascii")
        (room / "sum").replace(KEPT / "sum")
    return True
