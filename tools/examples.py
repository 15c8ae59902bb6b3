"""The programs of examples/ and examples/wcet: how each is analysed, and what sweet-c makes of it."""

import pathlib
import shutil
import subprocess

TOP = pathlib.Path(__file__).resolve().parent.parent
# The programs whose loops have a bound where paths are kept apart as long as a loop lasts.
AT_EXITS = {"binary_search", "find"}


def options_of(path: pathlib.Path) -> list[str]:
    """The options of `analyse` for the program of this path: its inputs, if it has some, and how paths are merged."""
    ranges = path.with_suffix(".toml")
    words = ["--inputs", str(ranges)] if ranges.is_file() else []
    return [*words, "--merge", "exits"] if path.stem in AT_EXITS else words


def lacking() -> str:
    """What sweet-c needs and this machine does not have."""
    try:
        import pycparser  # noqa: F401
    except ImportError:
        return "python3-pycparser"
    return "" if shutil.which("cc") else "cc"


def written(path: pathlib.Path, folder: pathlib.Path) -> pathlib.Path | None:
    """What sweet-c makes of a file."""
    out = folder / f"{path.stem}_out.c"
    words = [TOP / "sweet-c", path, "-o", out]
    return None if subprocess.run(words, stdin=subprocess.DEVNULL, stderr=subprocess.DEVNULL).returncode else out
