"""Inputs files of `sweet-c --ranges`: the rows of each program, in order, and files that are never written over."""

import collections.abc
import pathlib
import subprocess
import tempfile
import tomllib

from .hostile import PLAIN, Case, SECONDS, called, fault_of, laid_out

# A program, its root, and of each row the frame, the bits, the lowest and the highest number, and how many cells.
ROWS = [
    ("int x; static unsigned char s[3]; int main(void) { return x + s[1]; }", "main",
     ["x 32 -2147483648 2147483647 1", "s 8 0 255 3"]),
    ("const int t[2] = {1, 2}; typedef const short cs; cs c = 3; cs d[2]; int main(void) { return t[1] + c + d[0]; }",
     "main", []),
    ("_Bool b; enum e {A, B} m; enum f {C = -1} n; short a[2][3]; int main(void) { return b + m + n + a[0][0]; }",
     "main", ["b 8 0 1 1", "m 32 0 4294967295 1", "n 32 -2147483648 2147483647 1", "a 16 -32768 32767 6"]),
    ("int step(int x, signed char y) { static unsigned short z; z++; return x + y + z; }", "step",
     ["step_z 16 0 65535 1", "step::x 32 -2147483648 2147483647 1", "step::y 8 -128 127 1"]),
    ("int f(int a[], int n) { return a[n]; } int b[2]; int main(void) { return f(b, 1) + (\"ab\"[1] == 'b'); }", "main",
     ["b 32 -2147483648 2147483647 2"]),
    ("extern int e; int e = 3; int a_name_of_more_than_28_bytes_is; int main(void) { if (e) "
     "__builtin_abort(); return a_name_of_more_than_28_bytes_is; }", "main",
     ["e 32 -2147483648 2147483647 1", "a_name_of_more_than_ 32 -2147483648 2147483647 1"]),
]
MADE = ["in.c", "-o", "out.c", "--ranges"]
HELD = [
    Case("--ranges over IN.c", {"in.c": PLAIN}, [*MADE, "./in.c"], 1, "./in.c is not written: there is a file"),
    Case("--ranges over a file", {"in.c": PLAIN, "r": "x"}, [*MADE, "r"], 1, "r is not written: there is a file of"),
    Case("--ranges over a device", {"in.c": PLAIN}, [*MADE, "/dev/null"], 1, "/dev/null is not written: there is a"),
    Case("--ranges in no folder", {"in.c": PLAIN}, [*MADE, "no/r"], 1, "no/r is not written: ", makes=True),
    Case("--ranges of what is refused", {"in.c": "float f; int main(void) { return f; }"}, [*MADE, "r"], 1, "in.c:1: "),
]


def fault_of_rows(text: str, root: str, due: list[str], sweet: str | None, room: pathlib.Path) -> str:
    """What is wrong with the inputs file of a program, or nothing."""
    with tempfile.TemporaryDirectory(dir=room) as folder, tempfile.TemporaryDirectory(dir=room) as temporary:
        at = pathlib.Path(folder)
        laid_out({"in.c": text}, at)
        ran = called([*MADE, "r.toml", "--root", root], at, pathlib.Path(temporary), SECONDS)
        rows = tomllib.loads(ran.files.get("r.toml", b"").decode()).get("input", [])
        found = [f"{it['frame']} {it['size']} {it['low']} {it['high']} {it.get('count', 1)}" for it in rows]
        if ran.status or found != due or any(it["offset"] for it in rows):
            return f"status {ran.status}, rows {found}, where {due} are due: {ran.said}"
        tried = called([*MADE[:3], "--root", root, "--try", "--inputs", "r.toml"], at, pathlib.Path(temporary), SECONDS)
        if tried.status and "differs" not in tried.said:
            return f"--try does not take it: {tried.said}"
        words = [sweet, "analyse", "out.c", "--root", root, "--inputs", "r.toml"]
        ran = subprocess.run(words, cwd=at, capture_output=True, text=True, timeout=SECONDS) if sweet else None
        return f"sweet does not take it: {ran.stdout[:200]}" if ran and ran.returncode else ""


def over_a_link(room: pathlib.Path) -> str:
    """What is wrong where the name is that of a link to nowhere, or nothing: what it names is not made."""
    with tempfile.TemporaryDirectory(dir=room) as folder, tempfile.TemporaryDirectory(dir=room) as temporary:
        at = pathlib.Path(folder)
        laid_out({"in.c": PLAIN}, at)
        (at / "r").symlink_to("made")
        found = called([*MADE, "r"], at, pathlib.Path(temporary), SECONDS)
        return "" if found.status == 1 and set(found.files) == {"in.c"} else f"status {found.status}: {found.said}"


def checks(sweet: str | None, room: pathlib.Path) -> collections.abc.Iterator[tuple[str, str]]:
    """The name of each thing that is held, and what is wrong with it."""
    for text, root, due in ROWS:
        yield f"--ranges: {text}", fault_of_rows(text, root, due, sweet, room)
    for case in HELD:
        yield case.name, fault_of(case, room)
    yield "--ranges over a link", over_a_link(room)
