"""Names, files and moments that `sweet-c` has to stand, each in a folder of its own, called as a user calls it."""

import collections.abc
import dataclasses
import os
import pathlib
import signal
import subprocess
import sys
import tempfile
import time

TOP = pathlib.Path(__file__).resolve().parent.parent.parent
SECONDS, LEAVING = 120, 5
PLAIN = "int main(void) { return 3; }\n"
NAMES = ("@w.c", "-x.c", "-", "--root=f", "a b.c", 'a"b\\c\nd.c', "$(touch ran).c", "; touch ran #.c", "a'b.c",
         "größe.c", "b\udcff.c", "w.s", "w.o", "w", "*.c", "%s%n.c", "a=b.c", "sub/@w.c", "sub/-x.c", "@sub/w.c",
         "a=b/w.c", "./w.c")
# What `@w.c` would be to a compiler that takes it for a file of options.
OPTIONS = "-wrapper ./evil.sh -o pwned.c -fplugin=./evil.sh w.c"
EVIL = "#!/bin/sh\ntouch ran\n"


@dataclasses.dataclass(frozen=True)
class Ended:
    """How a call ended: its status, what it said, and the files that are there."""

    status: int
    said: str
    files: dict[str, bytes]


@dataclasses.dataclass(frozen=True)
class Case:
    """Files by their names, the words of a call, the status that is due, and a part of what is due to be said."""

    name: str
    files: dict[str, str | bytes]
    words: list[str]
    status: int
    says: str = ""
    makes: bool = False
    seconds: int = SECONDS


def terms(number: int) -> str:
    return "int x;\nint main(void) {\n    return x" + "\n        + x" * number + ";\n}\n"


def sums(number: int) -> str:
    """Macros of four sums each, one in the other."""
    rows = ["#define A0 1", *(f"#define A{i + 1} A{i} + A{i} + A{i} + A{i}" for i in range(number))]
    return "\n".join([*rows, f"int main(void) {{ return A{number}; }}", ""])


def chain(number: int) -> str:
    """So many functions, each of which calls the one before."""
    rows = ["void f0(void) { }", *(f"void f{i}(void) {{ f{i - 1}(); }}" for i in range(1, number))]
    return "\n".join([*rows, f"int main(void) {{ f{number - 1}(); return 3; }}", ""])


def refused(name: str, text: str | bytes, says: str) -> Case:
    return Case(name, {"in.c": text}, ["in.c", "-o", "out.c"], 1, says)


OUTSIDE, DEEP = "outside of the profile:", "expressions and statements nested deeper than 500"
REFUSED = [
    refused("a sum of 5,000 terms", terms(5000), f"in.c:3: {OUTSIDE} {DEEP}"),
    refused("5,000 signs", f"int x; int main(void) {{\n return {'- ' * 5000} x; }}", f"in.c:2: {OUTSIDE} {DEEP}"),
    refused("5,000 brackets", f"int main(void) {{\n return {'(' * 5000}1{')' * 5000}; }}", f"in.c:2: {OUTSIDE} "),
    refused("400 loops", f"int x; int main(void) {{\n {'for (;;) ' * 400} x++; }}", f"in.c:2: {OUTSIDE}"),
    refused("3,000 arms", "int x; int main(void) {\n" + "if (x)\nx++; else " * 3000 + "; }", f": {OUTSIDE} {DEEP}"),
    refused("a file that includes itself twice", '#include "in.c"\n' * 2, "the preprocessor refuses in.c:"),
    refused("macros of 13 sums", sums(13), "has more than 1,048,576 bytes"),
    refused("a device that is included", '#include "/dev/zero"\n' + PLAIN, "in.c"),
    refused("a file that is none of UTF-8", PLAIN.encode() + b"int x\xff\xfe;\n", f"in.c:2: {OUTSIDE} a name with"),
    refused("a long file", b" " * 2_000_000, "in.c has more than 1,048,576 bytes"),
    refused("an empty file", "", "there is no function main"),
    refused("an expression that is none", "int main(void) {\n return\n ; ) }", "is not read as C99: in.c:3:"),
    refused("a sign that is none", "int main(void) {\n return @; }", "is not read as C99: in.c:2:"),
    refused("a file that ends early", "int main(void) {\n return 1;\n", "is not read as C99: in.c:"),
    refused("a bracket too many", "int main(void) {\n return 1; } }\n", "is not read as C99: in.c:2"),
    refused("an escape that a string follows", 'int main(void) {\n return sizeof "\\x1" "2"; }', f"in.c:2: {OUTSIDE}"),
    refused("257 functions", chain(257),
            f"in.c:257: {OUTSIDE} more than 256 functions: 258"),
    refused("what is too long for sweet", "int x; int main(void) {" + "{" * 28 + "\nx++;" * 8500 + "}" * 29,
            "out.c is not written: it would have"),
]
FILES = [
    Case("CRLF and a mark of UTF-8", {"in.c": b"\xef\xbb\xbf" + PLAIN.replace(" ", "\r\n").encode()},
         ["in.c", "-o", "out.c"], 0, makes=True),
    Case("a sum of 300 terms", {"in.c": terms(300)}, ["in.c", "-o", "out.c"], 0, makes=True),
    Case("no file", {}, ["in.c", "-o", "out.c"], 1, "there is no file in.c"),
    Case("a folder", {}, [".", "-o", "out.c"], 1, ". is not read: "),
    Case("a device", {}, ["/dev/zero", "-o", "out.c"], 1, "/dev/zero is no regular file"),
    Case("OUT.c is IN.c", {"in.c": PLAIN}, ["in.c", "-o", "./in.c"], 1, "./in.c is not written: it is in.c, which was"),
    Case("OUT.c in no folder", {"in.c": PLAIN}, ["in.c", "-o", "no/out.c"], 1, "no/out.c is not written: "),
    Case("OUT.c is a folder", {"in.c": PLAIN}, ["in.c", "-o", "."], 1, ". is not written: "),
    Case("OUT.c on a full disk", {"in.c": PLAIN}, ["in.c", "-o", "/dev/full"], 1, "/dev/full is not written: "),
    Case("OUT.c is included", {"in.c": '#include "in.h"\n' + PLAIN, "in.h": "int x;\n"}, ["in.c", "-o", "in.h"], 1,
         "in.h is not written: it is in.h, which was read"),
    Case("OUT.c has the ranges", {"in.c": PLAIN, "r": ""}, ["in.c", "-o", "r", "--inputs", "r", "--try"], 1, "r is"),
    Case("no words", {}, [], 2, "usage: sweet-c"),
]
ROW = "[[input]]\nframe = '{}'\noffset = {}\nsize = {}\nlow = 0\nhigh = 1\n"
RANGES = [
    Case(f"ranges: {text[:40]!r}", {"in.c": "int x; int main(void) { return x; }\n", "r": text},
         ["in.c", "-o", "out.c", "--inputs", "r", "--try"], 1, says)
    for text, says in (
        (b"\xff", "r is no file of ranges: "), ("input = 1", "r is no file of ranges: "),
        ("[", "r is no file of ranges: "), ("x = " + "[" * 5000, "r is no file of ranges: "),
        ("[[input]]\nframe = 'x'", "entry 1 has other keys"), (ROW.format("x", 0, "'8'"), "size is of another kind"),
        (ROW.format("x", 8, 8), "x of the ranges has no cell at byte 8"),
        (ROW.format("y", 0, 8), "y of the ranges is no global of the program"))
]


def words_of(*words: str) -> list[str]:
    return [sys.executable, str(TOP / "sweet-c"), *words]


def bytes_of(text: str | bytes) -> bytes:
    return text if isinstance(text, bytes) else text.encode()


def laid_out(files: dict[str, str | bytes], folder: pathlib.Path) -> None:
    for name, text in files.items():
        path = folder / name
        path.parent.mkdir(parents=True, exist_ok=True)
        path.write_bytes(bytes_of(text))


def called(words: list[str], folder: pathlib.Path, temporary: pathlib.Path, seconds: float) -> Ended:
    ran = subprocess.run(words_of(*words), cwd=folder, stdin=subprocess.DEVNULL, capture_output=True, timeout=seconds,
                         env={**os.environ, "TMPDIR": str(temporary)})
    files = {str(it.relative_to(folder)): it.read_bytes() for it in folder.rglob("*") if it.is_file()}
    return Ended(ran.returncode, (ran.stdout + ran.stderr).decode("utf-8", "replace"), files)


def left(temporary: pathlib.Path) -> str:
    found = [it.name for it in temporary.iterdir()]
    return f"there is left in the temporary folder: {found}" if found else ""


def fault_of(case: Case, room: pathlib.Path) -> str:
    """What is wrong with the end of a call, or nothing."""
    with tempfile.TemporaryDirectory(dir=room) as folder, tempfile.TemporaryDirectory(dir=room) as temporary:
        laid_out(case.files, pathlib.Path(folder))
        before = {str(pathlib.Path(name)): bytes_of(it) for name, it in case.files.items()}
        found = called(case.words, pathlib.Path(folder), pathlib.Path(temporary), case.seconds)
        made = {name: it for name, it in found.files.items() if before.get(name) != it}
        if found.status != case.status or case.says not in found.said or "Traceback" in found.said:
            return f"status {found.status} and {found.said[-300:]!r}, where {case.status} and {case.says!r} are due"
        wanted = ["out.c"] if case.makes else []
        # A trial comes after OUT.c is written.
        if sorted(it for it in made if it != "out.c" or "--try" not in case.words) != wanted:
            return f"it has made {sorted(made)}"
        return left(pathlib.Path(temporary))


def name_case(name: str) -> Case:
    """A program under a name that a compiler or a shell could take for something else."""
    files = {name: PLAIN, "evil.sh": EVIL}
    if "w.c" in name:
        files |= {str(pathlib.Path(name).parent / "w.c"): OPTIONS, "w.c": OPTIONS} if name.endswith("@w.c") else {}
    return Case(f"a file {name!r}", files, ["-o", "out.c", "--", name], 0, makes=True)


def links(room: pathlib.Path) -> collections.abc.Iterator[tuple[str, str]]:
    """OUT.c is IN.c by a link."""
    for kind, link in (("symbolic", os.symlink), ("hard", os.link)):
        for words in (["in.c", "-o", "link.c"], ["link.c", "-o", "in.c"]):
            with tempfile.TemporaryDirectory(dir=room) as folder, tempfile.TemporaryDirectory(dir=room) as temporary:
                laid_out({"in.c": PLAIN}, pathlib.Path(folder))
                link(pathlib.Path(folder, "in.c"), pathlib.Path(folder, "link.c"))
                found = called(words, pathlib.Path(folder), pathlib.Path(temporary), SECONDS)
                is_well = found.status == 1 and set(found.files.values()) == {PLAIN.encode()}
                yield f"{' '.join(words)} by a {kind} link", "" if is_well else f"status {found.status}, {found.said}"


def pipes(room: pathlib.Path) -> collections.abc.Iterator[tuple[str, str]]:
    """A FIFO as IN.c, and one that it includes, of which nobody is at the other end."""
    for text, words, says in (("", ["pipe", "-o", "out.c"], "pipe is no regular file"),
                              ('#include "pipe"\n', ["in.c", "-o", "out.c"], "has no end in 10 seconds")):
        with tempfile.TemporaryDirectory(dir=room) as folder, tempfile.TemporaryDirectory(dir=room) as temporary:
            laid_out({"in.c": text}, pathlib.Path(folder))
            os.mkfifo(pathlib.Path(folder, "pipe"))
            found = called(words, pathlib.Path(folder), pathlib.Path(temporary), SECONDS)
            is_well = found.status == 1 and says in found.said
            yield f"a pipe: {' '.join(words)}", left(pathlib.Path(temporary)) if is_well else found.said


def stopped(number: signal.Signals, room: pathlib.Path) -> str:
    """What is wrong with a call that a signal ends while the preprocessor is at work, or nothing."""
    with tempfile.TemporaryDirectory(dir=room) as folder, tempfile.TemporaryDirectory(dir=room) as temporary:
        laid_out({"in.c": '#include "pipe"\n'}, pathlib.Path(folder))
        os.mkfifo(pathlib.Path(folder, "pipe"))
        # A caller in the background may ignore the signal, and so would what it calls.
        begun = subprocess.Popen(words_of("in.c", "-o", "out.c"), cwd=folder, stderr=subprocess.PIPE,
                                 env={**os.environ, "TMPDIR": temporary},
                                 preexec_fn=lambda: signal.signal(number, signal.SIG_DFL))
        while begun.poll() is None and not working(temporary):
            time.sleep(0.02)
        begun.send_signal(number)
        said = begun.communicate(timeout=SECONDS)[1].decode()
        if begun.returncode != 128 + number or said != f"sweet-c: ended by {number.name}\n":
            return f"status {begun.returncode}: {said}"
        # One that was ended may wait for the processor to go; one that goes on waits for the pipe for ever.
        end = time.monotonic() + LEAVING
        while working(temporary) and time.monotonic() < end:
            time.sleep(0.05)
        late = working(temporary)
        return f"a child goes on: {late[:200]}" if late else left(pathlib.Path(temporary))


def stopped_trial(room: pathlib.Path) -> str:
    """What is wrong with a call that is ended while the compiler is at work on a trial, or nothing: a compiler that is
    ended leaves files of its own."""
    text = "int x; int main(void) {" + "\nif (x & 1) x++; else x = x * 3;" * 600 + " return x; }"
    with tempfile.TemporaryDirectory(dir=room) as folder, tempfile.TemporaryDirectory(dir=room) as temporary:
        laid_out({"in.c": text}, pathlib.Path(folder))
        begun = subprocess.Popen(words_of("in.c", "-o", "out.c", "--try"), cwd=folder, stderr=subprocess.DEVNULL,
                                 env={**os.environ, "TMPDIR": temporary})
        while begun.poll() is None and not any(pathlib.Path(temporary).rglob("cc*.[so]")):
            time.sleep(0.01)
        begun.send_signal(signal.SIGTERM)
        status = begun.wait(SECONDS)
        return left(pathlib.Path(temporary)) if status == 128 + signal.SIGTERM else f"status {status}"


def working(folder: str) -> str:
    """A process of a compiler that has a folder among its words, if there is one."""
    for it in pathlib.Path("/proc").glob("[0-9]*/cmdline"):
        try:
            words = it.read_bytes()
        except OSError:
            continue
        if b"cc1" in words.split(b"\0")[0] and folder.encode() in words:
            return words.replace(b"\0", b" ").decode("utf-8", "replace")
    return ""


def unread(room: pathlib.Path) -> str:
    """What is wrong with the status where nobody can read what is said, or nothing."""
    with tempfile.TemporaryDirectory(dir=room) as folder:
        laid_out({"in.c": "int main(void) { return f(); }"}, pathlib.Path(folder))
        with open("/dev/full", "wb") as full:
            ran = subprocess.run(words_of("in.c", "-o", "out.c"), cwd=folder, stderr=full, timeout=SECONDS)
        return "" if ran.returncode == 1 else f"status {ran.returncode}"


def last_resorts(room: pathlib.Path) -> collections.abc.Iterator[tuple[str, str]]:
    """A fault of our own, and want of memory, are told in one sentence."""
    for raised, says in (("KeyError(1)", "a fault of sweet-c itself"), ("MemoryError()", "memory ran out")):
        code = f"import in_profile.command as it\ndef bad(*_): raise {raised}\nit.written_from = bad\n"
        code += "raise SystemExit(it.main(['in.c', '-o', 'out.c']))"
        with tempfile.TemporaryDirectory(dir=room) as folder:
            laid_out({"in.c": PLAIN}, pathlib.Path(folder))
            ran = subprocess.run([sys.executable, "-B", "-c", code], cwd=folder, capture_output=True, text=True,
                                 env={**os.environ, "PYTHONPATH": str(TOP / "tools")}, timeout=SECONDS)
            is_well = ran.returncode == 70 and ran.stderr.startswith(f"sweet-c: {says}") and ran.stderr.count("\n") == 1
            yield f"the last resort for {raised}", "" if is_well else f"status {ran.returncode}: {ran.stderr}"


def checks(room: pathlib.Path) -> collections.abc.Iterator[tuple[str, str]]:
    """The name of each thing that is held, and what is wrong with it."""
    for case in [*REFUSED, *FILES, *RANGES, *map(name_case, NAMES)]:
        yield case.name, fault_of(case, room)
    yield from links(room)
    yield from pipes(room)
    for number in (signal.SIGTERM, signal.SIGINT, signal.SIGHUP):
        yield f"ended by {number.name}", stopped(number, room)
    yield "ended by SIGTERM in a trial", stopped_trial(room)
    yield "standard error on a full disk", unread(room)
    yield from last_resorts(room)
