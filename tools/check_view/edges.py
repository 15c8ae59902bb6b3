"""What `./sweet-view` must do at its edges: what it reads and writes over, what it tells, and its status."""

import collections.abc
import contextlib
import dataclasses
import os
import pathlib
import signal
import stat
import subprocess
import sys
import time

from in_profile.head import with_head
from view.html_page import BEGIN
from view.program import TOP

VIEWER = [sys.executable, str(TOP / "sweet-view")]
PROGRAM = "int main(void) { return 0; }\n"
OUT = b"/* 2 */ int main(void) {\n    /* 3 */ return 0;\n}\n"
# As `sweet-c` writes an `exit`, with a division of the program's own beside it, or in place of it.
ENDING = """int sweet_none, n;
void sw_exit_4(int status)
{{
    {0};
}}
int main(void)
{{
    if (n > 3)
        sw_exit_4(n);
    return 7 / n;
}}
"""
ANY = '[[input]]\nframe = "n"\noffset = 0\nsize = 32\nlow = 0\nhigh = 9\n'
ENDINGS = {"sweet_none = 7 / sweet_none": (1, 1), "status = 7 / sweet_none": (0, 2),
           "sweet_none = 8 / sweet_none": (0, 2)}
GIVEN = b"/* as it was written */\nint main(void) {\n    return 0;\n}\n"
SECONDS = 120


@dataclasses.dataclass(frozen=True, slots=True)
class Ran:
    """What a call printed, and its status."""

    status: int
    out: bytes
    told: str


class Edges:
    """A folder with a program, and the faults."""

    def __init__(self, room: pathlib.Path) -> None:
        self.room, self.faults, self.calls = room, [], 0
        (room / "x.c").write_text(PROGRAM, encoding="ascii")

    def call(self, *words: str | bytes, **given: object) -> Ran:
        self.calls += 1
        given = {"stdout": subprocess.PIPE, "stderr": subprocess.PIPE, "stdin": subprocess.DEVNULL, **given}
        ran = subprocess.run([*VIEWER, *words], cwd=self.room, timeout=SECONDS, **given)
        return Ran(ran.returncode, ran.stdout or b"", ran.stderr.decode("utf-8", "backslashreplace"))

    def want(self, what: str, ran: Ran, status: int, *words: str) -> None:
        """The status is this, and standard error has one line with these words, or none."""
        lines = ran.told.splitlines()
        is_told = len(lines) == 1 and lines[0].startswith("sweet-view: ") if status else not lines
        if ran.status != status or not is_told or not all(it in ran.told for it in words):
            self.faults.append(f"{what}: status {ran.status}, and on standard error {ran.told!r}")

    def hold(self, what: str, is_so: bool) -> None:
        self.faults += [] if is_so else [what]

    # -- what is told of alarms

    def ends(self) -> None:
        """A division that stands for `exit` is told so, and any other as one, by whatever name its function has."""
        (self.room / "ending.toml").write_text(ANY, encoding="ascii")
        for text, wanted in ENDINGS.items():
            (self.room / "ending.c").write_text(ENDING.format(text), encoding="ascii")
            ran = self.call("--text", "ending.c", "--inputs", "ending.toml")
            found = tuple(ran.out.decode().count(it) for it in ("may end here by exit", "may divide by 0"))
            self.hold(f"of {text!r} as an exit {found} alarms are told, and {wanted} are due", found == wanted)

    # -- what is written over

    def pages(self) -> None:
        page = self.room / "x.html"
        self.want("a page", self.call("x.c"), 0)
        self.hold("a page begins otherwise", page.read_text("utf-8").startswith(BEGIN))
        page.chmod(0o640)
        page.write_text(BEGIN + "of another time", encoding="ascii")
        self.want("a page over a page", self.call("x.c"), 0)
        self.hold("a page was not renewed", page.stat().st_size > 1000 and stat.S_IMODE(page.stat().st_mode) == 0o640)
        for text in ("", "mine", f" {BEGIN}", BEGIN[:-1], BEGIN.replace("sweet-view", "other")):
            page.write_text(text, encoding="ascii")
            self.want("over a file", self.call("x.c"), 2, "x.html", "-o")
            self.want("over a file that -o names", self.call("x.c", "-o", "x.html"), 2, "x.html", "is no page")
            self.hold("a file was written over", page.read_text("ascii") == text)
        page.unlink()

    def links(self) -> None:
        mine, page = self.room / "mine.html", self.room / "x.html"
        mine.write_text(BEGIN + "mine", encoding="ascii")
        for target in ("mine.html", "nowhere.html"):
            page.symlink_to(target)
            self.want("through a link", self.call("x.c"), 2, "x.html", "symbolic link")
            page.unlink()
        self.hold("a link was followed", mine.read_text("ascii") == BEGIN + "mine")
        self.hold("a link was followed to nowhere", not (self.room / "nowhere.html").exists())
        # Files that the words name, though they are pages, by their names and by links.
        for name in ("mine.html", "hard.html"):
            if name == "hard.html":
                os.link(mine, self.room / name)
            for words in (["mine.html"], ["x.c", "--inputs", "mine.html"], ["x.c", "--costs=mine.html"]):
                self.want("over a file that is read", self.call(*words, "-o", name), 2, name, "the words name")
        self.want("over a folder", self.call("x.c", "-o", "."), 2, "folder")
        self.want("into no folder", self.call("x.c", "-o", "no/x.html"), 2, "no/x.html")
        self.hold("what was read was written over", mine.read_text("ascii") == BEGIN + "mine")

    def streams(self) -> None:
        for out in ("-", "/dev/stdout"):
            ran = self.call("x.c", "-o", out)
            self.want(f"-o {out}", ran, 0)
            self.hold(f"-o {out} gives no page", ran.out.startswith(BEGIN.encode()) and ran.out.endswith(b"</html>\n"))
            with open(self.room / "kept.html", "wb") as file:
                self.want(f"-o {out} to a file", self.call("x.c", "-o", out, stdout=file), 0)
            self.hold(f"-o {out} gives no file", (self.room / "kept.html").read_bytes() == ran.out)
            with open(self.room / "x.c", "ab") as file:
                self.want(f"-o {out} to what is read", self.call("x.c", "-o", out, stdout=file), 2, "the words name")
            self.hold("a program was written over", (self.room / "x.c").read_text("ascii") == PROGRAM)
            with open("/dev/full", "wb") as file:
                self.want(f"-o {out} to a full device", self.call("x.c", "-o", out, stdout=file), 2, "No space")
        for words in (["-o", "/dev/full"], ["-o", "/dev/null/x"]):
            self.want(f"{words}", self.call("x.c", *words), 2, words[1])
        with open("/dev/full", "wb") as file:
            self.want("--text to a full device", self.call("x.c", "--text", stdout=file), 2, "standard output")
        self.want("-o /dev/null", self.call("x.c", "-o", "/dev/null"), 0)

    # -- what is read

    def files(self) -> None:
        os.mkfifo(self.room / "pipe.c")
        (self.room / "zero.c").symlink_to("/dev/zero")
        (self.room / "large.c").write_bytes(b" " * 1_048_577)
        (self.room / "folder.c").mkdir()
        told = {"pipe.c": "regular", "zero.c": "regular", "large.c": "1,048,576", "folder.c": "regular"}
        told |= {"none.c": "No such"}
        for name, words in told.items():
            self.want(f"FILE {name}", self.call(name), 2, name, words)
            self.hold(f"FILE {name} has a page", not (self.room / name).with_suffix(".html").exists())
        self.want("no FILE", self.call("--turns", "5"), 2, "FILE")

    def named_files(self) -> None:
        """What the head of a text names is read where it stands beside the text as it was, and no more is told."""
        folder = self.room / "other"
        folder.mkdir()
        told = set()
        for name, puts in self.names(folder):
            out = self.room / "out.c"
            out.write_bytes(with_head("NAME", GIVEN, OUT).replace(b"NAME", name.encode(), 1))
            with puts(name.rpartition("/")[2]):
                ran = self.call("--text", "out.c")
                shown = ran.out.replace(name.encode(), b"NAME").replace(name.rpartition("/")[2].encode(), b"NAME")
                told.add(shown)
                self.hold(f"the head names {name}, and status {ran.status}", ran.status == 0)
                self.hold(f"the head names {name}, which is shown", b"as it was written" not in shown)
        self.hold(f"the head of a text lets tell files apart: {told}", len(told) == 1)
        self.beside(folder)

    def names(self, folder: pathlib.Path) -> collections.abc.Iterator[tuple[str, object]]:
        """Names for a head, with what is put beside the text under the last part of the name."""
        (folder / "in.c").write_bytes(GIVEN)
        (folder / "large.c").write_bytes(b" " * 1_048_577)
        yield "none.c", self.nothing
        yield "other/in.c", self.nothing
        yield f"{folder}/in.c", self.nothing
        yield "../none.c", self.nothing
        yield "/dev/zero", self.nothing
        yield "/etc/shadow", self.nothing
        yield "none/in.c", self.nothing
        yield "changed.c", lambda name: self.put(name, lambda it: it.write_bytes(GIVEN + b" "))
        yield "pipe_in.c", lambda name: self.put(name, os.mkfifo)
        yield "link.c", lambda name: self.put(name, lambda it: it.symlink_to(folder / "in.c"))
        yield "shadow.c", lambda name: self.put(name, lambda it: it.symlink_to("/etc/shadow"))
        yield "big.c", lambda name: self.put(name, lambda it: it.write_bytes(b" " * 1_048_577))

    @contextlib.contextmanager
    def put(self, name: str, how: collections.abc.Callable[[pathlib.Path], object]) -> collections.abc.Iterator[None]:
        how(self.room / name)
        yield
        (self.room / name).unlink()

    @contextlib.contextmanager
    def nothing(self, _: str) -> collections.abc.Iterator[None]:
        yield

    def beside(self, folder: pathlib.Path) -> None:
        (self.room / "out.c").write_bytes(with_head("far/in.c", GIVEN, OUT))
        ran = self.call("--text", "out.c", "--from", str(folder / "in.c"))
        self.hold("--from does not show the file", ran.status == 0 and b"as it was written" in ran.out)
        self.want("--from without a file", self.call("--text", "out.c", "--from", "none.c"), 2, "none.c")
        (self.room / "in.c").write_bytes(GIVEN)
        self.hold("the file beside the text is not shown", b"as it was written" in self.call("--text", "out.c").out)

    # -- what is told

    def refusals(self) -> None:
        self.want("words that are none", self.call("x.c", "--input", "x"), 1, "fault usage", "status 1")
        (self.room / "refused.c").write_text("int main(void) { return a; }\n", encoding="ascii")
        self.want("a refused program", self.call("refused.c"), 1, "fault 94", "line 1")
        for name in ("a\x1b]0;t\x07.c", "a\nb.c", "a\u202eb.c"):
            ran = self.call(name)
            self.want(f"{name!r}", ran, 2)
            self.hold(f"{name!r} is told as it is", ran.told.strip().isascii() and ran.told.strip().isprintable())
        self.want("bytes that are no UTF-8", self.call(b"\xff.c"), 2, "\\xff")
        self.want("a name that is too long", self.call("x" * 300 + ".c"), 2, "long")
        ran = self.call("x.c", env={**os.environ, "SWEET": "/none/sweet"})
        self.want("no program", ran, 2, "/none/sweet")

    def controls(self) -> None:
        text = "/* \x1b]0;t\x07 \r \x7f \x0c \u0085 \u202e \udc9b */ int main(void) { return 0; }\r\n"
        (self.room / "control.c").write_bytes(text.encode("utf-8", "surrogateescape"))
        out = self.call("--text", "control.c").out.decode("utf-8")
        wanted = r"/* \x1b]0;t\x07 \x0d \x7f \x0c \u0085 \u202e \x9b */ int"
        self.hold(f"--text shows {out!r}", wanted in out and all(it == "\n" or it.isprintable() for it in out))

    def fixed(self) -> None:
        """What a report takes as the program begins with it: what no range names and the program may read."""
        text = (
            "int calls, unused, given; int limit[5] = {-1, 2, 3, 4, 5}; short set; const int one = 1;\n"
            "int twice(int *x) { return *x + *x; }\n"
            "int main(void) { set = 1; if (calls) return one; calls = twice(&given); return limit[given & 1]; }\n"
        )
        (self.room / "fixed.c").write_text(text, encoding="ascii")
        row = '{ frame = "%s", offset = %d, size = 32, low = 0, high = 1, count = %d }'
        rows = {"one": [("given", 0, 1)], "all": [("given", 0, 1), ("calls", 0, 1), ("limit", 0, 5), ("one", 0, 1)]}
        rows["part"] = [*rows["all"][:2], ("limit", 4, 4), ("one", 0, 1)]
        for name, cells in rows.items():
            (self.room / f"{name}.toml").write_text(f"input = [{', '.join(row % it for it in cells)}]\n", encoding="ascii")
        begins = "for one run, whose memory is fixed at the start: "
        first = "calls = 0 (written), limit = {-1, 2, 3, 4, ..}, one = 1\n"
        for inputs, wanted in (("one", begins + first), ("part", begins + "limit = {-1, 2, 3, 4, ..}\n"), ("all", "")):
            ran = self.call("--text", "fixed.c", "--inputs", f"{inputs}.toml")
            out = ran.out.decode("utf-8")
            is_told = wanted in out if wanted else begins not in out
            self.hold(f"fixed, {inputs}: status {ran.status}, {ran.told}{out}", ran.status == 0 and is_told)

    def ended(self) -> None:
        """Ended by a signal while the program is at work: one sentence, and nothing is left."""
        stub, begun = self.room / "slow", self.room / "begun"
        stub.write_text(f"#!/bin/sh\n: >{begun}\nexec sleep 60\n", encoding="ascii")
        stub.chmod(0o755)
        before = sorted(os.listdir(self.room))
        for number in (signal.SIGTERM, signal.SIGINT, signal.SIGHUP):
            given = {"cwd": self.room, "env": {**os.environ, "SWEET": str(stub)}, "stdin": subprocess.DEVNULL}
            given |= {"stdout": subprocess.DEVNULL, "stderr": subprocess.PIPE}
            process = subprocess.Popen([*VIEWER, "x.c"], **given)
            for _ in range(10 * SECONDS):
                if begun.exists():
                    break
                time.sleep(0.1)
            begun.unlink()
            process.send_signal(number)
            told = process.communicate(timeout=SECONDS)[1].decode("ascii")
            self.want(f"ended by {number.name}", Ran(process.returncode, b"", told), 2, number.name)
        self.hold("something is left where it was ended", sorted(os.listdir(self.room)) == before)

    def all(self) -> None:
        self.ends()
        self.fixed()
        for part in (self.pages, self.links, self.streams, self.files, self.named_files, self.refusals, self.controls):
            part()
        self.ended()
        left = [it for it in os.listdir(self.room) if it.startswith(".")]
        self.hold(f"files are left: {left}", not left)
