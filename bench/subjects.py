"""Subjects of the scripts beside this file: a call of the program with its files, and what it takes."""

import pathlib
import subprocess
import tempfile

from program import built

LONGEST = 600


class Subject:
    """A call with its files, each a text or made of the room by a function. `FILE` in the call is the program.

    What is due is a part of the first line where the call is refused, and status 0 otherwise.
    """

    def __init__(self, name, files, call, due=""):
        file = next((it for it in files if it.startswith("p.")), "")
        self.name, self.files, self.due = name, files, due
        self.call = [file if it == "FILE" else it for it in call]


def told(room, *words):
    """What the program writes in this room."""
    ran = subprocess.run([built("sweet"), *words], cwd=room, stdin=subprocess.DEVNULL, stdout=subprocess.PIPE, check=False)
    return ran.stdout.decode("ascii")


def put(room, made):
    """Puts the files into the room: first the texts, and then those that the program makes of them."""
    for name, text in sorted(made.items(), key=lambda it: callable(it[1])):
        pathlib.Path(room, name).write_text(text(room) if callable(text) else text, encoding="ascii")


def measured(words, room):
    """The status, the first line, the seconds of the processor and the peak memory in bytes of a run.

    It is begun by `time`, since the peak of a process counts what began it, and here that holds the texts.
    """
    with tempfile.NamedTemporaryFile(mode="r") as took:
        limit = ["bash", "-c", f'ulimit -t {LONGEST}; exec "$@"', ""]
        begun = subprocess.Popen([*limit, "/usr/bin/time", "-o", took.name, "-f", "%U %S %M", *words], cwd=room,
                                 stdin=subprocess.DEVNULL, stdout=subprocess.PIPE, stderr=subprocess.DEVNULL)
        first = begun.stdout.read(200).split(b"\n")[0]
        while begun.stdout.read(1 << 20):
            pass
        status = begun.wait()
        user, system, memory = took.read().splitlines()[-1].split()
    return status, first.decode(), float(user) + float(system), int(memory) * 1024


def is_due(subject, status, line):
    return subject.due in line and status in ((2, 4) if subject.due else (0,))


def show(group, subject):
    """Measures a subject and prints what it takes. Whether it answered what is due."""
    with tempfile.TemporaryDirectory(prefix="dearest-") as room:
        put(room, subject.files)
        status, line, seconds, memory = measured([built("sweet"), *subject.call], room)
        size = sum(it.stat().st_size for it in pathlib.Path(room).iterdir())
    # of small files it is not the length that takes memory
    times = f"{memory / size:6.2f} times the files" if size > 1 << 19 else ""
    known = is_due(subject, status, line)
    print(f"{group:12} {subject.name:48} {seconds:8.2f} s {memory / 2**20:7.0f} MB {times:23} status {status} {line[:40]}"
          + "  NOT DUE" * (not known), flush=True)
    return known


def show_all(makers, words):
    """Shows the subjects of these makers, of which the words may name a part to make and some alone. The status of a script."""
    part = int(words.pop(0)) if words and words[0].isdigit() else 1
    found = [show(name, it) for name in words or makers for it in makers[name](part)]
    return 0 if all(found) else 1
