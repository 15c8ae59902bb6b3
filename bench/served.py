"""A program that answers many lists of words in one process, for the scripts beside this file."""

import collections
import os
import pathlib
import shutil
import signal
import struct
import subprocess
import tempfile

from program import built

SOURCE = pathlib.Path(__file__).resolve().parent / "serve.c"
HEAD = struct.Struct("=6I")
# status: that of the program, or 256 and the number of the signal that ended it; seconds: of the processor.
Answer = collections.namedtuple("Answer", "status seconds kilobytes written errors text")
# The status of a call that was ended since it took too long, by the processor or by the clock.
ENDED = (256 + signal.SIGPROF, 256 + signal.SIGALRM)


class Served:
    """The program `sweet`, and a folder in memory in which it runs and which has the files that it is told.

    A call that takes more seconds of the processor than these, or sixty times as many by the clock, is ended.
    """

    def __init__(self, seconds):
        self.room = pathlib.Path(tempfile.mkdtemp(prefix="served-", dir="/dev/shm"))
        self.library = self.room / "serve.so"
        subprocess.run(["cc", "-O1", "-fPIC", "-shared", "-o", self.library, SOURCE, "-ldl"], check=True)
        self.own = {**os.environ, "LD_PRELOAD": str(self.library), "SERVE_SECONDS": str(seconds)}
        # a process for each number of words
        self.processes = {}

    def __enter__(self):
        return self

    def __exit__(self, *_):
        for it in self.processes.values():
            it.stdin.close()
            it.wait()
        shutil.rmtree(self.room)

    def has(self, name, text):
        """Puts a file into the folder."""
        with open(f"{self.room}/{name}", "wb", buffering=0) as file:
            file.write(text)

    def process(self, count):
        if count not in self.processes:
            how = {"stdin": subprocess.PIPE, "stdout": subprocess.PIPE, "cwd": self.room, "env": self.own, "process_group": 0}
            self.processes[count] = subprocess.Popen([built("sweet"), *[""] * count], **how)
        return self.processes[count]

    def answer(self, words):
        """What the program answers to these words, each of them bytes without a zero."""
        process, line = self.process(len(words)), b"".join(it + b"\0" for it in words)
        process.stdin.write(struct.pack("=I", len(line)) + line)
        process.stdin.flush()
        status, micros, kilobytes, written, told, errors = HEAD.unpack(process.stdout.read(HEAD.size))
        return Answer(status, micros / 1e6, kilobytes, written, errors, process.stdout.read(told))
