"""Chromium without a window, driven over two pipes, so that no port is opened. Nothing of it reaches a network."""

import collections.abc
import contextlib
import fcntl
import json
import os
import pathlib
import select
import shutil
import signal
import tempfile
import time
import typing

# Of what the browser tells by itself these are kept.
KEPT = ("Log.entryAdded", "Runtime.exceptionThrown", "Runtime.consoleAPICalled", "Network.requestWillBeSent")
KEPT += ("Page.javascriptDialogOpening", "Page.windowOpen", "Audits.issueAdded", "Page.frameRequestedNavigation")
SECONDS = 180
HIGH = 20


class Silent(Exception):
    """The browser did not answer in time, or ended, or refused what it was told to do."""


def path() -> str | None:
    """Chromium, as Debian has it."""
    return shutil.which("chromium") or shutil.which("chromium-browser")


@contextlib.contextmanager
def started(binary: str) -> collections.abc.Iterator["Browser"]:
    """A browser, with a profile that is removed with it."""
    with tempfile.TemporaryDirectory(ignore_cleanup_errors=True) as profile:
        words = [binary, "--headless", "--remote-debugging-pipe", f"--user-data-dir={profile}", "--disable-gpu"]
        words += ["--no-first-run", "--disable-background-networking", "--disable-component-update", "--disable-sync"]
        words += ["--disable-breakpad", "--disable-crash-reporter"]
        words += ["--disable-dev-shm-usage", "--host-resolver-rules=MAP * ~NOTFOUND", "--window-size=1400,4000"]
        # Root, as in a container, may run it only without its own walls. What it loads here was made here.
        words += ["--no-sandbox"] if os.geteuid() == 0 else []
        # What it leaves behind when it is ended is removed with the profile.
        process, told, heard = spawned(words, {**os.environ, "TMPDIR": profile})
        try:
            yield Browser(told, heard)
        finally:
            for it in (told, heard):
                os.close(it)
            with contextlib.suppress(ProcessLookupError):
                os.killpg(process, signal.SIGKILL)
            os.waitpid(process, 0)


def spawned(words: list[str], variables: dict[str, str]) -> tuple[int, int, int]:
    """A process that reads from its file 3 and writes to its file 4: its number, and the other ends of both."""
    read, told = os.pipe()
    heard, write = os.pipe()
    read, write = (moved(it) for it in (read, write))
    nothing = os.open(os.devnull, os.O_RDWR | os.O_CLOEXEC)
    actions = [(os.POSIX_SPAWN_DUP2, nothing, it) for it in (0, 1, 2)]
    actions += [(os.POSIX_SPAWN_DUP2, read, 3), (os.POSIX_SPAWN_DUP2, write, 4)]
    process = os.posix_spawn(words[0], words, variables, file_actions=actions, setpgroup=0)
    for it in (read, write, nothing):
        os.close(it)
    return process, told, heard


def moved(file: int) -> int:
    """The same file under a number that is out of the way."""
    found = fcntl.fcntl(file, fcntl.F_DUPFD_CLOEXEC, HIGH)
    os.close(file)
    return found


class Browser:
    """One page, and what was heard of it."""

    def __init__(self, told: int, heard: int) -> None:
        self.told, self.heard = told, heard
        self.rest, self.number, self.session = b"", 0, ""
        self.events: list[dict[str, typing.Any]] = []
        target = self.call("Target.createTarget", url="about:blank")["targetId"]
        self.session = self.call("Target.attachToTarget", targetId=target, flatten=True)["sessionId"]
        for it in ("Page", "Runtime", "Log", "Network", "Audits"):
            self.call(f"{it}.enable")
        self.world = 0

    def tell(self, method: str, **given: object) -> int:
        """Tells the browser to do something. The number by which it answers."""
        self.number += 1
        message: dict[str, object] = {"id": self.number, "method": method, "params": given}
        message |= {"sessionId": self.session} if self.session else {}
        rest = json.dumps(message).encode("ascii") + b"\0"
        while rest:
            rest = rest[os.write(self.told, rest) :]
        return self.number

    def answer(self, number: int, method: str) -> dict[str, typing.Any]:
        answer = self.until(lambda it: it.get("id") == number, method)
        if "error" in answer:
            raise Silent(f"{method}: {answer['error'].get('message')}")
        return answer["result"]

    def call(self, method: str, **given: object) -> dict[str, typing.Any]:
        """What the browser answers to a call."""
        return self.answer(self.tell(method, **given), method)

    def until(self, wanted: collections.abc.Callable[[dict], bool], what: str) -> dict[str, typing.Any]:
        """The first message that is wanted. Others are kept if they tell of the page."""
        end = time.monotonic() + SECONDS
        while True:
            while b"\0" in self.rest:
                piece, _, self.rest = self.rest.partition(b"\0")
                message = json.loads(piece)
                if message.get("method") in KEPT:
                    self.events.append(message)
                if wanted(message):
                    return message
            if not select.select([self.heard], [], [], max(0, end - time.monotonic()))[0]:
                raise Silent(f"no answer to {what} in {SECONDS} seconds")
            piece = os.read(self.heard, 1 << 16)
            if not piece:
                raise Silent(f"it ended at {what}")
            self.rest += piece

    def load(self, page: pathlib.Path) -> None:
        self.events = []
        frame = self.call("Page.navigate", url=page.as_uri())["frameId"]
        self.until(lambda it: it.get("method") == "Page.loadEventFired", f"the load of {page.name}")
        # What is asked of the page is asked in a world of its own, where no script of the page comes.
        self.world = self.call("Page.createIsolatedWorld", frameId=frame, worldName="check")["executionContextId"]

    def ask(self, script: str) -> typing.Any:
        """The value of a script over the page's elements."""
        answer = self.call("Runtime.evaluate", expression=script, contextId=self.world, returnByValue=True)
        if "exceptionDetails" in answer:
            raise Silent(answer["exceptionDetails"].get("exception", {}).get("description", script))
        return answer["result"].get("value")

    def use(self, places: list[list[float]], keys: collections.abc.Iterable[str]) -> None:
        """Moves the mouse to places, clicks at two of three, and presses keys. Only what all of it led to is waited
        for: a machine may be busy."""
        told = []
        for number, (x, y) in enumerate(places):
            told.append(self.tell("Input.dispatchMouseEvent", type="mouseMoved", x=x, y=y))
            for kind in ("mousePressed", "mouseReleased") if number % 3 != 2 else ():
                click = {"button": "left", "clickCount": 1}
                told.append(self.tell("Input.dispatchMouseEvent", type=kind, x=x, y=y, **click))
        for key in keys:
            text = {"text": key} if len(key) == 1 else {}
            told.append(self.tell("Input.dispatchKeyEvent", type="keyDown", key=key, **text))
            told.append(self.tell("Input.dispatchKeyEvent", type="keyUp", key=key))
        waiting = set(told)
        while waiting:
            answer = self.until(lambda it: it.get("id") in waiting, "the mouse and keys")
            waiting.discard(answer["id"])
            if "error" in answer:
                raise Silent(f"an event: {answer['error'].get('message')}")
