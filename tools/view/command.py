"""The words of `./sweet-view`."""

import dataclasses
import os
import pathlib
import signal
import sys
import typing

from view import html_page, page_file, terminal
from view.file_view import View, look
from view.given_file import Unreadable
from view.program import program_path
from view.visible import in_line

USAGE = """usage: ./sweet-view [--text] [--own-lines] [--from IN.c] [-o OUT] FILE [words of ./sweet analyse]

Writes the report of `./sweet analyse` on the source of FILE, of C or of ALF, as a page of HTML that needs no network.

  -o OUT   the page goes to OUT, and to standard output where that is -; without it to NAME.html in this folder
  --text   prints the view for a terminal instead
  --own-lines   shows the lines of FILE also where ./sweet-c wrote it; without it those of the file that it came from
  --from IN.c   names the file that ./sweet-c wrote FILE from, where that does not stand beside FILE

The status is 0 where lines are marked, 1 where they are not (the page and standard error tell why), and 2 where there
is no page. No file is written over but a page of sweet-view. The variable SWEET names another program than ./sweet."""


@dataclasses.dataclass(slots=True)
class Options:
    """Whether a text is wanted, whether of the file's own lines, the file that FILE came from, and where the page goes:
    empty where the word stands and nothing behind it."""

    is_text: bool = False
    is_own: bool = False
    origin: str | None = None
    out: str | None = None


class Stopped(BaseException):
    """A signal ends the work."""


def main(words: list[str]) -> int:
    options, rest = options_of(words)
    if not rest or rest[0] in ("-h", "--help") or "" in (options.out, options.origin):
        print(USAGE, file=sys.stdout if rest else sys.stderr)
        return 0 if rest and "" not in (options.out, options.origin) else 2
    for it in (signal.SIGTERM, signal.SIGHUP, signal.SIGINT):
        if signal.getsignal(it) != signal.SIG_IGN:
            signal.signal(it, stop)
    try:
        return show(options, rest)
    except Unreadable as error:
        return fail(str(error))
    except OSError as error:
        return fail(f"{error.filename or program_path()}: {error.strerror}")
    except Stopped as error:
        return fail(f"was ended by {error}")
    except Exception as error:
        return fail(f"has a fault of its own, and made no page: {type(error).__name__} {error}")


def stop(number: int, _: object) -> typing.NoReturn:
    raise Stopped(signal.Signals(number).name)


def options_of(words: list[str]) -> tuple[Options, list[str]]:
    """The options, and the words of `analyse`."""
    options, rest, ahead = Options(), [], iter(words)
    for word in ahead:
        if word == "--text":
            options.is_text = True
        elif word == "--own-lines":
            options.is_own = True
        elif word == "--from":
            options.origin = next(ahead, "")
        elif word == "-o":
            options.out = next(ahead, "")
        elif word == "--":
            rest += [word, *ahead]
        else:
            rest.append(word)
    return options, rest


def show(options: Options, words: list[str]) -> int:
    view = look(words, options.is_own, options.origin)
    if options.is_text:
        print_text(view)
    else:
        write_page(view, options)
    if not view.analysis:
        tell(view.why_not)
    return 0 if view.analysis else 1


def print_text(view: View) -> None:
    if sys.stdout is None:
        raise Unreadable("standard output is closed")
    is_terminal = sys.stdout.isatty()
    text = terminal.text(view, is_terminal and "NO_COLOR" not in os.environ)
    put(text.encode(sys.stdout.encoding, "replace"))


def write_page(view: View, options: Options) -> None:
    out = options.out or pathlib.Path(view.path).stem + ".html"
    page = html_page.page(view).encode("utf-8")
    if page_file.write(page, out, [*view.words, options.origin or ""]):
        # A script reads the name as it is, and who looks at a terminal what nobody sees in it, too.
        is_read = sys.stdout is not None and sys.stdout.isatty()
        put(in_line(out).encode(sys.stdout.encoding, "replace") if is_read else os.fsencode(out))


def put(line: bytes) -> None:
    """A line, or several, on standard output."""
    try:
        if sys.stdout is not None:
            sys.stdout.buffer.write(line + b"\n")
            sys.stdout.buffer.flush()
    except OSError as error:
        raise Unreadable(f"standard output: {error.strerror}") from error


def tell(why: str) -> None:
    """A sentence on standard error."""
    try:
        if sys.stderr is not None:
            print(f"sweet-view: {in_line(why)}", file=sys.stderr, flush=True)
    except OSError:
        pass


def fail(why: str) -> int:
    tell(why)
    # What could not be written is not tried again when the script ends.
    if sys.stdout is not None:
        os.dup2(os.open(os.devnull, os.O_WRONLY), 1)
    return 2
