"""The text of a program after `cc -E`, with the headers of C as far as the profile has them."""

import codecs
import dataclasses
import os
import pathlib
import re
import shutil

from .child import run
from .ending import room
from .files import MOST
from .headers import DEFINED, HEADERS
from .marked import Text, marked
from .parser import lacking
from .pieces import Names, escaped, pieces
from .refusal import Refusal, Told, shown

# Seconds of the preprocessor, and bytes of what it says that are told.
SECONDS, MOST_TOLD = 10, 4000
CAME = re.compile(r"In file included from |  +from ")


@dataclasses.dataclass(frozen=True)
class Surroundings:
    """What stands around a file: folders of headers, and names with their texts, as the words of a call have them."""

    folders: tuple[str, ...] = ()
    names: tuple[str, ...] = ()

    def hold(self) -> None:
        """Sees that the folders are there."""
        for it in self.folders:
            if not os.path.isdir(it):
                raise Refusal(f"there is no folder {shown(it)}")


def preprocessed(name: str, data: bytes, around: Surroundings = Surroundings(), told: dict | None = None) -> Text:
    """The text of a file with these bytes after the preprocessor, with lines that tell where each piece comes from.

    The name is told to the preprocessor in a line of the text: among its words it could be taken for an option, also
    behind its folder, since the compiler is called by its last part. Names of files as they are told already stand in
    `told`.
    """
    if not shutil.which("cc"):
        raise lacking("the preprocessor `cc -E`", "gcc")
    names = Names(folders_of(name, around), told)
    given = b'# 1 "%s"\n%s' % (escaped(name), data.removeprefix(codecs.BOM_UTF8))
    with room() as folder:
        for header, text in HEADERS.items():
            (folder / header).write_text(text, encoding="ascii")
        # What stands in quotes is looked for here first.
        (folder / "empty").mkdir()
        ran = run(words_of(folder, names, around), SECONDS, given, MOST + 1, folder / "empty", folder)
    text = ran.out.decode("latin-1")
    if ran.status is None:
        raise Refusal(at_end(text, name, names, f"the preprocessor has no end in {SECONDS} seconds"))
    if len(ran.out) > MOST:
        raise Refusal(at_end(text, name, names, f"the text after the preprocessor has more than {MOST:,} bytes"))
    if ran.status:
        raise Refusal(f"the preprocessor refuses {shown(name)}:\n{names.shortened(complaint(ran.err))}")
    return marked(text, name, names)


def folders_of(name: str, around: Surroundings) -> list[tuple[str, str]]:
    """The folder that the file is in, and those of headers, each as a whole path and as it is told.

    The compiler has the whole paths, and none of them is taken for an option."""
    given = [name[: name.rfind("/") + 1], *(f"{it.rstrip('/')}/" for it in around.folders)]
    return [(os.path.join(os.getcwd(), it), it) for it in given]


def words_of(folder: pathlib.Path, names: Names, around: Surroundings) -> list[str]:
    (beside, _), *others = names.folders
    words = ["cc", "-E", "-w", "-std=gnu99", "-nostdinc", "-undef", "-iquote", beside, *(f"-I{it}" for it, _ in others),
             f"-I{folder}", *DEFINED, *(f"-D{it}" for it in around.names)]
    # Of a folder with this sign the compiler would take a part.
    words += [f"-fmacro-prefix-map={it}={told}" for it, told in names.folders if "=" not in it]
    return [*words, "-x", "c", "-"]


def at_end(text: str, name: str, names: Names, what: str) -> Told:
    """What is told of a text that has no end, at the place that it came to."""
    *_, last = [None, *pieces(text[:MOST], names, name)]
    return Told(last.file, last.line, what) if last else Told(shown(name), 0, what)


def complaint(err: bytes) -> str:
    """What a compiler says, without the ways of files to one another, and without bytes that a terminal would obey."""
    lines = [it for it in err.decode("utf-8", "replace").splitlines() if it and not CAME.match(it)]
    return "\n".join("".join(it if it.isprintable() else "_" for it in line) for line in lines)[:MOST_TOLD]
