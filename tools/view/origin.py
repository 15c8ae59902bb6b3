"""The file that a text of `sweet-c` was written from, and the lines there that its statements come from.

The comments of such a text tell the lines. They are taken where checksums show that both texts are as they were, and
where each statement has its comment: else the lines of the text itself are shown, and a sentence says why.
"""

import dataclasses
import os
import re

from in_profile.head import Head, head_of
from view.c_tokens import Token, shown_tokens
from view.given_file import Unreadable, bytes_of
from view.source import Source
from view.statement_marks import StatementMarks

TOLD = "its own lines are shown, and the comment before a statement tells its line there"
# After such a line others are counted as the line says.
RENUMBERED = re.compile(r"^[ \t]*#[ \t]*(?:line\b|[0-9])", re.M)


@dataclasses.dataclass(frozen=True, slots=True)
class Origin:
    """The file IN.c with its tokens as they are shown, and OUT.c, of which the report is."""

    path: str
    text: str
    tokens: list[Token]
    written: str
    written_text: str


class Apart(Exception):
    """Lines of IN.c are not shown, for the reason told."""


def origin_of(path: str, source: Source, named: str | None = None) -> Origin | None:
    """The origin of a text, where its lines can be shown: the file that is `named`, or else the one beside the text of
    which its head has the name. None where the text has none; `Apart` where they cannot be shown."""
    head = head_of(source.text.encode("utf-8", "surrogateescape"))
    if head is None:
        return None
    name = name_of(head)
    if not head.is_whole:
        is_bare = not head.file
        why = "is by a ./sweet-c that wrote no checksums" if is_bare else "was changed after ./sweet-c wrote it"
        raise Apart(f"{path} {why}, so that its comments need not fit {name}, which it came from.")
    marks = StatementMarks(source)
    if marks.fault:
        raise Apart(f"The comments of {path} do not tell the lines of {name}, which it came from: {marks.fault}.")
    found = named or os.path.join(os.path.dirname(path), name)
    text = named_text(head, found) if named else text_beside(head, path, name)
    lacking = marks.lacking(text.split("\n"))
    if lacking or RENUMBERED.search(text):
        raise Apart(f"The comments of {path} do not fit {found}: {lacking or 'it counts its lines anew'}.")
    return Origin(found, text, shown_tokens(text), path, source.text)


def name_of(head: Head) -> str:
    """The last part of the name that a head has. The rest of it is not looked at: a text that comes from elsewhere
    could name any file."""
    return os.fsdecode(head.name.encode("latin-1").rpartition(b"/")[2])


def text_beside(head: Head, path: str, name: str) -> str:
    """The text of the file that a head names, if it is beside. Why not is not told, since that would tell of files."""
    try:
        given = bytes_of(os.path.join(os.path.dirname(path), name), links=False)
    except Unreadable:
        given = None
    if given is None or not head.is_of(given):
        why = f"came from {name}, which does not stand beside it as it was then (--from names it)"
        raise Apart(f"{path} {why}: {TOLD}.")
    return given.decode("utf-8", "surrogateescape")


def named_text(head: Head, named: str) -> str:
    """The text of the file that the words name."""
    given = bytes_of(named)
    if not head.is_of(given):
        raise Apart(f"{named} is not the file that this text came from, as it was then: {TOLD}.")
    return given.decode("utf-8", "surrogateescape")


def moved(source: Source, origin: Origin) -> Source:
    """The source with its tokens at the lines of the origin, in the first column of code there."""
    marks, rows, tokens = StatementMarks(source), origin.text.split("\n"), []
    for number, token in enumerate(source.tokens):
        line = marks.line_of(number)
        if line:
            row = rows[line - 1]
            token = dataclasses.replace(token, line=line - 1, column=len(row) - len(row.lstrip()))
        tokens.append(token)
    known = {name: it for name, it in source.globals.items() if marks.is_marked(it.token)}
    return dataclasses.replace(source, tokens=tokens, globals=known, is_moved=True)
