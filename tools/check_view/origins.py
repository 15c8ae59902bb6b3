"""What the viewer must hold of texts that `sweet-c` wrote: it shows the lines that they came from, and none where a
comment or a checksum does not fit."""

import collections.abc
import hashlib
import pathlib
import random
import re

from in_profile.head import FORM, with_head
from view.file_view import View
from view.origin import Apart, Origin, moved, origin_of
from view.program import call
from view.source import Source, read_c
from view.source_pane import KEYWORDS

# Names that sweet-c makes.
MADE = re.compile(r"sw[0-9]+|sweet_\w+")
# A statement goes on over so many lines at most in the programs that are held.
REACH = 3
Fault = tuple[str, str]


def view_faults(view: View) -> list[str]:
    """What is wrong where the lines of the file are to be shown: each name of a block stands where the block does."""
    if view.origin is None or view.analysis is None:
        return ["the lines of the file are not shown", *view.notes]
    model, rows, faults = view.analysis.model, view.rows, []
    for block in model.blocks.values():
        for token in (model.tokens[it] for it in block.tokens):
            is_name = token.kind == "name" and token.text not in KEYWORDS
            near = "\n".join(rows[token.line : token.line + REACH])
            if is_name and not MADE.fullmatch(token.text) and not re.search(rf"\b{token.text}\b", near):
                faults.append(f"{token.text} does not stand at line {token.line + 1}")
    return faults


def spoilt_faults(out: pathlib.Path, given: pathlib.Path, chance: random.Random) -> list[str]:
    """What is not noticed where a text, or the file that it was written from, is changed; and where that is gone."""
    text = out.read_text(encoding="ascii")
    lowered = call("lower", str(out)).text
    lines = lines_of(out, read_c(text, lowered))
    faults = []
    for what, edited in edits(text, chance):
        try:
            found = lines_of(out, read_c(edited, lowered))
        except Apart:
            continue
        # A declaration without a value is no item.
        if found != lines or what != "a comment left out":
            faults.append(f"{what} is not noticed")
    changes = (lambda: given.write_bytes(given.read_bytes() + b"\n"), given.unlink)
    for what, change in zip(("a file changed", "a file gone"), changes):
        change()
        try:
            lines_of(out, read_c(text, lowered))
            faults.append(f"{what} is not noticed")
        except Apart:
            continue
    return faults


def lines_of(out: pathlib.Path, source: Source) -> list[int]:
    """The lines at which the items of a text are shown."""
    origin = origin_of(str(out), source)
    assert isinstance(origin, Origin)
    tokens = moved(source, origin).tokens
    items = [item for function in source.functions for item in function.items]
    return [tokens[it].line for item in items for it in item.strong or item.weak]


def edits(text: str, chance: random.Random) -> collections.abc.Iterator[Fault]:
    """What was changed in one place, and the text with it. The first ones keep the old checksums."""
    head = FORM.match(text)
    rest = text[head.end() :]
    comments = list(re.finditer(r"/\* ([0-9]+) \*/ ", rest))
    it = chance.choice(comments)
    other = rest[: it.start(1)] + str(int(it[1]) + 1) + rest[it.end(1) :]
    yield "a comment changed", text[: head.end()] + other
    yield "a head without checksums", text[: text.index("\n") + 1] + rest
    yield "another file", text.replace(head["file"], hashlib.sha256(text.encode()).hexdigest())
    for it in chance.sample(comments, 3):
        yield "a comment left out", summed(head["name"], head["file"], rest[: it.start()] + rest[it.end() :])
    it = chance.choice([it for it in comments if "(" in rest[it.end() : rest.index("\n", it.end())]])
    far = rest[: it.start(1)] + "100000" + rest[it.end(1) :]
    yield "a line behind the end of the file", summed(head["name"], head["file"], far)
    named = rest[: it.start(1)] + "other.h:1" + rest[it.end(1) :]
    yield "a line of another file", summed(head["name"], head["file"], named)


def summed(name: str, file: str, rest: str) -> str:
    """A text with its checksums, from a file with this one."""
    made = with_head(name, b"", rest.encode("ascii")).decode("ascii")
    return made.replace(hashlib.sha256(b"").hexdigest(), file, 1)
