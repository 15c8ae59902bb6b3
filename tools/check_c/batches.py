"""Programs before and after `sweet-c`, many of them compiled as one."""

import pathlib
import re

from in_profile.library import texts
from in_profile.marked import marked
from in_profile.parser import parsed
from in_profile.preprocessor import preprocessed
from in_profile.program import Program
from in_profile.refusal import Refusal, Told, outside
from in_profile.trial import SHAPE, built, difference, is_same, outcomes, tail

WORDS = set("""auto break case char const continue default do double else enum extern float for goto if inline int long
register restrict return short signed sizeof static struct switch typedef union unsigned void volatile while _Bool abort
exit _exit __builtin_abort __builtin_trap _Alignas
_Static_assert""".split())
# Strings, characters, comments, names and numbers.
PIECES = re.compile(
    r"""("(?:[^"\\\n]|\\.)*"|'(?:[^'\\\n]|\\.)*'"""
    r"""|/\*.*?\*/|\b[A-Za-z_]\w*|\b[0-9][\w.]*)""",
    re.S,
)


class Rewritten:
    """A program of a text: what `sweet-c` makes of it, and what it says against it."""

    def __init__(self, text, room):
        given = pathlib.Path(room, "given.c")
        given.write_text(text, encoding="utf-8")
        is_plain = not re.search(r"#|//|/\*|__|\\\n|\b(inline|restrict|register|_Pragma)\b", text)
        self.source, self.made, found = "", "", []
        try:
            data = text.encode()
            source = marked(data.decode("latin-1"), str(given)) if is_plain else preprocessed(str(given), data)
            self.source, found = source.text, list(source.reasons)
            self.program = Program(parsed(self.source, str(given)), str(given))
            self.made = self.program.written()
            self.source = texts(self.program.library) + self.source
            found = source.against(self.program.needed.functions)
            found += [outside(*it) for it in self.program.reasons]
            self.notes = {it.what for it in source.notes} | {what for _, _, what in self.program.notes}
        except Refusal as it:
            found += it.told
        self.reasons = sorted({(it.line, said(it, str(given))) for it in found})

    def frames(self):
        """The globals: their names before and after, and their sizes."""
        return [(name, it.text, it.kind.size) for name, it in sorted(self.program.objects.items())]


def said(it: Told, name: str) -> str:
    """What is said of a text, without the name of its file."""
    return it.what.removeprefix("outside of the profile: ").replace(f"{name}:", "").replace(name, "it")


def prefixed(text, prefix):
    """The text, with each name of its own behind a prefix, so that many texts are one."""
    text = re.sub(r"^#.*$", "", text, flags=re.M)
    pieces = PIECES.split(text)
    for i in range(1, len(pieces), 2):
        if re.fullmatch(r"[A-Za-z_]\w*", pieces[i]) and pieces[i] not in WORDS:
            pieces[i] = prefix + pieces[i]
    return "".join(pieces)


def compared(rewritten, room):
    """What differs of each of the programs, in order, and what the second text does.

    It is None where both texts do the same.
    """
    if not rewritten:
        return []
    text, keys = SHAPE, []
    for i, it in enumerate(rewritten):
        kind = it.program.functions["main"]
        made = it.program.endings.ending(it.made, "exit")
        for key, source, column in ((f"a{i}", it.source, 0), (f"b{i}", made, 1)):
            keys.append(key)
            frames = [(f"{key}_{frame[column]}", frame[2]) for frame in it.frames()]
            text += prefixed(source, f"{key}_") + tail(key, f"{key}_main", kind, frames)
    made = pathlib.Path(room, "batch")
    fault = built([text], keys, made)
    if fault and len(rewritten) > 1:
        half = len(rewritten) // 2
        return compared(rewritten[:half], room) + compared(rewritten[half:], room)
    if fault:
        return [(f"the compiler refuses a text: {fault}", None)]
    frames = [[(name, size) for name, _, size in it.frames()] for it in rewritten]
    runs = [(2 * i + k, [], [], it) for i, it in enumerate(frames) for k in (0, 1)]
    found = outcomes(made, runs)
    pairs = zip(found[::2], found[1::2])
    return [(None if is_same(first, second) else difference(first, second), second) for first, second in pairs]
