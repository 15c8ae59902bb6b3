"""The tree of a text: `pycparser` reads it, and whatever it refuses has a line."""

import dataclasses
import re
import sys

from .ending import room
from .marked import Text
from .refusal import Refusal, outside

# Levels of a tree, and frames of Python that are enough for the work on most that have so many.
DEEPEST, FRAMES = 500, 8000
TOO_DEEP = f"expressions and statements nested deeper than {DEEPEST}"
# Parts of a tree that are statements or declarations.
STATEMENTS = re.compile(r"ext|block_items|stmt|iftrue|iffalse|decl|body|next|init")


@dataclasses.dataclass(frozen=True)
class Unit:
    """A file: its name as it is told, its text after the preprocessor, and the tree of that."""

    name: str
    text: Text
    tree: object


def lacking(what: str, package: str) -> Refusal:
    return Refusal(f"{what} is missing: install the Debian package {package}")


def watched(lexer: type) -> type:
    """A lexer that keeps the place of its last token."""

    class Watched(lexer):
        place = None

        def token(self):  # noqa: ANN202  (the type has another name in each release)
            found = super().token()
            if found is not None:
                self.place = str(self.filename), found.lineno
            return found

    return Watched


def parsed(text: str, name: str) -> object:
    """The tree of a text after the preprocessor."""
    try:
        from pycparser import c_lexer, c_parser
    except ImportError:
        raise lacking("pycparser, which reads C", "python3-pycparser") from None
    sys.setrecursionlimit(max(sys.getrecursionlimit(), FRAMES))
    # Releases that keep tables may write them: then into a folder of their own.
    with room() as folder:
        parser = c_parser.CParser(lexer=watched(c_lexer.CLexer), taboutputdir=str(folder))
        try:
            tree = parser.parse(text, name)
        except RecursionError:
            raise Refusal(outside(*(parser.clex.place or (name, 1)), TOO_DEEP)) from None
        except Exception as error:  # the parser's own errors have several types
            place, told = parser.clex.place or (name, 1), str(error) or type(error).__name__
            raise Refusal(f"{name} is not read as C99: {placed(told, *place)}") from None
    look_at_depth(tree, name)
    return tree


def placed(told: str, file: str, line: int) -> str:
    """What the parser says, with a line: where it has none that of the last token."""
    if re.match(r".*?:\d+(:\d+)?: ", told):
        return told
    return f"{file}:{line}: {told.removeprefix(f'{file}: ')}"


def look_at_depth(tree: object, name: str) -> None:
    """Sees that the work on a tree goes no deeper than it may; what does is told at the line of its statement."""
    ahead = [(tree, 0, (name, 0))]
    while ahead:
        node, depth, place = ahead.pop()
        if depth > DEEPEST:
            raise Refusal(outside(*place, TOO_DEEP))
        for role, it in node.children():
            coord = getattr(it, "coord", None)
            starts = coord and STATEMENTS.match(role)
            ahead.append((it, depth + 1, (str(coord.file), coord.line) if starts else place))
