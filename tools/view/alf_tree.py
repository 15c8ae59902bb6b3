"""Texts of ALF as trees of words."""

import collections.abc
import re
import typing

from view.c_tokens import Token, tokens_by
from view.differs import Differs

WORD = re.compile(
    r"""
  (?P<space>\s+|/\*.*?\*/)
| (?P<string>"[^"]*")
| (?P<brace>[{}])
| (?P<number>[0-9]+)
| (?P<word>\w+)
| (?P<other>.)
""",
    re.X | re.S,
)
# Of a text that the program printed, which has no comments. Most of the time of a large file went into its spaces.
PRINTED = re.compile(r'"[^"]*"|[{}]|\w+|\S')


class Branch(list):
    """What stands in braces: words and branches; `first` and `last` are the tokens of its braces."""

    def __init__(self, first: int) -> None:
        super().__init__()
        self.first = self.last = first

    @property
    def head(self) -> str:
        return self[0] if self and isinstance(self[0], str) else ""


def tokens_of(text: str) -> list[Token]:
    """The tokens in order; comments are space."""
    found = tokens_by(WORD, text)
    for it in found:
        if it.kind == "other":
            raise Differs(f"a byte of no token of ALF at line {it.line + 1}")
    return found


def printed_words(text: str) -> list[str]:
    """The words of a text that the program printed."""
    words = PRINTED.findall(text)
    for it in set(words):
        if len(it) == 1 and not (it in "{}" or it == "_" or it.isalnum()):
            raise Differs(f"a byte {it} of no token of ALF")
    return words


def tree_of(words: collections.abc.Iterable[str]) -> Branch:
    """The one tree of a text."""
    whole = Branch(0)
    open_branches = [whole]
    for number, word in enumerate(words):
        if word == "{":
            open_branches.append(Branch(number))
        elif word == "}" and len(open_branches) > 1:
            branch = open_branches.pop()
            branch.last = number
            open_branches[-1].append(branch)
        else:
            open_branches[-1].append(word)
    if len(open_branches) != 1 or len(whole) != 1 or not isinstance(whole[0], Branch):
        raise Differs("the text of ALF has no whole tree")
    return whole[0]


def branches_in(branch: Branch) -> collections.abc.Iterator[Branch]:
    """All branches within one, itself the first, in the order of the text."""
    ahead = [branch]
    while ahead:
        branch = ahead.pop()
        yield branch
        ahead += [it for it in reversed(branch) if type(it) is Branch]


def names_in(branch: Branch, word: str) -> list[str]:
    """The names after the word `lref` or `fref`, in order."""
    return [it[2].strip('"') for it in branches_in(branch) if it.head == word]


def number_of(branch: Branch) -> int | None:
    """The number that a branch is. One with a minus is none: no constant of C has one."""
    is_number = branch.head in ("dec_signed", "dec_unsigned") and isinstance(branch[2], str)
    return int(branch[2]) if is_number else None


def part_of(branch: Branch, head: str) -> Branch:
    """The first part that begins with a word."""
    for it in branch:
        if isinstance(it, Branch) and it.head == head:
            return it
    raise Differs(f"the text of ALF has no {head}")


def members_of(branch: Branch, head: str) -> list[typing.Any]:
    """What stands in the first part that begins with a word, behind the word."""
    return part_of(branch, head)[1:]
