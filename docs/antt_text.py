"""A text of definitions as tokens and as statements by their layout, with the names that a statement uses from outside.

Names that a statement binds itself hide what is outside, each from its place to the end of the brackets round it.
"""

import dataclasses
import re
import typing

LEX = re.compile(
    r'(?P<gap>\s+|--(?=[\s-]|$)[^\n]*)|(?P<text>"(?:[^"\\\n]|\\.)*")|(?P<one>[(){};,.@])'
    r'|(?P<name>«[^»]*»|[^\s(){}.;,@"«»]+)'
)
SHUT = {"(": ")", "{": "}"}
MARKS = {"pub", "abbrev", "unfoldable", "opaque", "axiom", "pattern"}
NO_NAMES = set("= : → × ↦ | _ λ ∀ ← where let in do record data Type unfolding".split())


@dataclasses.dataclass(frozen=True)
class Token:
    """A token: its text, a path of names as one, with its column, and whether its line begins with it."""

    it: str
    column: int
    is_first: bool


def tokens(text: str) -> list[Token]:
    """The tokens of a text. Names with dots between them and no blank are one."""
    found: list[Token] = []
    begun, is_first, end = 0, True, -1
    for it in LEX.finditer(text):
        if it["gap"] is not None:
            if "\n" in it[0]:
                begun, is_first = it.start() + it[0].rindex("\n") + 1, True
            continue
        word = '""' if it["text"] else it[0]
        last = found[-1].it if found and end == it.start() else ""
        if it["name"] and last.endswith(".") and last != ".":
            found[-1] = dataclasses.replace(found[-1], it=last + word)
        elif word == "." and last and last not in SHUT and text[it.end() : it.end() + 1].strip():
            found[-1] = dataclasses.replace(found[-1], it=last + ".")
        else:
            found.append(Token(word, it.start() - begun, is_first))
        is_first, end = False, it.end()
    return found


def closing(code: list[Token], at: int) -> int:
    """The place of the bracket that closes the one at this place."""
    ahead, depth = SHUT[code[at].it], 0
    for place in range(at, len(code)):
        depth += code[place].it == code[at].it
        depth -= code[place].it == ahead
        if depth == 0:
            return place
    return len(code)


def statements(code: list[Token], around: list[Token]) -> typing.Iterator[tuple[list[Token], list[Token]]]:
    """Each statement with the heads of the modules without a name that it stands in."""
    margin = code[0].column if code else 0
    starts = [k for k, it in enumerate(code) if it.is_first and it.column <= margin] + [len(code)]
    for begin, end in zip(starts, starts[1:]):
        own = code[begin:end]
        head = next((k for k, it in enumerate(own) if it.it not in MARKS), 0)
        if own[head].it == "mutual":
            yield from statements(own[head + 1 :], around)
        elif own[head].it == "module" and own[head + 1].it == "_":
            body = next(k for k, it in enumerate(own) if it.it == "where")
            yield from statements(own[body + 1 :], around + own[head + 2 : body])
        else:
            yield own, around


def cut(code: list[Token], mark: str) -> int:
    """The place of the first such mark outside of brackets, or the end."""
    at = 0
    while at < len(code) and code[at].it != mark:
        at = closing(code, at) + 1 if code[at].it in SHUT else at + 1
    return at


def words_in(code: list[Token]) -> set[str]:
    """The names that a pattern of these tokens may bind: all without a capital and a path."""
    words = {it.it for it in code if re.match(r"[^\W\d]", it.it) and not it.it[0].isupper()}
    return {it for it in words if "." not in it.rstrip(".")}


class Uses:
    """The names that a statement uses and does not bind. `keeps` tells that a name in a pattern is no variable."""

    def __init__(self, keeps: typing.Callable[[str], bool], hidden_fields: frozenset[str] = frozenset()) -> None:
        self.keeps, self.hidden_fields, self.found = keeps, hidden_fields, set()

    def binders(self, code: list[Token]) -> set[str]:
        """What these tokens bind as a pattern; what they name there is used."""
        names = words_in(code)
        kept = {it for it in names if self.keeps(it)}
        self.found |= kept | {it.it for it in code if not it.it[0].isalnum() or it.it[0].isupper()}
        self.found |= {it.it for it in code if "." in it.it.strip(".")}
        return names - kept

    def group(self, code: list[Token], bound: set[str], is_braced: bool) -> set[str]:
        """What stands in brackets. Answers what it binds for what comes after it, as `(x y : A)`."""
        colon = cut(code, ":")
        if 0 < colon < len(code) and all(it.it not in SHUT and it.it not in {",", ";"} for it in code[:colon]):
            names = {it.it for it in code[:colon]}
            if all(re.match(r"[\w'«»]", it) for it in names):
                self.walk(code[colon + 1 :], bound)
                return names
        if is_braced and cut(code, "=") < len(code):
            self.fields(code, bound)
        else:
            self.walk(code, bound)
        return set()

    def fields(self, code: list[Token], bound: set[str]) -> None:
        """Fields of a record or implicit arguments: what stands before `=` is no use of a name, and binds what follows."""
        while code:
            end = cut(code, ";")
            part, code = code[:end], code[end + 1 :]
            equals = cut(part, "=")
            if equals < len(part) and part[0].it not in self.hidden_fields:
                self.walk(part[equals + 1 :], bound | self.binders(part[1:equals]))
            elif equals == len(part):
                self.walk(part, bound)

    def lines(self, code: list[Token]) -> dict[int, int]:
        """Of each `←` the place where its pattern begins."""
        found = {}
        for at, it in enumerate(code):
            if it.it == "←":
                begin = at
                while begin and not code[begin].is_first and code[begin - 1].it not in {"do", ";"}:
                    begin -= 1
                found[begin] = at
        return found

    def walk(self, code: list[Token], bound: set[str]) -> None:
        """Notes what these tokens use where those names are bound."""
        at, bound, arrows = 0, set(bound), self.lines(code)
        while at < len(code):
            it = code[at].it
            if at in arrows:
                names, end = self.binders(code[at : arrows[at]]), arrows[at] + 1
                column, begun, at = code[at].column, end, end
                while at < len(code) and not (code[at].is_first and code[at].column <= column):
                    at += 1
                self.walk(code[begun:at], bound)
                bound |= names
            elif it in SHUT:
                end = closing(code, at)
                bound |= self.group(code[at + 1 : end], bound, it == "{")
                at = end + 1
            elif it in {"λ", "∀"}:
                end = at + 1 + self.dot(code[at + 1 :])
                bound |= self.typed(code[at + 1 : end], bound)
                at = end + 1
            elif it == "let":
                end = at + 1 + min(cut(code[at + 1 :], "="), cut(code[at + 1 :], ":"))
                bound |= self.binders(code[at + 1 : end])
                at = end
            else:
                self.name(it, bound)
                at += 1

    def dot(self, code: list[Token]) -> int:
        """The place of the dot that ends binders."""
        at = 0
        while at < len(code) and code[at].it != ".":
            if code[at].it in SHUT:
                at = closing(code, at)
            elif code[at].it.endswith("."):
                return at
            at += 1
        return at

    def typed(self, code: list[Token], bound: set[str]) -> set[str]:
        """What a `λ` binds: names, pairs, and names with their type."""
        names, at = set(), 0
        while at < len(code):
            if code[at].it in SHUT:
                end = closing(code, at)
                inner = code[at + 1 : end]
                names |= self.group(inner, bound, False) if cut(inner, ":") < len(inner) else self.binders(inner)
                at = end + 1
            else:
                names.add(code[at].it)
                at += 1
        return names

    def name(self, it: str, bound: set[str]) -> None:
        first = it.split(".")[0] if it.strip(".") else it
        if it not in NO_NAMES and first not in bound:
            self.found.add(it)
        if it == "do":
            self.found |= {">>=", ">>"}
