"""What is struck out of a text after the preprocessor, and what is said against it: attributes, `#pragma`, assembly."""

import bisect
import dataclasses
import os
import re

from .meanings import against_attribute, against_pragma
from .pieces import Names, Piece, pieces
from .refusal import Refusal, Told, outside
from .typeless import typeless

# Brackets in one another, and characters of a line: one release of the parser looks through the line at each token.
DEEPEST, LONGEST = 256, 4000
C99 = frozenset("""auto break case char const continue default do double else enum extern float for goto if inline int
long register restrict return short signed sizeof static struct switch typedef union unsigned void volatile while _Bool
_Complex _Imaginary""".split())
# Words of compilers, and what is said against them; they are struck out with what stands in the brackets behind them.
WORDS = {"__thread": "an object of each thread", "_Thread_local": "an object of each thread",
         "_Atomic": "an atomic object"}
ASSEMBLY, ATTRIBUTE = ("asm", "__asm", "__asm__"), ("__attribute", "__attribute__")
BESIDE_ASSEMBLY = ("volatile", "__volatile", "__volatile__", "goto", "inline", "__inline", "__inline__")
JOINED = re.compile(r'\\(?:x[0-9a-fA-F]+|[0-7]{1,2})"$')
NO_FUNCTIONS = C99 | {*WORDS, *ASSEMBLY, *ATTRIBUTE, "_Alignas", "_Static_assert", "typeof", "__typeof__"}
# Of an attribute that changes this it does not matter whether somebody calls the function.
RUNS = "which changes what runs"
HEADS = ("if", "while", "for", "switch")


@dataclasses.dataclass(frozen=True)
class Text:
    """A text as the parser reads it, the names of its files as they are told, and what was said on the way.

    Each reason has the functions in whose definitions it stands, and an empty name where it is one of the whole file.
    """

    text: str
    files: dict[str, str]
    renamed: dict[str, str]
    reasons: dict[Told, set[str]]
    notes: list[Told]

    def against(self, left_out: list[str]) -> list[Told]:
        """The reasons against the program, where these functions are left out of it."""
        return [it for it, functions in self.reasons.items() if functions - set(left_out)]

    def name(self, given: str) -> str:
        """The name that one of the file has in the text."""
        own = same(os.fsencode(given).decode("latin-1"))
        return self.renamed.get(own, given)


class Marked:
    """The pieces of one text, gone through once: `edits` are what takes the place of some."""

    def __init__(self, text: str, file: str, names: Names) -> None:
        self.text, self.names = text, names
        self.pieces = list(pieces(text, self.names, file))
        self.edits: list[tuple[int, int, str]] = []
        self.reasons: dict[Told, set[str]] = {}
        self.notes: list[Told] = []
        self.renamed: dict[str, str] = {}
        self.code = [it for it in self.pieces if it.kind not in ("place", "pragma")]
        self.closing, self.opening = self.brackets()
        self.definitions = definitions(self.code, self.closing)
        self.taken = {it.text for it in self.code if it.kind == "name"}

    def brackets(self) -> tuple[dict[int, int], dict[int, int]]:
        """The numbers of pieces that close others, and of those that open them."""
        open_, closing = [], {}
        for i, it in enumerate(self.code):
            if it.kind == "sign" and it.text in "([{":
                open_.append(i)
                if len(open_) > DEEPEST:
                    raise Refusal(outside(it.file, it.line, f"brackets nested deeper than {DEEPEST}"))
            elif it.kind == "sign" and it.text in ")]}" and open_:
                closing[open_.pop()] = i
        return closing, {last: first for first, last in closing.items()}

    def against(self, it: Piece, why: str, is_of_all: bool = False) -> None:
        at = bisect.bisect(self.definitions, (it.start, len(self.text), "")) - 1
        is_inside = at >= 0 and it.start < self.definitions[at][1] and not is_of_all
        owner = self.definitions[at][2] if is_inside else ""
        self.reasons.setdefault(outside(it.file, it.line, why), set()).add(owner)

    def strike(self, start: int, end: int) -> None:
        """Takes a part of the text out; its line feeds stay, and so do the lines that tell places."""
        lines = re.findall(r"\n(?:[ \t]*#[^\n]*)?", self.text[start:end])
        kept = "".join(it if it == "\n" else f"\n{self.placed(it[1:])}" for it in lines)
        self.edits.append((start, end, f" {kept}" if kept else " "))

    def placed(self, line: str) -> str:
        return next((it.text for it in pieces(line, self.names, "") if it.kind == "place"), "")

    def whole(self) -> Text:
        for it in self.pieces:
            if it.kind == "place":
                self.edits.append((it.start, it.end, it.text))
            elif it.kind == "pragma":
                why = against_pragma(it.text)
                if why:
                    self.against(it, why, True)
                self.strike(it.start, it.end)
        self.break_lines()
        self.edits += [(it, it, "int ") for it in typeless(self.code, self.closing, C99)]
        at = 0
        while at < len(self.code):
            at = self.step(at)
        return Text(self.edited(), self.names.told, self.renamed, self.reasons, self.notes)

    def break_lines(self) -> None:
        """Goes on in a further line, which counts as the same, where one is long."""
        line, start = 0, 0
        for it in self.code:
            if it.line != line:
                line, start = it.line, it.start
            elif it.start - start > LONGEST and it.kind == "name":
                start = it.start
                self.edits.append((start, start, f'\n#line {it.line} "{it.file}"\n'))

    def edited(self) -> str:
        found, at = [], 0
        for start, end, text in sorted(self.edits):
            # A line that tells a place inside of what is struck out is kept there.
            if start >= at:
                found += [self.text[at:start], text]
                at = end
        return "".join([*found, self.text[at:]])

    def is_sign(self, at: int, text: str) -> bool:
        return 0 <= at < len(self.code) and self.code[at].kind == "sign" and self.code[at].text == text

    def step(self, at: int) -> int:
        """Looks at one piece, and gives the number of the next one to look at."""
        it = self.code[at]
        if it.kind == "sign" and it.text == "[" and self.is_sign(at + 1, "["):
            return self.dropped(at, self.closing.get(at), "an attribute in [[ ]]")
        if it.kind == "text":
            self.joined(at)
        if it.kind != "name":
            return at + 1
        if it.text in ATTRIBUTE:
            return self.attribute(at)
        if it.text in ASSEMBLY:
            return self.assembly(at)
        if it.text in WORDS:
            return self.dropped(at, at, WORDS[it.text])
        if it.text == "_Alignas":
            return self.dropped(at, self.closing.get(at + 1), "_Alignas, which changes where an object lies")
        self.name(it)
        return at + 1

    def dropped(self, at: int, last: int | None, why: str) -> int:
        """Strikes pieces out, and says why the program is refused."""
        self.against(self.code[at], why)
        if last is None:
            return at + 1
        self.strike(self.code[at].start, self.code[last].end)
        return last + 1

    def attribute(self, at: int) -> int:
        """Strikes an attribute out, and judges each of its names."""
        first, last = at + 2, self.closing.get(at + 1)
        is_double = self.is_sign(at + 1, "(") and self.is_sign(first, "(")
        if not (is_double and last and self.closing.get(first) == last - 1):
            return self.dropped(at, last, "an attribute of this form")
        k = first + 1
        while k < last - 1:
            it = self.code[k]
            if it.kind == "name":
                why = against_attribute(it.text)
                if why:
                    self.against(it, why, why.endswith(RUNS))
                k = self.closing.get(k + 1, k) + 1
            elif self.is_sign(k, ","):
                k += 1
            else:
                return self.dropped(at, last, "an attribute of this form")
        self.strike(self.code[at].start, self.code[last].end)
        return last + 1

    def assembly(self, at: int) -> int:
        """Strikes assembly out: a statement, or the name that a declaration has for the assembler."""
        k = at + 1
        while k < len(self.code) and self.code[k].text in BESIDE_ASSEMBLY:
            k += 1
        last = self.closing.get(k) if self.is_sign(k, "(") else None
        is_name = self.names_declared(at - 1)
        return self.dropped(at, last, "a name for the assembler" if is_name else "assembly")

    def joined(self, at: int) -> None:
        """The parser makes one of two strings, and of an escape at the end of the first a longer one."""
        after = self.code[at + 1].text if at + 1 < len(self.code) else ""
        if JOINED.search(self.code[at].text) and re.match(r'"[0-9a-fA-F]', after):
            self.against(self.code[at], "an escape at the end of a string that another one follows")

    def names_declared(self, at: int) -> bool:
        """Whether this piece can be the end of what is declared."""
        if at < 0:
            return False
        it = self.code[at]
        if it.kind == "name":
            return it.text not in C99
        if it.text == ")" and at in self.opening:
            before = self.opening[at] - 1
            return before < 0 or self.code[before].text not in HEADS
        return it.text == "]"

    def name(self, it: Piece) -> None:
        """Gives a name that C or `sweet` reads otherwise one that both read."""
        if re.fullmatch(r"[A-Za-z_]\w*", it.text, re.A) and it.text != "_Imaginary":
            return
        own = same(it.text)
        if not readable(own):
            self.against(it, "a name with a letter that names of C have not")
        if own not in self.renamed:
            self.renamed[own] = self.free(re.sub(r"\W", "_", own, flags=re.A))
            told = f"{readable(own)} is no name that sweet reads, and becomes {self.renamed[own]}"
            self.notes.append(Told(it.file, it.line, told))
        self.edits.append((it.start, it.end, self.renamed[own]))

    def free(self, name: str) -> str:
        # Names that begin with a low line are those of compilers and libraries.
        name = f"sw{name}" if name.startswith("_") else name
        found, number = name, 0
        while found in self.taken or found in C99:
            number += 1
            found = f"{name[:20]}_{number}"
        self.taken.add(found)
        return found


def definitions(code: list[Piece], closing: dict[int, int]) -> list[tuple[int, int, str]]:
    """Where each function is defined, and its name, as far as that is plain: with a list of parameters, which types
    stand in, and a body behind it."""
    found: list[tuple[int, int, str]] = []
    start, at, name = 0, 0, ""
    while at < len(code):
        it, after = code[at], closing.get(at, at) + 1
        if it.text == "(" and not name and at and code[at - 1].kind == "name" and code[at - 1].text not in NO_FUNCTIONS:
            name = code[at - 1].text
        is_body = it.text == "{" and name and code[at - 1].text == ")"
        if is_body and at in closing:
            found.append((code[start].start, code[after - 1].end, name))
        # A body behind the declarations of an old head begins a piece of its own, whose function is not told.
        if it.text == ";" or is_body or (it.text == "{" and at == start):
            start, name = after, ""
        at = after
    return found


def same(name: str) -> str:
    """A name of C in one spelling: letters outside of ASCII may be written by their numbers."""
    def letter(found: re.Match[str]) -> str:
        number = int(found[1] or found[2], 16)
        is_one = number == ord("$") or 0xA0 <= number < 0xD800 or 0xE000 <= number < 0x110000
        return chr(number).encode().decode("latin-1") if is_one else "?"

    return re.sub(r"\\u([0-9a-fA-F]{4})|\\U([0-9a-fA-F]{8})", letter, name)


def readable(name: str) -> str:
    """A name as it is told, where it is one."""
    try:
        found = name.encode("latin-1").decode()
    except UnicodeDecodeError:
        return ""
    return found if found.replace("$", "_").isidentifier() else ""


def marked(text: str, file: str, names: Names | None = None) -> Text:
    return Marked(text, file, names or Names()).whole()
