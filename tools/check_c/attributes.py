"""Attributes and lines of `#pragma`: each is struck out without a change, or refused, and shown on the page."""

import collections.abc
import pathlib
import re

from in_profile.child import run
from in_profile.meanings import REFUSED, REFUSED_PRAGMAS, STRUCK_OUT, STRUCK_PRAGMAS, members

from .batches import Rewritten

PAGE = pathlib.Path(__file__).resolve().parent.parent.parent / "docs" / "programs.md"
# What stands in brackets behind some.
WITH = {"access": "read_only, 1", "alloc_align": "1", "alloc_size": "1", "aligned": "16", "assume_aligned": "8",
        "deprecated": '"x"', "format": "printf, 1, 2", "format_arg": "1", "no_sanitize": '"undefined"',
        "visibility": '"default"', "warning": '"x"'}
OF_OBJECTS = {"aligned", "common", "nocommon", "nonstring", "used"}
# gcc has these for functions with pointers alone, and the last one for those that do not come back.
UNCOMPILED = {"access", "format", "format_arg", "returns_nonnull", "noreturn"}
# Lines that the preprocessor asks more of than a name.
LINES = {"GCC dependency": '"given.c"', "GCC poison": "Y", "GCC system_header": "", "GCC warning": '"X"', "once": "",
         "pop_macro": '("X")', "push_macro": '("X")'}
SPELLINGS = ("__attribute__(({0}{1}))", "__attribute((__{0}__ {1}, __unused__))")


def declared(name: str, spelling: str, number: int) -> str:
    """An object or a function with an attribute, on a line of its own."""
    attribute = spelling.format(name, f"({WITH[name]})" if name in WITH else "")
    if name in OF_OBJECTS:
        return f"int f{number}_at {attribute} = {number}; int f{number}(int x) {{ return x + f{number}_at++; }}"
    return f"{attribute} int f{number}(int x); int f{number}(int x) {{ return x * {number} + 1; }}"


def program(rows: list[str]) -> str:
    calls = "".join(f" s += f{number}(s);" for number in range(len(rows)))
    return "\n".join(["int n;", *rows, f"int main(void) {{ int s = 1;{calls} return s & 127; }}", ""])


def status_of(text: str, room: pathlib.Path) -> int | str | None:
    """What a compiled program returns; the compiler sees it as it stands."""
    source, made = room / "attribute.c", room / "attribute"
    source.write_text(text, encoding="utf-8")
    built = run(["cc", "-std=gnu99", "-w", "-O1", "-fwrapv", "-o", str(made), str(source)], 60)
    return built.err.decode() if built.status else run([str(made)], 10).status


def struck_out(spelling: str, room: pathlib.Path) -> str:
    """What is wrong with the attributes that are to be struck out, or nothing: all of them in one program."""
    names = [*members(STRUCK_OUT)]
    it = Rewritten(program([declared(name, spelling, i) for i, name in enumerate(names)]), str(room))
    if it.reasons:
        return f"it is out for {it.reasons}"
    names = [name for name in names if name not in UNCOMPILED]
    text = program([declared(name, spelling, i) for i, name in enumerate(names)])
    before, after = status_of(text, room), status_of(Rewritten(text, str(room)).made, room)
    return "" if before == after else f"compiled it gives {before} before, and {after} after"


def refused(spelling: str, room: pathlib.Path) -> str:
    """What is wrong with the attributes that are to be refused, or nothing. One is in no list."""
    due = {**{name: f"changes {about}" for name, about in members(REFUSED).items()}, "not_known": "is in no list"}
    rows = [declared(name, spelling, i) for i, name in enumerate(due)]
    faults = [(line, f"the attribute {name}, which {about}") for line, (name, about) in enumerate(due.items(), 2)]
    it = Rewritten(program(rows), str(room))
    return "" if it.reasons == faults else f"it is out for {sorted({*it.reasons} ^ {*faults})}"


def pragmas(form: str, room: pathlib.Path) -> str:
    """What is wrong with lines of #pragma, or nothing; `_Pragma` is one too."""
    due = {name: f"changes {about}" for name, about in members(REFUSED_PRAGMAS).items()}
    due["not known"] = "is in no list"
    rows, faults = [], []
    for line, name in enumerate({**members(STRUCK_PRAGMAS), **due}, 1):
        text = f"{name} {LINES.get(name, 'X')}".strip()
        rows.append(form.format(text.replace('"', '\\"') if "_Pragma" in form else text))
        faults += [(line, f"#pragma {name}, which {due[name]}")] if name in due else []
    it = Rewritten("\n".join([*rows, "int main(void) { return 3; }", ""]), str(room))
    return "" if it.reasons == faults else f"it is out for {sorted({*it.reasons} ^ {*faults})}"


def shown(table: dict[str, str], what: str, page: str) -> str:
    """What the page has of a table otherwise than the script, or nothing."""
    rows = [it for it in page.splitlines() if it.startswith("| `")]
    for about in table:
        own = members({about: table[about]})
        if not any(it.endswith(f"| {what} | {about} |") and set(re.findall(r"`([^`]+)`", it)) == {*own} for it in rows):
            return f"docs/programs.md has no such row for {about!r}"
    return ""


def checks(room: pathlib.Path) -> collections.abc.Iterator[tuple[str, str]]:
    """The name of each thing that is held, and what is wrong with it."""
    for number, spelling in enumerate(SPELLINGS, 1):
        yield f"attributes that are struck out, spelling {number}", struck_out(spelling, room)
        yield f"attributes that are refused, spelling {number}", refused(spelling, room)
    for form in ("#pragma {}", '_Pragma("{}")'):
        yield f"lines of {form}", pragmas(form, room)
    page = PAGE.read_text(encoding="utf-8")
    for table in (STRUCK_OUT, STRUCK_PRAGMAS):
        yield "what is struck out on docs/programs.md", shown(table, "struck out", page)
    for table in (REFUSED, REFUSED_PRAGMAS):
        yield "what is refused on docs/programs.md", shown(table, "refused", page)
