"""The headers of `sweet-c`, and the names that it has before them, against those of gcc for 32 bits."""

import collections.abc
import pathlib
import re
import subprocess

from in_profile.headers import HEADERS, predefined
from in_profile.preprocessor import preprocessed

# Its limits.h would ask for that of a library.
GCC = ["gcc", "-m32", "-std=gnu99", "-ffreestanding", "-D_LIBC_LIMITS_H_", "-x", "c"]
SECONDS = 60
# Headers that a compiler has without a library.
OWN = ("stdint.h", "limits.h", "stddef.h", "stdbool.h")
# A null pointer has a type in gcc, and lengths of characters belong to the library.
BESIDE = {"NULL", "bool", "MB_LEN_MAX"}


def asked(words: list[str], text: str) -> subprocess.CompletedProcess[str]:
    return subprocess.run([*GCC, *words, "-"], input=text, capture_output=True, text=True, timeout=SECONDS)


def against_gcc() -> str:
    """The names before any header that gcc has not, or otherwise."""
    form = r"#define (\w+(?:\([^)]*\))?) ?(.*)"
    has = dict(re.findall(form, asked(["-dM", "-E"], "").stdout))
    return ", ".join(f"{name} is {has.get(name)}" for name, text in predefined().items() if has.get(name) != text)


def asserted(room: pathlib.Path) -> str:
    """A text that gcc takes where its headers have the same types and numbers as these."""
    texts = "".join(HEADERS[it] for it in OWN)
    names = [it for it in re.findall(r"#define (\w+) ", texts) if it not in BESIDE]
    types = re.findall(r"(\w+);", texts)
    includes = "".join(f"#include <{it}>\n" for it in OWN)
    # A name of a type is none of the preprocessor: what it is stands before it.
    given = includes + "".join(f"\nsweet_number {it}" for it in names)
    found = preprocessed(str(room / "asked.c"), given.encode()).text
    numbers = re.findall(r"sweet_number (.*)", found)
    kinds = dict((name, kind) for kind, name in re.findall(r"typedef (.*) (\w+);", found))
    rows = [f"SAME({name}, {number})" for name, number in zip(names, numbers, strict=True)]
    rows += [f"_Static_assert(__builtin_types_compatible_p({it}, {kinds[it]}), \"{it}\");" for it in types]
    same = "(a) == (b) && __builtin_types_compatible_p(__typeof__(a), __typeof__(b))"
    head = f"#define SAME(a, b) _Static_assert({same}, #a);"
    return "\n".join([includes, head, *rows, ""])


def checks(room: pathlib.Path) -> collections.abc.Iterator[tuple[str, str]]:
    """The name of each thing that is held, and what is wrong with it; nothing where gcc is not for 32 bits."""
    if asked(["-fsyntax-only"], "").returncode:
        return
    yield "names before any header", against_gcc()
    text = asserted(room)
    yield "headers", "" if text.count("_Static_assert(") > 30 and text.count("SAME(") > 60 else "few rows"
    yield "headers and gcc's own", asked(["-fsyntax-only", "-w"], text).stderr[:600]
