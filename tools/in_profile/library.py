"""Texts of small functions of the library, put in where they are called and no file defines them.

They have other names in OUT.c, as `sw_strlen`: a compiler may make a call of the library's own function of such a loop.
"""

import functools
import re

from pycparser import c_ast, c_parser

from .needed import nodes

# By their headers. What they give is dropped where C has it a pointer.
STRING = """
unsigned strlen(const char *s) { unsigned n = 0; while (s[n]) n++; return n; }
int strcmp(const char *a, const char *b)
{ unsigned i = 0; while (a[i] && a[i] == b[i]) i++; return (unsigned char)a[i] - (unsigned char)b[i]; }
int strncmp(const char *a, const char *b, unsigned n)
{
    unsigned i = 0;
    while (i < n && a[i] && a[i] == b[i]) i++;
    if (i == n) return 0;
    return (unsigned char)a[i] - (unsigned char)b[i];
}
void strcpy(char *to, const char *from) { unsigned i = 0; while (from[i]) { to[i] = from[i]; i++; } to[i] = 0; }
void strncpy(char *to, const char *from, unsigned n)
{ unsigned i = 0; while (i < n && from[i]) { to[i] = from[i]; i++; } while (i < n) { to[i] = 0; i++; } }
"""
STDLIB = """
int abs(int x) { if (x < 0) return -x; return x; }
long labs(long x) { if (x < 0) return -x; return x; }
"""
TEXTS = {"string.h": STRING, "stdlib.h": STDLIB}
NAMES = ("strlen", "strcmp", "strncmp", "strcpy", "strncpy", "abs", "labs")


@functools.cache
def definitions() -> dict[str, c_ast.FuncDef]:
    """The definitions by their names; none of them calls another one."""
    trees = [c_parser.CParser().parse(text, header) for header, text in TEXTS.items()]
    return {it.decl.name: it for tree in trees for it in tree.ext}


def wanted(tree: c_ast.FileAST) -> list[str]:
    """The functions of the library that a tree calls and does not define."""
    called = {it.name.name for it in nodes(tree) if isinstance(it, c_ast.FuncCall) and isinstance(it.name, c_ast.ID)}
    own = {it.decl.name for it in tree.ext if isinstance(it, c_ast.FuncDef)}
    return [it for it in NAMES if it in called - own]


def with_library(tree: c_ast.FileAST) -> c_ast.FileAST:
    """The tree with what it wants of the library before it."""
    return c_ast.FileAST([*(definitions()[it] for it in wanted(tree)), *tree.ext])


def texts(names: list[str]) -> str:
    """The same functions for a compiler, as C has them, each before a file that calls it."""
    lines = [line for text in TEXTS.values() for line in parted(text)]
    found = [line for line in lines if any(re.search(rf"\b{it}\(", line) for it in names)]
    return "".join(f"static {it}\n" for it in found)


def parted(text: str) -> list[str]:
    """The definitions of a text, each in a line; those that give a pointer in C are as there."""
    found: list[str] = []
    for line in text.strip().splitlines():
        if line[0] not in "{} ":
            found.append("")
        found[-1] += f"{line} "
    return [as_in_c(it) for it in found]


def as_in_c(text: str) -> str:
    """A copy gives its first parameter."""
    if not text.startswith("void"):
        return text
    return f"char *{text.removeprefix('void ').rstrip().removesuffix('}')} return to; }}"
