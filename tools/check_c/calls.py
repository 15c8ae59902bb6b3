"""Calls of `sweet-c` by words that say what of the files is taken, and what is told of it."""

import collections.abc
import pathlib

from .hostile import EVIL, OPTIONS, PLAIN, Case, fault_of

MADE = ["in.c", "-o", "out.c"]
SEVEN = "".join(f"int f{i}(void) {{ return {i}; }}\n" for i in range(7))
TOLD = "in.c: left out, since main does not come to it: "
TYPES = '#include "in.h"\ntypedef float t; struct s { t x; };\nint main(void) { return 0; }\n'
LEFT_OUT = [
    Case("what is left out", {"in.c": "int a, b; int f(void) { return b; }\nint main(void) { return a; }\n"}, MADE, 0,
         f"{TOLD}functions f; objects b\n", makes=True),
    Case("many functions that are left out", {"in.c": SEVEN + "int main(void) { return 0; }\n"}, MADE, 0,
         f"{TOLD}functions f0, f1, f2, f3, f4, f5 and 1 more\n", makes=True),
    Case("types that are left out", {"in.c": TYPES, "in.h": "typedef double header;\n"}, MADE, 0,
         f"{TOLD}types t, s\n", makes=True),
    Case("another root", {"in.c": "float f(void) { return 1; }\nint main(void) { return f(); }\n"
                                  "static int step(int x) { return x + 1; }\n"}, [*MADE, "--root", "step", "--try"], 0,
         "in.c: left out, since step does not come to it: functions f, main\n"),
]

TYPES_ALONE = """#include <stdarg.h>
#include <stdio.h>
#include <stdlib.h>
#include <string.h>
#include <assert.h>
int told(FILE *to, const char *text, ...) { va_list all; va_start(all, text); int x = va_arg(all, int); va_end(all);
  fprintf(to, "%d", x); memcpy(malloc(4), text, 4); return x == EOF; }
static_assert(sizeof(size_t) == 4, "a size"); int main(void) { assert(RAND_MAX > 0); return EXIT_FAILURE; }
"""
CONFIGURED = """#include "own.h"
#include <folder.h>
#ifdef BARE
int main(void) { return TWICE(SIZE) + BARE + of_the_folder + of_the_file + __SIZEOF_INT__ + __CHAR_BIT__; }
#endif
"""
SURROUNDED = {"in.c": CONFIGURED, "own.h": "int of_the_file = 4;\n", "inc/folder.h": "#include <below/deep.h>\n",
              "more/below/deep.h": "int of_the_folder = 3;\n", "inc/own.h": "an error\n"}
WORDS = ["-I", "inc", "-Imore", "-DBARE", "-D", "SIZE=5 + 1", "-D", "TWICE(x)=(2 * (x))"]
SURROUNDINGS = [
    Case("headers of types alone", {"in.c": TYPES_ALONE}, MADE, 0, "functions told", makes=True),
    Case("folders and names", SURROUNDED, [*MADE, *WORDS, "--try"], 0, "0 differ"),
    Case("without the names", SURROUNDED, [*MADE, *WORDS[:3]], 1, "there is no function main"),
    Case("without a folder", SURROUNDED, [*MADE, *WORDS[3:]], 1, "the preprocessor refuses in.c:\nin.c:2:"),
    Case("without one of two folders", SURROUNDED, [*MADE, *WORDS[:2], *WORDS[3:]], 1, "inc/folder.h:1:"),
    Case("a place in a folder", {"in.c": "#include <a.h>\nint main(void) { return f(); }\n",
                                 "x/a.h": "\nfloat f(void) { return 1; }\n"}, [*MADE, "-I", "x/"], 1, "x/a.h:2: out"),
    Case("a folder that is not there", {"in.c": PLAIN}, [*MADE, "-I", "no"], 1, "there is no folder no"),
    Case("a folder that is a file", {"in.c": PLAIN}, [*MADE, "-I", "in.c"], 1, "there is no folder in.c"),
    Case("OUT.c is included from a folder", SURROUNDED, ["in.c", "-o", "more/below/deep.h", *WORDS], 1,
         "more/below/deep.h is not written: it is more/below/deep.h, which was read"),
    *(Case(f"-D {it!r}", {"in.c": PLAIN}, [*MADE, "-D", it], 2, "is no name, or a name with its text in a line")
      for it in ("", "1", "A B", "A=\nint x;", "@in.c", "A(")),
    *(Case(f"-I {it!r}", {"in.c": "#include <a.h>\n" + PLAIN, f"{it}/a.h": "", "evil.sh": EVIL, "w": OPTIONS},
           [*MADE, f"-I{it}"], 0, makes=True)
      for it in ("@w", "-x", "a b", "a=b", "$(touch ran)", "größe", "*", "%s")),
]

A = """#include "h.h"
static int keep = 3;
static int helper(u8 x) { return x + keep; }
int shared[4];
enum { ONE = 1 };
typedef short word;
int main(void) { word w = 5; keep++; shared[ONE] = helper(w);
  int x = other(w, shared); return x + keep + count + twice(3); }
"""
H = """typedef unsigned char u8; struct queue { int x; }; enum mode { OFF, ON };
int other(int n, int *p); extern int count; extern int shared[];
static inline int twice(int x) { static u8 calls; return ++calls * x; }
static inline void wait(void) { __asm__ volatile("wfi"); }
"""
B = """#include "h.h"
static unsigned char keep = 250;
static int helper(int x) { keep += x; return keep; }
int count = ON;
enum { TWO = 2, ONE = 7 }; typedef int word; typedef char (*none)(float);
int queue(void) { return sizeof(word); }
float left(void) { wait(); return 1; }
int other(int n, int *p) { word old = p[TWO - 1]; extern int count; p[0] = ONE; count += shared[0];
  int x = helper(n) + old; x += queue(); return x + twice(TWO); }
"""
ROWS = "".join(f"[[input]]\nframe = '{name}'\noffset = 0\nsize = {size}\nlow = 0\nhigh = {high}\n"
               for name, size, high in (("keep", 32, 90000), ("keep_2", 8, 255), ("count", 32, 1 << 30)))
BOTH = ["in.c", "b.c", "-o", "out.c"]


def both(name: str, a: str, b: str, says: str) -> Case:
    """Two files that are refused."""
    return Case(f"several files: {name}", {"in.c": a, "b.c": b}, BOTH, 1, says)


SEVERAL = [
    Case("several files", {"in.c": A, "b.c": B, "h.h": H, "r": ROWS}, [*BOTH, "--try", "--inputs", "r"], 0,
         " 0 differ"),
    Case("several files: notes", {"in.c": A, "b.c": B, "h.h": H}, BOTH, 0,
         "b.c:2: keep is static here and another file has the name: it becomes keep_2\n", makes=True),
    Case("several files: the root in the second", {"in.c": B, "b.c": A, "h.h": H, "r": ROWS}, [*BOTH, "--try"], 0,
         " 0 differ"),
    Case("several files: a static root", {"in.c": "int f(void) { return 1; }", "b.c": "static int g() { return 2; }"},
         [*BOTH, "--root", "g", "--try"], 0, " 0 differ"),
    Case("several files: OUT.c is the second", {"in.c": PLAIN, "b.c": "int x;"}, ["in.c", "b.c", "-o", "./b.c"], 1,
         "./b.c is not written: it is b.c, which was read"),
    Case("several files: one is not there", {"in.c": PLAIN}, BOTH, 1, "there is no file b.c"),
    Case("several files: one twice", {"in.c": PLAIN}, ["in.c", "./in.c", "-o", "out.c"], 1, "a file stands twice"),
    both("the second is refused", "int f(void); int main(void) { return f(); }",
         "\nint f(void) { goto a; a: return 1; }", "b.c:2: outside of the profile: goto"),
    both("the second is not read", PLAIN, "int f( {", "b.c is not read as C99: b.c:1"),
    both("a function of both", "int f(void) { return 1; } " + PLAIN, "\nint f(void) { return 2; }",
         "b.c:2: outside of the profile: f, which in.c defines too"),
    both("an object of both", "int x;\n" + PLAIN, "int x = 3;",
         "b.c:1: outside of the profile: x, which in.c defines too"),
    both("a call of what is not declared", "int main(void) { return f(3); }", "int f(int x) { return x; }",
         "in.c:1: outside of the profile: f of another file, which this one does not declare"),
    both("a call of what is static there", "int main(void) { return f(3); }", "static int f(int x) { return x; }",
         "in.c:1: outside of the profile: f of another file, which this one does not declare"),
    both("another type of a function", "int f(char); int main(void) { return f(3); }", "int f(int x) { return x; }",
         "in.c:1: outside of the profile: f, which another file defines with another type"),
    both("another type of a result", "int f(); int main(void) { return f(3); }", "char f(int x) { return x; }",
         "in.c:1: outside of the profile: f, which another file defines with another type"),
    both("another type of an object", "extern char x;\nint main(void) { return x; }", "int x = 300;",
         "in.c:1: outside of the profile: x, which another file defines with another type"),
    both("another type within a function", "\nint main(void) { extern unsigned x; return x > 1; }", "int x = -1;",
         "in.c:2: outside of the profile: x, which another file defines with another type"),
    both("another length", "extern int x[3];\nint main(void) { return x[1]; }", "int x[2];",
         "in.c:1: outside of the profile: x, which another file defines with another type"),
    both("a name that sweet does not read", "int caf\u00e9(void); int main(void) { return caf\u00e9(); }",
         "int caf__(void) { return 1; }", "stands for a name here, and not in b.c"),
]


def checks(room: pathlib.Path) -> collections.abc.Iterator[tuple[str, str]]:
    """The name of each thing that is held, and what is wrong with it."""
    for case in [*LEFT_OUT, *SURROUNDINGS, *SEVERAL]:
        yield case.name, fault_of(case, room)
