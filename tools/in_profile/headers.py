"""Headers of C as texts of our own, and the names that gcc has before any of them: int, long and pointers have 32 bits.

No header declares a function, since one without a definition is refused where it is called.
"""

import itertools

WORDS = {8: "char", 16: "short int", 32: "int", 64: "long long int"}
ENDS = {(32, False): "U", (64, True): "LL", (64, False): "ULL"}
SIZES, FAMILIES = (8, 16, 32, 64), ("", "_LEAST", "_FAST")


def word(bits: int, signed: bool) -> str:
    """A type as gcc has it among its names."""
    if bits == 8:
        return "signed char" if signed else "unsigned char"
    return WORDS[bits] if signed else WORDS[bits].removesuffix("int") + "unsigned int"


def most(bits: int, signed: bool) -> str:
    return f"{hex((1 << (bits - signed)) - 1)}{ENDS.get((bits, signed), '')}"


def whole_types() -> dict[str, tuple[int, bool]]:
    """The types of stdint.h and others: the part of a name that stands between lines, the bits, and whether it has a
    sign."""
    found = {"SIZE": (32, False), "PTRDIFF": (32, True), "WCHAR": (32, True), "WINT": (32, False),
             "INTMAX": (64, True), "UINTMAX": (64, False), "INTPTR": (32, True), "UINTPTR": (32, False),
             "SIG_ATOMIC": (32, True), "CHAR16": (16, False), "CHAR32": (32, False)}
    for family, bits, signed in itertools.product(FAMILIES, SIZES, (True, False)):
        name = f"{'' if signed else 'U'}INT{family}{bits}"
        found[name] = (32, signed) if family == "_FAST" and bits == 16 else (bits, signed)
    return found


def predefined() -> dict[str, str]:
    """What gcc has before any header that speaks of sizes and ranges, as `__INT_MAX__`, but nothing of itself, as
    `__GNUC__`, and of a machine."""
    found = {"__CHAR_BIT__": "8"}
    for name, (bits, signed) in whole_types().items():
        found[f"__{name}_TYPE__"] = "long int" if name == "WCHAR" else word(bits, signed)
        if not name.startswith("CHAR"):
            found[f"__{name}_MAX__"] = "0x7fffffffL" if name == "WCHAR" else most(bits, signed)
    for name, bits in {"SCHAR": 8, "SHRT": 16, "INT": 32, "LONG": 32, "LONG_LONG": 64}.items():
        found[f"__{name}_MAX__"] = "0x7fffffffL" if name == "LONG" else most(bits, True)
        found[f"__{name}_WIDTH__"] = str(bits)
    for name, size in {"SHORT": 2, "INT": 4, "LONG": 4, "LONG_LONG": 8, "POINTER": 4, "SIZE_T": 4, "PTRDIFF_T": 4,
                       "WCHAR_T": 4, "WINT_T": 4, "FLOAT": 4, "DOUBLE": 8}.items():
        found[f"__SIZEOF_{name}__"] = str(size)
    for bits, signed in itertools.product(SIZES, (True, False)):
        end = ENDS.get((bits, signed), "")
        found[f"__{'' if signed else 'U'}INT{bits}_C(c)"] = f"c ## {end}" if end else "c"
    return found | {
        "__INTMAX_C(c)": "c ## LL", "__UINTMAX_C(c)": "c ## ULL", "__WINT_MIN__": "0U",
        "__WCHAR_MIN__": "(-__WCHAR_MAX__ - 1)", "__SIG_ATOMIC_MIN__": "(-__SIG_ATOMIC_MAX__ - 1)",
        "__ORDER_LITTLE_ENDIAN__": "1234", "__ORDER_BIG_ENDIAN__": "4321", "__ORDER_PDP_ENDIAN__": "3412",
        "__BYTE_ORDER__": "__ORDER_LITTLE_ENDIAN__", "__FLOAT_WORD_ORDER__": "__ORDER_LITTLE_ENDIAN__",
        "__ILP32__": "1", "_ILP32": "1"}


# Words that mean nothing to the profile, or the same as others.
SPELLINGS = {
    "__extension__": "", "__inline": "", "__inline__": "", "inline": "", "__restrict": "", "__restrict__": "",
    "restrict": "", "_Noreturn": "", "__signed": "signed", "__signed__": "signed", "__const": "const",
    **{f"__builtin_{it}": it for it in ("strlen", "strcmp", "strncmp", "strcpy", "strncpy", "abs", "labs")},
    "__const__": "const", "__volatile": "volatile", "__volatile__": "volatile", "__builtin_expect(x,y)": "((long)(x))"}
DEFINED = [f"-D{name}={text}" for name, text in {**predefined(), **SPELLINGS}.items()]


def once(name: str, *lines: str) -> str:
    return "\n".join([f"#ifndef SWEET_{name}", f"#define SWEET_{name}", *lines, "#endif", ""])


def bounds(name: str, of: str, signed: bool) -> list[str]:
    """The least and the greatest number of a type, by the name that gcc has."""
    least = [f"#define {name}_MIN (-__{of}_MAX__ - 1)"] if signed else []
    return [*least, f"#define {name}_MAX __{of}_MAX__"]


def stdint() -> str:
    lines = []
    for name, (_, signed) in whole_types().items():
        if "INT" in name and name != "WINT":
            lines.append(f"typedef __{name}_TYPE__ {name.lower()}_t;")
        if not name.startswith("CHAR") and name != "WINT":
            lines += bounds(name, name, signed)
    for name in [*(f"{sign}INT{bits}" for bits in SIZES for sign in ("", "U")), "INTMAX", "UINTMAX"]:
        lines.append(f"#define {name}_C(c) __{name}_C(c)")
    return once("STDINT", *lines, *bounds("WINT", "WINT", False), "#define WINT_MIN 0U")


def limits() -> str:
    lines = ["#define CHAR_BIT 8", "#define MB_LEN_MAX 16"]
    for name, of in (("SCHAR", "SCHAR"), ("CHAR", "SCHAR"), ("SHRT", "SHRT"), ("INT", "INT"), ("LONG", "LONG"),
                     ("LLONG", "LONG_LONG")):
        lines += bounds(name, of, True)
    lines += [f"#define U{name}_MAX {text}" for name, text in
              (("CHAR", 255), ("SHRT", 65535), ("INT", "4294967295U"), ("LONG", "4294967295UL"),
               ("LLONG", "18446744073709551615ULL"))]
    return once("LIMITS", *lines)


SIZED = once("SIZES", "typedef __SIZE_TYPE__ size_t;", "typedef __PTRDIFF_TYPE__ ptrdiff_t;",
             "typedef __WCHAR_TYPE__ wchar_t;", "#define NULL 0")
ASSERT = """#undef assert
#ifdef NDEBUG
#define assert(e) ((void)0)
#else
#define assert(e) ((e) ? (void)0 : __builtin_abort())
#endif
#undef static_assert
#define static_assert _Static_assert
"""
# abort and exit are known, and are ends of a run.
STDLIB = SIZED + once("STDLIB", "void abort(void); void exit(int);", "#define EXIT_SUCCESS 0", "#define EXIT_FAILURE 1",
                      "#define RAND_MAX 2147483647")
# What is made of them is a call of what has no definition; the parser can read no call with a type.
STDARG = once("STDARG", "typedef char *va_list;", "#define va_arg(list, type) (*(type *)va_arg(list))")
STDIO = SIZED + once("STDIO", "typedef struct sweet_file FILE;", "extern FILE *stdin, *stdout, *stderr;",
                     "#define EOF (-1)")
HEADERS = {
    "inttypes.h": stdint(), "stdint.h": stdint(), "stddef.h": SIZED, "stdio.h": STDIO, "string.h": SIZED,
    "time.h": SIZED, "ctype.h": "", "math.h": "", "stdlib.h": STDLIB, "assert.h": ASSERT, "limits.h": limits(),
    "stdarg.h": STDARG, "stdbool.h": once("TRUTH", "#define bool _Bool", "#define true 1", "#define false 0",
                                          "#define __bool_true_false_are_defined 1"),
}
