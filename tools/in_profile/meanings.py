"""Attributes and lines of `#pragma`: which are struck out, and which change what a program means."""

import re

# What is struck out, by what it is about. docs/programs.md shows the tables, and tools/check-c holds the page to them.
STRUCK_OUT = {
    "what a compiler tells": """access deprecated fallthrough format format_arg nonstring sentinel unused used
        warn_unused_result warning""",
    "how code is made": """alloc_align alloc_size always_inline artificial assume_aligned cold const externally_visible
        flatten hot leaf malloc may_alias no_icf no_instrument_function no_profile_instrument_function no_reorder
        no_sanitize no_sanitize_address no_sanitize_thread no_sanitize_undefined no_split_stack no_stack_limit
        no_stack_protector noclone noinline noipa nonnull noreturn nothrow pure retain returns_nonnull stack_protect
        visibility""",
    "where an object lies, which no program of the profile can see": "common nocommon",
}
REFUSED = {
    "the size of a type": "mode packed vector_size",
    "where an object lies": "aligned",
    "how bytes are read": "scalar_storage_order transparent_union",
    "which function is called, or which object is meant": "alias copy gnu_inline ifunc symver weak weakref",
    "what runs": "cleanup constructor destructor error interrupt naked returns_twice signal unavailable",
    "the first value": "no_init noinit persistent section",
    "the object of each thread": "tls_model",
    "how operations are made": "optimize simd target target_clones",
}
# A name of two words has a low line between them here.
STRUCK_PRAGMAS = {
    "what a compiler tells": """GCC_dependency GCC_diagnostic GCC_warning clang_diagnostic endregion ident mark message
        region""",
    "what the preprocessor has done": "GCC_poison GCC_system_header once pop_macro push_macro",
    "how code is made": "GCC_pop_options GCC_push_options GCC_unroll GCC_visibility",
    "floating point": "STDC_CX_LIMITED_RANGE STDC_FENV_ACCESS STDC_FP_CONTRACT",
}
REFUSED_PRAGMAS = {
    "sizes and places": "pack",
    "how bytes are read": "scalar_storage_order",
    "which function is called, or which object is meant": "redefine_extname weak",
    "how operations are made": "GCC_optimize GCC_target",
    "what runs at the same time": "acc omp",
}


def members(table: dict[str, str]) -> dict[str, str]:
    """What is told of each name of a table."""
    return {spelled(name): about for about, names in table.items() for name in names.split()}


def spelled(name: str) -> str:
    return re.sub(r"^(GCC|STDC|clang)_", r"\1 ", name)


STRUCK, CHANGING = members(STRUCK_OUT), members(REFUSED)
PRAGMAS = {**members(STRUCK_PRAGMAS), **members(REFUSED_PRAGMAS)}
STRUCK_LINES = members(STRUCK_PRAGMAS)


def plain(name: str) -> str:
    """An attribute's name, which may stand between pairs of underscores."""
    return name[2:-2] if name.startswith("__") and name.endswith("__") and len(name) > 4 else name


def against_attribute(name: str) -> str:
    """What is said against an attribute, or nothing where it is struck out."""
    name = plain(name)
    if name in STRUCK:
        return ""
    about = CHANGING.get(name)
    return f"the attribute {name}, which changes {about}" if about else f"the attribute {name}, which is in no list"


def against_pragma(text: str) -> str:
    """What is said against a line of `#pragma`, or nothing where it is struck out."""
    words = re.findall(r"\w+", text)[:2]
    name = next((it for it in (" ".join(words), *words[:1]) if it in PRAGMAS), "")
    if name in STRUCK_LINES:
        return ""
    about = f"changes {PRAGMAS[name]}" if name else "is in no list"
    return f"#pragma {name or ' '.join(words)}, which {about}"
