"""Programs whose names, comments, files and ranges are written to be taken for markup or for a script."""

import collections.abc
import dataclasses
import pathlib
import re

from in_profile.head import with_head

# The title of a page tells whether one of them ran.
RUN = "document.title=7"
TEXTS = (
    f"a' tabindex=0 autofocus onfocus='{RUN}//",
    f"a' onmouseover='{RUN}' x='",
    f"a\" onclick=\"{RUN}\" x=\"",
    "style=position:fixed;inset:0 onmouseover=f()",
    f"<script>{RUN}</script>",
    f"</script><script>{RUN}</script>",
    f"<img src=x onerror={RUN}>",
    f"<svg/onload={RUN}>",
    f"</title></style><b onclick={RUN}>",
    "</style><style>*{display:none}</style>",
    f"<a href=javascript:{RUN}>",
    f"javascript:{RUN}",
    "<base href=//other.example/>",
    "<meta http-equiv=refresh content=0>",
    "<iframe srcdoc=x></iframe><form><input autofocus>",
    "<!--",
    "--><b>",
    "]]><![CDATA[",
    f"`${{{RUN}}}`",
    f"{{{{constructor.constructor('{RUN}')()}}}}",
    "&lt;b&gt;&quot;&#x27;&#0;&bogus",
    "__proto__",
    "%3Cscript%3E%00",
    "#L1",
    "x" * 64,
    "\x1b]0;title\x07\x1b[2J\x00\x08\x7f\x0c\x0b",
    "\u202eright to left\u2066\u200b\u0085\u2028\ufeff\U000e0041",
    "no UTF-8 \udcff\udc80\udc9b",
)
# A name of ALF has 1 to 64 of these bytes.
NAME_OF_ALF = re.compile(r"[ !#-\[\]-~]{1,64}")

FAULT = "fault 94 name "
MARKED = ("names of ALF", "comments of C", "lines by sweet-c")

ALF = """/* COMMENT */
{ alf { macro_defs } { least_addr_unit 8 } little_endian
{ exports { frefs { fref 32 "NAME" } } { lrefs } } { imports { frefs } { lrefs } }
{ decls { alloc 32 "NAME" 32 } } { inits }
{ funcs
{ func { label 32 { lref 32 "main" } { dec_unsigned 32 0 } } { arg_decls }
{ scope { decls { alloc 32 "i" 32 } } { inits { init { ref "i" { dec_unsigned 32 0 } } { dec_unsigned 32 0 } } } { stmts
{ label 32 { lref 32 "again" } { dec_unsigned 32 0 } }
{ call { label 32 { lref 32 "NAME" } { dec_unsigned 32 0 } } result }
{ store { addr 32 { fref 32 "i" } { dec_unsigned 32 0 } } with
{ add 32 { load 32 { addr 32 { fref 32 "i" } { dec_unsigned 32 0 } } } { dec_unsigned 32 1 } { dec_unsigned 1 0 } } }
{ switch { s_lt 32 { load 32 { addr 32 { fref 32 "i" } { dec_unsigned 32 0 } } }
{ load 32 { addr 32 { fref 32 "NAME" } { dec_unsigned 32 0 } } } }
{ target { dec_unsigned 1 1 } { label 32 { lref 32 "again" } { dec_unsigned 32 0 } } }
{ default { label 32 { lref 32 "end" } { dec_unsigned 32 0 } } } }
{ label 32 { lref 32 "end" } { dec_unsigned 32 0 } }
{ call { label 32 { lref 32 "NAME" } { dec_unsigned 32 0 } } result }
{ return } } } }
{ func { label 32 { lref 32 "NAME" } { dec_unsigned 32 0 } } { arg_decls }
{ scope { decls { alloc 32 "LOCAL" 32 } } { inits } { stmts
{ switch { load 32 { addr 32 { fref 32 "LOCAL" } { dec_unsigned 32 0 } } }
{ target { dec_unsigned 32 1 } { label 32 { lref 32 "tail" } { dec_unsigned 32 0 } } }
{ default { label 32 { lref 32 "tail" } { dec_unsigned 32 0 } } } }
{ label 32 { lref 32 "tail" } { dec_unsigned 32 0 } }
{ return } } } } } }
"""
C = """/* COMMENT */
int count; // LINE
int twice(int n) { /* COMMENT */ return n / count; }
int main(void) {
    for (int i = 0; i < 3; i++) { /* COMMENT */
        int one = twice(i), two; // LINE
        two = twice('<');
        count = one + two + '"' + '\\'';
    }
    return count;
}
"""
RANGES = """[[input]]
frame = "NAME"
size = 32
offset = 0
low = 0
high = 2
"""


@dataclasses.dataclass(frozen=True, slots=True)
class Case:
    """A hostile text, the words of `sweet-view` with it, and those of the same with harmless letters in its place.

    The program that answers is another one where `answer` has what it says.
    """

    kind: str
    text: str
    words: list[str]
    harmless: list[str]
    answer: str = ""

    @property
    def is_marked(self) -> bool:
        """Whether the program takes it, so that lines are marked."""
        return self.kind in MARKED


def plain(text: str) -> str:
    """As long, of letters alone."""
    return re.sub("[^0-9A-Za-z]", "a", text)


def plain_answer(answer: str) -> str:
    return f'{FAULT}"{plain(answer.removeprefix(FAULT)[1:-2])}"\n' if answer else ""


def cases(folder: pathlib.Path) -> collections.abc.Iterator[Case]:
    """Each text as names and in a comment of ALF, in comments of C, as the name of a file, and in an answer."""
    for number, text in enumerate(TEXTS):
        room = folder / str(number)
        name = text if NAME_OF_ALF.fullmatch(text) else plain(text)[:60]
        made = alf(room / "alf", name, text), alf(room / "plain_alf", plain(name), plain(text))
        yield Case("names of ALF", text, *made)
        made = comments(room / "c", text), comments(room / "plain_c", plain(text))
        yield Case("comments of C", text, *made)
        yield Case("an answer", text, *made, f'{FAULT}"{text}"\n')
        made = strings(room / "strings", text), strings(room / "plain_strings", plain(text))
        yield Case("strings of C", text, *made)
        yield Case("lines by sweet-c", text, written(room / "out", text), written(room / "plain_out", plain(text)))


def file_name(text: str, ending: str) -> str:
    """A name that a file may have, and that the program takes: it has no slash, and is of UTF-8."""
    name = text.replace("/", "|").replace("\0", "").lstrip("-")
    return (plain(name) if re.search("[\udc80-\udcff]", name) else name) + ending


def put(room: pathlib.Path, name: str, text: str) -> str:
    room.mkdir(parents=True, exist_ok=True)
    path = room / name
    path.write_bytes(text.encode("utf-8", "surrogateescape"))
    return str(path)


def in_comment(text: str) -> str:
    return text.replace("*/", "* /").replace("\n", " ")


def alf(room: pathlib.Path, name: str, text: str) -> list[str]:
    program = ALF.replace("COMMENT", in_comment(text)).replace("LOCAL", f"{name[:-1]}~").replace("NAME", name)
    ranges = put(room, file_name(text, ".toml"), RANGES.replace("NAME", name))
    return [put(room, file_name(text, ".alf"), program), "--inputs", ranges]


def comments(room: pathlib.Path, text: str) -> list[str]:
    program = C.replace("COMMENT", in_comment(text)).replace("LINE", in_comment(text))
    return [put(room, file_name(text, ".c"), program)]


def strings(room: pathlib.Path, text: str) -> list[str]:
    """A string, which is outside of the profile."""
    inner = text.replace("\\", "").replace('"', '\\"')
    return [put(room, "strings.c", f'char a[] = "{inner}";\nint main(void) {{ return 0; }}\n')]


def written(room: pathlib.Path, text: str) -> list[str]:
    """A text with the head of `sweet-c`, beside a file of a hostile name with hostile comments."""
    given = f"/* {in_comment(text)} */\nint main(void) {{\n    return 0; /* {in_comment(text)} */\n}}\n"
    name = file_name(text, ".c")
    put(room, name, given)
    out = b"/* 2 */ int main(void) {\n    /* 3 */ return 0;\n}\n"
    made = with_head("NAME", given.encode("utf-8", "surrogateescape"), out).decode("ascii").replace("NAME", name, 1)
    return [put(room, "out.c", made)]
