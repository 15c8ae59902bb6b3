"""What a script can see of a page that is out of date. `docs/check` prints what is found here.

Held are, on each page, outside of blocks of code:

- paths: what is quoted and has the form of a path is there, from the top, from `crates/`, from the page's own folder,
  or in a crate that the same paragraph names; in `crates/NAME/README.md` a word of capitals stands for any name;
- links: the file is there, and has the heading that the link names;
- names: what is quoted and has an underscore or a capital inside is a word of the sources, of the scripts or of the
  examples; in `CRATE::NAME` the name is one of that crate;
- clauses: in `CLAUSE` of `CALL` both stand in one source;
- the files of `specs/` that a crate's page lists in a table;
- counts of crates, families, commands, edits of the gate and rows of tests, where `COUNTS` knows the phrase;
- the kit that README names, where `rt` is there to ask, and that each command and each option has its place.
"""

import functools
import re
import shutil
import subprocess

TOP = None
SOURCES = (".rt", ".antt")
QUOTED = re.compile(r"`([^`\n]+)`")
PATH = re.compile(r"[\w.*+-]+(?:/[\w.*+-]*)+|\w+\.(?:rt|antt)")
NAME = re.compile(r"\w+(?:::\w+)*")
CONTRACTS = "README.md theorems.md trust.md how-to.md architecture.md caches.md schedules.md boxes.md".split()
OF = re.compile(r"((?:`\w+`(?:,\s+|\s+and\s+)?)+)\s+of\s+`([\w:]+)`")


@functools.cache
def words_of(path):
    """The words of a file."""
    return frozenset(re.findall(r"\w+", path.read_text(encoding="utf-8", errors="replace")))


@functools.cache
def sources():
    """The sources of each crate."""
    found = {it.name: [] for it in (TOP / "crates").iterdir() if it.is_dir()}
    for folder in ("src", "specs", "proofs"):
        for path in (TOP / "crates").glob(f"*/{folder}/**/*"):
            if path.suffix in SOURCES:
                found[path.relative_to(TOP / "crates").parts[0]].append(path)
    return found


@functools.cache
def words_in(crate):
    """The words of a crate."""
    return frozenset().union(*map(words_of, sources()[crate]))


@functools.cache
def known():
    """All words that a page may name: of the sources and the scripts, and names of crates, examples and edits."""
    scripts = [*TOP.glob("tools/**/*"), *TOP.glob("bench/*"), *TOP.glob(".ci/*"), *TOP.glob("docs/c*")]
    found = set(sources()).union(*map(words_in, sources()))
    found.update(*(words_of(it) for it in scripts if it.is_file() and it.suffix in ("", ".py")))
    named = [*TOP.glob("examples/**/*"), *TOP.glob("crates/*/must-fail/*.edit"), *TOP.glob("bench/edits/*/*.edit")]
    found.update(it.stem for it in named)
    found.update(*(words_of(it) for it in TOP.glob("examples/**/*") if it.suffix in (".c", ".alf", ".toml")))
    return found


def prose(page):
    """The text of a page without its blocks of code; a row of a table is a paragraph of its own."""
    kept, fenced, before = [], False, ""
    for line in page.read_text(encoding="utf-8").split("\n"):
        fenced ^= line.startswith("```")
        code = fenced or line.startswith("```") or (line.startswith("    ") and before in ("", "code"))
        kept += [] if code else [line + "\n" if line.startswith("|") else line]
        before = "code" if code and not fenced else line
    return "\n".join(kept)


def own_crate(page):
    """The crate whose page this is, if it is one."""
    parts = page.relative_to(TOP).parts
    return parts[1] if parts[0] == "crates" else None


def is_there(path, page, crates):
    """Whether a path is there, from one of the places from which it may be told."""
    asked = re.sub(r"\b[A-Z]{2,}\b(?!\.)", "*", path).rstrip("/")
    bases = [TOP, TOP / "crates", page.parent]
    for crate in crates:
        bases += [TOP / "crates" / crate / it for it in ("", "src", "specs", "proofs", "src/commands", "src/lines")]
    for base in bases:
        for name in (asked, asked + ".antt", asked + ".rt"):
            if next(base.glob(name), None) if "*" in name else (base / name).exists():
                return True
    return False


def wrong_paths(page, text):
    """The quoted paths that lead nowhere."""
    all_crates, own = set(sources()), own_crate(page)
    on_page = all_crates & set(re.findall(r"\w+", text))
    for block in re.split(r"\n\s*\n", text):
        asked = [it for it in QUOTED.findall(block) if PATH.fullmatch(it) and not re.search(r"\*\*|/out/", it)]
        near = all_crates & set(re.findall(r"\w+", block)) or on_page
        crates = near | ({own} if own else set())
        yield from (f"there is no {it}" for it in asked if not is_there(it, page, crates))


def heading_names(page):
    """The names by which links reach the headings of a page."""
    titles = re.findall(r"(?m)^#+ (.*)$", page.read_text(encoding="utf-8"))
    return {re.sub(r"[^\w\- ]", "", it.lower()).replace(" ", "-") for it in titles}


def wrong_links(page, text):
    """The links that lead nowhere."""
    for link in re.findall(r"\]\(([^)\s]+)\)", QUOTED.sub("", text)):
        path, _, heading = link.partition("#")
        if link.startswith("http"):
            continue
        target = (page.parent / path).resolve() if path else page
        if not target.exists():
            yield f"the link {link} leads nowhere"
        elif heading and heading not in heading_names(target):
            yield f"the link {link} names no heading"


def wrong_names(page, text):
    """The quoted names that no source has."""
    for quoted in QUOTED.findall(text):
        first, *rest = quoted.split("::")
        if not NAME.fullmatch(quoted):
            continue
        if rest and first in sources():
            missing = [it for it in rest if it not in words_in(first) and it not in sources()]
        else:
            missing = [it for it in (first, *rest) if re.search(r"_|[a-z][A-Z]", it) and it not in known()]
        yield from (f"nothing is called {it} in `{quoted}`" for it in missing)


def wrong_clauses(page, text):
    """The clauses and parts that do not stand beside what they are said to be of, on pages that speak of contracts."""
    if own_crate(page) is None and page.name not in CONTRACTS:
        return
    for names, of in OF.findall(text):
        *crate, name = of.split("::")
        crates = [it for it in crate if it in sources()] or list(sources())
        paths = [path for it in crates for path in sources()[it]]
        beside = [words_of(it) for it in paths if name == it.stem or name in words_of(it)]
        for clause in re.findall(r"\w+", re.sub(r"`\s+and\s+`", "` `", names)) if beside else ():
            if not any(clause in it for it in beside):
                yield f"no source has `{clause}` beside `{of}`"


def wrong_files(page, text):
    """The files that a crate's page lists in a table, and that `specs/` has not."""
    crate = own_crate(page)
    tables = re.findall(r"(?m)^\| File of `specs/` \|.*\n\n\|[-|]+\|\n\n((?:\|.*\n\n?)+)", text) if crate else []
    for row in (it for table in tables for it in re.findall(r"(?m)^\| ([^|]+) \|", table)):
        for name in QUOTED.findall(row):
            if not is_there(name, page, [crate]):
                yield f"specs/ has no {name}"


def rows(path, row):
    """How many rows a table of tests has."""
    return len(re.findall(row, (TOP / "crates" / path).read_text(encoding="utf-8"), re.M))


def crates_below(name):
    """The crate and all that it stands on."""
    table = {it.partition(":")[0]: it.partition(":")[2].split() for it in (TOP / "crates.txt").read_text().splitlines()}
    found, ahead = set(), [name]
    while ahead:
        crate = ahead.pop()
        if crate in table and crate not in found:
            found.add(crate)
            ahead += table[crate]
    return found


def family_count():
    """How many families the table of docs/architecture.md has."""
    page = (TOP / "docs/architecture.md").read_text(encoding="utf-8")
    return len(re.findall(r"(?m)^\| `\w+` \|", page.partition("## Families")[2].partition("\n## ")[0]))


def commands():
    """The commands, each with its options, as the table of the code has them."""
    text = (TOP / "crates/sweet_words/src/forms.rt").read_text(encoding="utf-8")
    form = r'name: "(\w+)",\s*positionals: [^\n]*\s*values: &\[([^\]]*)\],\s*flags: &\[([^\]]*)\]'
    return {name: re.findall(r"\w+", f"{values} {flags}") for name, values, flags in re.findall(form, text)}


def gcc_programs():
    """How many programs of C have results of gcc."""
    return rows("lower_tests/src/programs.rt", r"^=> ")


def expression_rows():
    """How many statements are lowered for their expressions."""
    return rows("lower_tests/src/expressions.rt", r"^(?!\s*//|\s*let).* => ")


# A phrase of the pages with a number, and how many there are.
COUNTS = {
    r"fall into (\d+) families": lambda: family_count(),
    r"as it is now, (\d+) crates": lambda: len(sources()),
    r"crates and (\d+) edits, it was": lambda: len([*TOP.glob("crates/*/must-fail/*.edit")]),
    r"where there are (\d+) now": lambda: len(crates_below("sweet")),
    r"The program has (\w+) commands": lambda: len(commands()),
    r"(\d+) programs (?:with|are held against the results of) gcc": lambda: gcc_programs(),
    r"(\d+) programs with what gcc": lambda: gcc_programs(),
    r"(\d+) statements, each row of the tables": lambda: expression_rows(),
    r"(\d+) statements with ways": lambda: rows("lower_tests/src/statements.rt", r" => "),
    r"(\d+) values (?:of operators|for the)": lambda: rows("base_tests/src/values.rt", r"^[a-z_]+ [0-9 ]*\| .* => "),
    r"(\d+) reports in which two lines": lambda: rows("fact_tests/src/swaps.rt", r"^\d+ \d+ => "),
}
WORDS = "none one two three four five six seven eight nine ten eleven twelve thirteen fourteen fifteen sixteen".split()


def wrong_counts(page, text):
    """The numbers that are others by now."""
    for phrase, count in COUNTS.items():
        for told in re.findall(phrase.replace(" ", r"\s+"), text):
            number = int(told) if told.isdigit() else WORDS.index(told) if told in WORDS else -1
            if number != count():
                yield f"{told} is told, and there are {count()}: {phrase}"


def wrong_kit():
    """README names another kit than `rt` is of."""
    told = re.search(r"`(rattle-kit[^`]*)`", (TOP / "README.md").read_text(encoding="utf-8"))
    if shutil.which("rt"):
        kit = subprocess.run(["rt", "version"], cwd=TOP, capture_output=True, text=True).stdout.strip()
        if not told or kit != told[1]:
            yield f"README.md: the kit is {kit}"


def missing_commands():
    """The commands and options that README or docs/commands.md leaves out."""
    readme, page = ((TOP / it).read_text(encoding="utf-8") for it in ("README.md", "docs/commands.md"))
    for command, options in commands().items():
        if not re.search(rf"`(?:\./sweet )?{command}\b", readme):
            yield f"README.md: the command {command} is left out"
        if not re.search(rf"(?m)^## {command}\b", page):
            yield f"docs/commands.md: the command {command} has no section"
        yield from (f"docs/commands.md: --{it} is left out" for it in options if f"--{it}" not in page)


def missing_edits():
    """The edits that docs/theorems.md names and that stand neither in a crate nor in bench/edits."""
    kept = re.findall(r"\*Kept\s+by\*:?(.*?)(?=\n\n|\Z)", prose(TOP / "docs" / "theorems.md"), re.S)
    named = {it for part in kept for it in re.findall(r"`([a-z0-9]+(?:_[a-z0-9]+)+)`", part)}
    edits = {it.stem for it in [*TOP.glob("crates/*/must-fail/*.edit"), *TOP.glob("bench/edits/*/*.edit")]}
    sentences = {it for it in named if it.count("_") > 2}
    yield from (f"docs/theorems.md: there is no edit {it}" for it in sorted(sentences - edits))


def faults(top, pages):
    """All that is out of date on the pages."""
    global TOP
    TOP = top
    for page in pages:
        text = prose(page)
        for look in (wrong_paths, wrong_links, wrong_names, wrong_clauses, wrong_files, wrong_counts):
            yield from (f"{page.relative_to(TOP)}: {it}" for it in look(page, text))
    for look in (wrong_kit, missing_commands, missing_edits):
        yield from look()
