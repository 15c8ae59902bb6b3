"""Pages of the viewer that are spoilt in one place, each of which tools/check-page must notice."""

import collections.abc

from view.html_page import sum_of

SPOILS = (
    ("an attribute with a script", "<h1>", '<h1 onclick="f()">'),
    ("an attribute with a style", "<h1>", '<h1 style="color:red">'),
    ("an attribute of another kind", "<h1>", "<h1 accesskey=x>"),
    ("an element of another kind", "</h1>", "</h1><article></article>"),
    ("a picture that is fetched", "</h1>", "</h1><img src=x.png>"),
    ("a link that leads away", "</h1>", '</h1><a href="https://other.example/">x</a>'),
    ("a script more", "</h1>", "</h1><script>document.title=7</script>"),
    ("a style more", "</h1>", "</h1><style>h1 { color: red }</style>"),
    ("a script that is another one", "function show(element) {", "function show(element) { void 0;"),
    ("a style that is another one", "</style>", "h1 { color: red }</style>"),
    ("an unseen character", "</h1>", "\u202e</h1>"),
)
# These have the sum of what they were made.
SCRIPTS = (
    ("a script that fails", "show(null);\n}", "show(null);\nnothing();\n}"),
    ("a script that does not begin", "if (data.nodes) {", "if (data.none) {"),
    ("a script that writes markup", "more);\n  }", "more);\n    box.innerHTML += '<article></article>';\n  }"),
    ("a script that fails when pointed at", "function pointed(event) {", "function pointed(event) {\n  nothing();"),
    ("a script that fails at a click", "function keep(element) {", "function keep(element) {\n  nothing();"),
)


def pages(page: str) -> collections.abc.Iterator[tuple[str, str]]:
    """What was done, and the page with it."""
    for what, old, new in SPOILS:
        yield what, replaced(page, old, new)
    script = page.rpartition("<script>")[2].partition("</script>")[0]
    for what, old, new in SCRIPTS:
        other = replaced(script, old, new)
        changed = replaced(page, script, other)
        yield what, replaced(changed, escaped(sum_of(script)), escaped(sum_of(other)))


def escaped(text: str) -> str:
    return text.replace("'", "&#x27;")


def replaced(text: str, old: str, new: str) -> str:
    assert old in text, old
    return text.replace(old, new, 1)
