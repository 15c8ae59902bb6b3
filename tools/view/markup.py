"""Elements of HTML. Whatever is no markup yet is escaped here, and nowhere else."""

import collections.abc
import dataclasses
import html
import json
import re

from view.visible import in_line, visible

VOID = ("meta",)
# Nearly all that is shown needs no escape, which is soon seen.
SAFE = re.compile("[ !#-%(-;=?-~]*")


@dataclasses.dataclass(frozen=True, slots=True)
class Markup:
    """Text of HTML, which this module alone makes. It is no string, so that none is taken for it."""

    text: str


Content = Markup | str
NOTHING = Markup("")


def markup_of(content: Content) -> Markup:
    """A text as markup, in which characters that nobody sees are shown."""
    if isinstance(content, Markup):
        return content
    return Markup(content if SAFE.fullmatch(content) else html.escape(visible(content)))


def joined(content: collections.abc.Iterable[Content]) -> Markup:
    return Markup("".join(markup_of(it).text for it in content))


def element(name: str, /, *content: Content, **attributes: object) -> Markup:
    """An element. `class_` stands for `class`, and other underscores for dashes. An attribute that is None is left out,
    and one that is True has no value."""
    return enclosed(name, joined(content).text, attributes)


def raw_element(name: str, content: str, **attributes: object) -> Markup:
    """A style or a script, whose text HTML takes as it stands: nothing in it may look like an end of the element."""
    if "</" in content or "<!" in content:
        raise ValueError(f"the text of a {name} would end it")
    return enclosed(name, content, attributes)


def data_element(data: object, **attributes: object) -> Markup:
    """What the page's script reads. Of `<` and the like only escapes stand in it."""
    text = json.dumps(seen(data), separators=(",", ":"), ensure_ascii=True)
    for it in "<>&":
        text = text.replace(it, f"\\u{ord(it):04x}")
    return raw_element("script", text, type="application/json", **attributes)


def enclosed(name: str, inner: str, attributes: dict[str, object]) -> Markup:
    given = ""
    for key, value in attributes.items():
        if value is not None and value is not False:
            key = key.rstrip("_").replace("_", "-")
            given += f" {key}" if value is True else f' {key}="{quoted(str(value))}"'
    return Markup(f"<{name}{given}>" + ("" if name in VOID else f"{inner}</{name}>"))


def quoted(value: str) -> str:
    """The value of an attribute, for between double quotes."""
    return value if SAFE.fullmatch(value) else html.escape(in_line(value))


def seen(data: object) -> object:
    """Data with what nobody sees as escapes in its strings."""
    if isinstance(data, str):
        return visible(data)
    if isinstance(data, list | tuple):
        return [seen(it) for it in data]
    return {key: seen(value) for key, value in data.items()} if isinstance(data, dict) else data


def shortened(text: str, most: int) -> str:
    return text if len(text) <= most else text[: most - 1] + "…"


def numbers(nodes: list[int]) -> str:
    """The nodes that an element is of, as the page's script reads them."""
    return " ".join(str(it) for it in nodes)


def item(name: str, nodes: list[int], line: int, /, *content: Content, kind: str = "", **attributes: object) -> Markup:
    """An element of a list that can be pointed at, with its nodes and the line that it leads to."""
    given = {"tabindex": -1, "data_n": numbers(nodes), "data_go": line + 1, **attributes}
    return element(name, *content, class_=f"item {kind}".strip(), **given)
