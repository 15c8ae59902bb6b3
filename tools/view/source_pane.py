"""The source on the page: counts, shares and heat in the margin, marks in the code, and what is told at a line."""

import dataclasses

from view.alarms import Alarm
from view.c_cursor import TYPE_WORDS
from view.file_view import View
from view.items import Function
from view.lines import NOTHING, LineFacts
from view.markup import Content, Markup, element, joined, numbers
from view.markup import NOTHING as NO_MARKUP
from view.model import Block
from view.part_row import column_in, labels_row
from view.report import percent_text

# A function of so many lines times calls, and of more, has no box to choose a call.
MOST_CHOICES = 100_000
KEYWORDS = TYPE_WORDS | frozenset("if else for while do switch case default break continue return".split())


@dataclasses.dataclass(slots=True)
class Run:
    """Tokens with what is between them that one element marks; `before` stands in front of it."""

    before: str
    key: tuple[tuple[str, ...], bool] | None
    first: int
    inner: list[Content]


class SourcePane:
    """The rows of the source."""

    def __init__(self, view: View) -> None:
        self.view, self.rows, self.found = view, view.rows, view.analysis
        self.starts = [0]
        for row in self.rows:
            self.starts.append(self.starts[-1] + len(row) + 1)
        # Those of the text that is shown. Where it is another than the program's, no token is known to be in a block.
        self.tokens = view.origin.tokens if view.origin else view.source.tokens if view.source else []
        self.tokens_on: dict[int, list[int]] = {}
        for number, token in enumerate(self.tokens):
            self.tokens_on.setdefault(token.line, []).append(number)
        self.blocks_at: dict[int, list[Block]] = {}
        for block in self.found.model.blocks.values() if self.found and not view.origin else ():
            for token in block.tokens if block.is_shown else ():
                self.blocks_at.setdefault(token, []).append(block)

    def html(self) -> Markup:
        return joined(self.row(line) for line in range(len(self.rows)))

    def facts(self, line: int, path: tuple[int, ...] | None = None) -> LineFacts:
        return self.found.lines.facts(line, path) if self.found else NOTHING

    def parts(self, line: int, facts: LineFacts) -> str:
        return labels_row(self.rows[line], facts.parts) if facts.state == "live" else ""

    def row(self, line: int) -> Markup:
        facts, share = self.facts(line), percent_text(self.facts(line).share)
        blocks = self.found.model.at_line.get(line, []) if self.found else []
        nodes = sorted({node.number for block in blocks for node in block.nodes})
        place = " place" if self.view.place and self.view.place[0] == line else ""
        code = element(
            "code",
            element("span", self.code(line), class_="line"),
            self.badges(line),
            element("span", self.parts(line, facts), class_="parts") if self.found else NO_MARKUP,
            *(self.alarm(line, it) for it in (self.found.alarms.at_line.get(line, []) if self.found else ())),
            self.refusal(line),
        )
        return element(
            "div",
            element("span", facts.count_text, class_="ct"),
            element("span", share, class_="sh"),
            element("a", str(line + 1), class_="ln", aria_hidden="true"),
            code,
            class_=f"row h{facts.level} {facts.state}{place}",
            id=f"L{line + 1}",
            data_l=line,
            tabindex=None if facts.state == "none" else -1,
            data_n=numbers(nodes),
            role="listitem",
            aria_label=self.label(line, facts, share),
        )

    def label(self, line: int, facts: LineFacts, share: str) -> str:
        """The row in words, for those who hear it."""
        if facts.state in ("dead", "noway"):
            return f"line {line + 1}, never reached"
        if not facts.count:
            return f"line {line + 1}"
        count = facts.count_text.replace("..", " to ")
        return f"line {line + 1}, {count} times in a run" + (f", {share} of the bound" if share else "")

    # -- the code

    def code(self, line: int) -> Markup:
        """A line, its tokens marked by what executes them."""
        at, runs = self.starts[line], []
        end = at + len(self.rows[line].removesuffix("\r"))
        for number in self.tokens_on.get(line, []):
            token = self.tokens[number]
            before, key = self.view.text[at : token.start], self.key_of(number)
            word = element("b", token.text) if token.text in KEYWORDS else token.text
            if not runs or key != runs[-1].key or self.is_comment(before):
                runs.append(Run(before, key, number, [word]))
            else:
                runs[-1].inner += [before, word]
            at = token.end
        told = [piece for it in runs for piece in (self.between(it.before), self.marked(line, it))]
        return joined([*told, self.between(self.view.text[at:end])])

    def is_comment(self, between: str) -> bool:
        return bool(self.view.source and between.strip())

    def between(self, text: str) -> Content:
        """What is between two tokens: space and comments."""
        return element("i", text) if self.is_comment(text) else text

    def key_of(self, token: int) -> tuple[tuple[str, ...], bool] | None:
        """What tells the mark of a token from others; None where nothing executes it."""
        blocks = self.blocks_at.get(token)
        return (tuple(it.key for it in blocks), token in self.found.alarms.tokens) if blocks else None

    def marked(self, line: int, run: Run) -> Markup:
        if run.key is None:
            return joined(run.inner)
        nodes = [node for block in self.blocks_at[run.first] for node in block.nodes]
        is_split = len(self.found.model.at_line.get(line, [])) > 1
        kind = "t"
        if not any(it.high for it in nodes):
            kind += " dead"
        elif is_split and any(it.share for it in nodes):
            kind += f" h{self.found.model.level(sum(it.share for it in nodes))}"
        kind += " suspect" if run.key[1] else ""
        return element("span", *run.inner, class_=kind, data_n=numbers([it.number for it in nodes]))

    # -- what is told at a line

    def badges(self, line: int) -> Markup:
        """They stand behind the code, or below it where the line has no room for them."""
        found = self.loop_badges(line) + self.call_badges(line) + self.given_badges(line)
        return element("span", *found, class_="badges") if found else NO_MARKUP

    def given_badges(self, line: int) -> list[Markup]:
        given = {"class_": "badge given", "title": "by the file of inputs"}
        return [element("span", it, **given) for it in self.view.given.get(line, [])]

    def loop_badges(self, line: int) -> list[Markup]:
        found = []
        for loop in self.found.loops.at_line.get(line, []) if self.found else ():
            both = ", one loop with the other here" if loop.shares_header else ""
            title = f"{loop.statement.word} loop{both}: visits of its head each time it is entered, and in a whole run"
            words = self.found.loops.words(loop, with_run=False)
            found.append(element("span", element("u", "↻"), " ", words, class_="badge loop", title=title))
        return found

    def call_badges(self, line: int) -> list[Markup]:
        if not self.found:
            return []
        model = self.found.model
        here = [it for it in enumerate(model.source.functions) if model.tokens[it[1].named].line == line]
        return [it for it in (self.chooser(*it) for it in here) if it]

    def chooser(self, number: int, function: Function) -> Markup | None:
        """Of a function that is called twice the calls, to see one of them alone."""
        model = self.found.model
        paths = model.paths.get(function.name, [])
        if not paths:
            return element("span", "not called", class_="badge off")
        if len(paths) == 1:
            return None
        if not self.has_choice(function):
            return element("span", f"{len(paths)} calls, added up", class_="badge off")
        options = [element("option", f"{len(paths)} calls, added up", value="")]
        for at, path in enumerate(paths):
            options.append(element("option", f"call from line {model.call_words(path)}", value=at))
        return element("select", *options, class_="badge", data_f=number, aria_label=f"counts of {function.name}")

    def alarm(self, line: int, alarm: Alarm) -> Markup:
        tokens = [it for it in (self.found.model.tokens[number] for number in alarm.tokens) if it.line == line]
        column = column_in(self.rows[line], tokens[0].column) if tokens else 0
        others = [str(it + 1) for it in alarm.lines if it != line]
        where = f" here or at line{'s' if len(others) > 1 else ''} {', '.join(others)}" if others else ""
        calls = self.found.model.instance_words(alarm.nodes)
        words = f" {alarm.words}{where}{', ' + calls if calls else ''}"
        sign = element("em", f"▲ {alarm.cause}")
        nodes = numbers([it.number for it in alarm.nodes])
        return element("span", " " * min(column, 60), sign, words, class_="alarm", data_n=nodes)

    def refusal(self, line: int) -> Markup:
        """What is wrong at the line, where there is no report."""
        if not self.view.place or self.view.place[0] != line:
            return NO_MARKUP
        _, column, words = self.view.place
        indent = " " * min(column_in(self.rows[line], column), 60)
        return element("span", indent, element("em", "▲"), " ", words, class_="alarm")

    # -- one call alone

    def row_facts(self, line: int, path: tuple[int, ...] | None) -> list[object]:
        facts = self.facts(line, path)
        return [facts.count_text, percent_text(facts.share), facts.level, facts.state, self.parts(line, facts)]

    def variants(self) -> dict[int, list[dict[int, list[object]]]]:
        """For each function that is called twice the facts of its lines: of all calls together, then of each."""
        model, found = self.found.model, {}
        for number, function in enumerate(model.source.functions):
            if self.has_choice(function):
                paths, lines = model.paths[function.name], self.lines_of(function)
                found[number] = [{it: self.row_facts(it, path) for it in lines} for path in (None, *paths)]
        return found

    def has_choice(self, function: Function) -> bool:
        """Whether the calls of a function can be seen one by one."""
        calls = len(self.found.model.paths.get(function.name, []))
        return calls > 1 and calls * len(self.lines_of(function)) < MOST_CHOICES

    def lines_of(self, function: Function) -> list[int]:
        """The lines that belong to a function alone."""
        at_line = sorted(self.found.model.at_line.items())
        return [line for line, blocks in at_line if all(it.function is function for it in blocks)]
