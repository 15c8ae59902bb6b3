"""The view as one page of HTML, with all that it needs inside."""

import base64
import hashlib
import os
import pathlib
import shlex

from view.file_view import View
from view.markup import NOTHING, Content, Markup, data_element, element, joined, raw_element
from view.model import LEVELS
from view.panel import Panel
from view.source_pane import SourcePane
from view.visible import in_line

HERE = pathlib.Path(__file__).resolve().parent
FOR_ONE_RUN = "For one run, whose memory is fixed at the start:"
FOR_EACH_START = "For one run; each global that it reads has a range."
# Each page begins so: by that a file is known to be one.
BEGIN = '<!doctype html><html lang="en"><head><meta charset="utf-8"><meta name="generator" content="sweet-view">'
# Nothing is fetched, and of styles and scripts those alone count whose sums the page tells: no attribute is one.
POLICY = "default-src 'none'; style-src {}; script-src {}; base-uri 'none'; form-action 'none'"


def page(view: View) -> str:
    return Page(view).html()


def sum_of(text: str) -> str:
    """The checksum of a style or a script, as a policy has it."""
    return f"'sha256-{base64.b64encode(hashlib.sha256(text.encode('utf-8')).digest()).decode('ascii')}'"


class Page:
    """The parts of the page."""

    def __init__(self, view: View) -> None:
        self.view, self.found = view, view.analysis
        self.source = SourcePane(view)
        self.name = in_line(os.path.basename(view.shown_path))

    def html(self) -> str:
        panel = Panel(self.found) if self.found else None
        data = {"nodes": panel.node_data(), "variants": self.source.variants()} if panel else {}
        if panel:
            data["counted"] = self.found.model.is_by_path
        style, script = self.style(), (HERE / "page.js").read_text(encoding="utf-8")
        policy = POLICY.format(sum_of(style), sum_of(script))
        head = element(
            "head",
            element("meta", charset="utf-8"),
            element("meta", name="generator", content="sweet-view"),
            element("meta", http_equiv="Content-Security-Policy", content=policy),
            element("meta", name="viewport", content="width=device-width,initial-scale=1"),
            element("title", f"{self.name} — sweet"),
            raw_element("style", style),
        )
        body = element(
            "body",
            element("header", self.heading()),
            element("main", self.source_section(), panel.html() if panel else NOTHING),
            data_element(data, id="data"),
            raw_element("script", script),
            class_=None if panel else "plain",
        )
        return f"<!doctype html>{element('html', head, body, lang='en').text}\n"

    def style(self) -> str:
        """With the width of the counts, and a class for each width of a bar: no element has a style of its own."""
        bars = "".join(f".w{it} {{ --w: {it / 100}; }}\n" for it in range(101))
        return f"{(HERE / 'page.css').read_text(encoding='utf-8')}{bars}:root {{ --cw: {self.count_width()}ch; }}\n"

    def count_width(self) -> int:
        counts = [len(self.source.facts(line).count_text) for line in range(len(self.view.rows))] if self.found else []
        return max([6, *counts])

    def source_section(self) -> Markup:
        cells = [element("span", "in a run", class_="ct"), element("span", "share", class_="sh")]
        cells += [element("span", "line", class_="ln"), element("code")]
        top = element("div", *cells, class_="row top", aria_hidden="true") if self.found else NOTHING
        rows = element("div", top, self.source.html(), class_="rows", role="list")
        parts = [self.legend() if self.found else NOTHING, rows, self.written_text()]
        return element("section", *parts, class_="source", aria_label="source")

    # -- the head

    def heading(self) -> Markup:
        command = in_line("sweet analyse " + shlex.join(self.view.words))
        return joined(
            [
                element("h1", self.name),
                element("p", element("code", command), class_="cmd"),
                self.unproved(),
                self.origin(),
                *self.warnings(),
                self.bare_report() if self.view.status == 0 and not self.found else NOTHING,
                element("div", *self.figures(), class_="stats") if self.found else NOTHING,
                self.fixed() if self.view.report else NOTHING,
                *(element("p", in_line(it), class_="note") for it in self.view.notes),
            ]
        )

    def unproved(self) -> Markup:
        """That the answers are not those of the proved program, if so."""
        told = in_line(self.view.unproved)
        return element("div", element("strong", told), class_="warn") if told else NOTHING

    def origin(self) -> Markup:
        """That the report is of another text than the one that is shown."""
        origin = self.view.origin
        if origin is None:
            return NOTHING
        out = element("code", in_line(os.path.basename(origin.written)))
        words: list[Content] = [element("strong", "What is proved speaks of ", out), ", which "]
        words += [element("code", "./sweet-c"), f" wrote from {self.name}. Counts, loops and alarms of each statement "]
        words += [f"stand here at the line of {self.name} that it comes from; the lists have its words in ", out, "."]
        return element("div", *words, class_="from")

    def written_text(self) -> Markup:
        """The text that the report is of, where another is shown."""
        origin = self.view.origin
        if origin is None:
            return NOTHING
        summary = element("summary", "The text of ", element("code", in_line(os.path.basename(origin.written))))
        return element("details", summary, element("pre", origin.written_text), class_="raw")

    def warnings(self) -> list[Markup]:
        """Why no line is marked, and why there is no report."""
        found = []
        if self.view.differs:
            lead = element("strong", "No line is marked.")
            why = f" do not agree on this file: {in_line(self.view.differs)}."
            is_told = " The report itself is not in doubt." if self.view.status == 0 else ""
            words = " The rules of this viewer and of ", element("code", "sweet"), why, is_told
            found.append(element("div", lead, *words, class_="warn"))
        if self.view.refusal:
            line = self.view.place[0] + 1 if self.view.place else None
            link: list[Content] = [" ", element("a", f"Line {line}", href=f"#L{line}"), "."] if line else []
            refusal = self.view.refusal
            words = " The analysis answers ", element("code", in_line(refusal.line)), f" (status {refusal.status})."
            found.append(element("div", element("strong", "There is no report."), *words, *link, class_="warn"))
        return found

    def bare_report(self) -> Markup:
        """The bounds and the report as it was printed, where no line is marked."""
        report, figures = self.view.report, []
        if report:
            figures.append(figure(grouped(report.path_bound), "no run costs more than this", "big"))
            figures.append(figure(grouped(report.count_bound), "by greatest counts alone (count bound)"))
            figures.append(figure(str(len(report.alarms) or "none"), "alarms", "bad" if report.alarms else "good"))
        summary = element("summary", "The report as it was printed")
        raw = element("details", summary, element("pre", self.view.answer), class_="raw", open=not report)
        return joined([element("div", *figures, class_="stats"), raw])

    def figures(self) -> list[Markup]:
        report, alarms = self.found.report, self.found.alarms.all
        stopped = element("small", " (the search was stopped; it holds all the same)")
        is_stopped = report.path_word == "stopped"
        told = [stopped] if is_stopped else []
        found = [figure(grouped(report.path_bound), "no run costs more than this", "big", *told)]
        if report.count_bound != report.path_bound:
            found.append(figure(grouped(report.count_bound), "by greatest counts alone (count bound)"))
        words = ("alarm" if len(alarms) == 1 else "alarms") + (": a run may fault" if alarms else ": no run faults")
        found.append(figure(str(len(alarms) or "none"), words, "bad" if alarms else "good"))
        states = [self.source.facts(line).state for line in range(len(self.view.rows))]
        never = states.count("dead") + states.count("noway")
        if never:
            found.append(figure(str(never), f"line{'' if never == 1 else 's'} never reached"))
        return found

    def fixed(self) -> Markup:
        """What holds of one run alone: the memory that no range names."""
        if self.view.fixed is None:
            return NOTHING
        told: list[Content] = [element("b", FOR_ONE_RUN if self.view.fixed else FOR_EACH_START)]
        for number, it in enumerate(self.view.fixed):
            words = element("code", f"{it.name} = {it.value}")
            told += [", " if number else " ", element("span", words, " (written)", class_="amber") if it.is_written else words]
        return element("p", *told, class_="fixed")

    def legend(self) -> Markup:
        """What heat and the margin mean."""
        scale = element("span", *(element("i", class_=f"h{it}") for it in range(1, LEVELS + 1)), class_="scale")
        dot = " ", element("span", "·", class_="sep"), " "
        return element(
            "p",
            *(scale, " ", self.heat(), *dot),
            *(element("b", "5..17"), " at least 5 and at most 17 times in a run", *dot),
            *("below a line: its parts, where they differ", *dot),
            *(element("span", "grey", class_="dead"), " never reached"),
            class_="legend",
        )

    def heat(self) -> str:
        """What the shares are of."""
        report = self.found.report
        if report.path_bound == report.count_bound:
            return f"share of the bound, {grouped(report.path_bound)}"
        if self.found.model.is_by_path:
            return f"share of the path bound, {grouped(report.path_bound)}, in one way to come to it"
        return f"share of the count bound, {grouped(report.count_bound)}"


def figure(number: str, words: str, kind: str = "", *more: Markup) -> Markup:
    return element("div", element("b", number), element("span", words, *more), class_=f"stat {kind}".strip())


def grouped(number: int) -> str:
    """A number with thin spaces between groups of three digits."""
    return f"{number:,}".replace(",", "\u202f")
