"""The view as a text for a terminal: counts in the margin, parts and alarms below their lines."""

from view.exclusions import lines_text
from view.file_view import View
from view.lines import NOTHING, LineFacts
from view.markup import shortened
from view.part_row import TAB, column_in, labels_row
from view.report import percent_text
from view.visible import in_line, visible

# Codes of colours.
GREY, RED, YELLOW, CYAN, BOLD_RED = "90", "31", "33", "36", "1;31"


def text(view: View, has_colour: bool = False) -> str:
    return "\n".join(Screen(view, has_colour).lines())


class Screen:
    """The lines of the text. Each is made by `paint`, so that no text of a file reaches a terminal as it is."""

    def __init__(self, view: View, has_colour: bool) -> None:
        self.view, self.found, self.has_colour = view, view.analysis, has_colour
        self.facts = [self.found.lines.facts(it) if self.found else NOTHING for it in range(len(view.rows))]
        self.count_width = max([6, *(len(it.count_text) for it in self.facts)]) + 2
        self.number_width = max(4, len(str(len(view.rows))))

    def paint(self, code: str, text: str) -> str:
        """A piece of a line, in a colour if it has a code."""
        text = in_line(text)
        return f"\x1b[{code}m{text}\x1b[0m" if self.has_colour and code and text.strip() else text

    def lines(self) -> list[str]:
        rows = [line for number in range(len(self.view.rows)) for line in self.row(number)]
        heading, end = ([self.paint("", it) for it in told] for told in (self.heading(), self.exclusions()))
        return [*heading, *rows, *end]

    def heading(self) -> list[str]:
        view, found = self.view, []
        for it in [view.unproved, *view.notes]:
            found += [it] if it else []
        found += [""] if found else []
        if view.origin:
            found += [f"What is proved speaks of {view.origin.written}, which ./sweet-c wrote from this file.", ""]
        if view.differs:
            found += ["No line is marked. The rules of this viewer and of `sweet` do not agree on this file:"]
            found += [f"  {view.differs}", ""]
            found += [*view.answer.rstrip("\n").split("\n"), ""] if view.status == 0 else []
        if view.refusal:
            found += [f"There is no report. {view.refusal.words}", ""]
        return found + self.bounds()

    def bounds(self) -> list[str]:
        if not self.found:
            return []
        report = self.found.report
        bound = "path bound" if self.found.model.is_by_path else "count bound"
        told = f"no run costs more than {report.path_bound} (path bound, {report.path_word})"
        found = [f"{self.view.shown_path}: {told}"]
        found.append(f"count bound {report.count_bound}; shares are of the {bound}")
        if self.view.fixed:
            told = ", ".join(f"{it.name} = {it.value}{' (written)' if it.is_written else ''}" for it in self.view.fixed)
            found.append(f"for one run, whose memory is fixed at the start: {told}")
        return [*found, "", f"{'in a run':>{self.count_width}} {'share':>5} {'line':>{self.number_width}}"]

    def row(self, line: int) -> list[str]:
        """A line of the source with what stands below it."""
        facts, row = self.facts[line], self.view.rows[line].removesuffix("\r")
        count = facts.count_text.replace("–", "-")
        margin = f"{count:>{self.count_width}} {percent_text(facts.share):>5} {line + 1:>{self.number_width}} "
        is_off = facts.state in ("dead", "noway")
        colour = GREY if is_off else RED if facts.level > 6 else YELLOW if facts.level > 3 else ""
        code = self.paint(GREY if is_off else "", visible(row).expandtabs(TAB))
        told = self.told(line)
        end = self.paint(CYAN, "   <- " + "; ".join(told)) if told else ""
        blank = " " * len(margin) + ": "
        return [self.paint(colour, margin) + "| " + code + end] + [blank + it for it in self.below(line, facts)]

    def told(self, line: int) -> list[str]:
        loops = self.found.loops.at_line.get(line, []) if self.found else []
        return [f"loop: {self.found.loops.words(it)}" for it in loops] + self.view.given.get(line, [])

    def below(self, line: int, facts: LineFacts) -> list[str]:
        found, row = [], self.view.rows[line]
        if facts.parts and facts.state == "live":
            found.append(self.paint(CYAN, labels_row(row, facts.parts).replace("–", "-")))
        for alarm in self.found.alarms.at_line.get(line, []) if self.found else ():
            tokens = [self.found.model.tokens[it] for it in alarm.tokens]
            columns = [it.column for it in tokens if it.line == line]
            others = ", ".join(str(it + 1) for it in alarm.lines if it != line)
            where = f" (here or at line {others})" if others else ""
            calls = self.found.model.instance_words(alarm.nodes)
            words = f"^ alarm {alarm.cause}: {alarm.words}{where}{', ' + calls if calls else ''}"
            found.append(self.paint(BOLD_RED, " " * column_in(row, min(columns, default=0)) + words))
        if self.view.place and self.view.place[0] == line:
            found.append(self.paint(BOLD_RED, " " * column_in(row, self.view.place[1]) + "^ " + self.view.place[2]))
        return found

    def group_words(self, group: list[int]) -> str:
        """The lines of a group, and its parts where these lines have others, too."""
        model = self.found.model
        text = lines_text(model, group)
        lines = {model.nodes[it].block.home for it in group}
        is_split = any(len([it for it in model.at_line[line] if it.home == line]) > 1 for line in lines)
        parts = dict.fromkeys(model.nodes[it].block.text for it in group)
        words = f" ({shortened(' / '.join(parts), 40)})" if is_split else ""
        return ("lines " if "," in text or "–" in text else "line ") + text + words

    def exclusions(self) -> list[str]:
        found = []
        for it in self.found.exclusions if self.found else ():
            told = " | ".join(self.group_words(group) for group in it.groups)
            found.append(f"  in one {self.found.loops.scope_words(it.scope)} only one of: {told}")
        return ["", "Never together:", *found] if found else []
