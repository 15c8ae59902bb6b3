"""All that is shown of a file: its source, and as much of the analysis as there is."""

import dataclasses

from view.alarms import Alarms
from view.differs import Differs
from view.exclusions import Exclusion, exclusions_of
from view.fixed import Fixed, fixed_in
from view.given_file import Unreadable, text_of
from view.given_inputs import given_at_lines
from view.lines import Lines
from view.loops import Loops
from view.model import Model
from view.origin import Apart, Origin, moved, origin_of
from view.program import call, options_of, unproved
from view.refusals import Refusal, refusal_of, waiting_place
from view.report import Report
from view.row_order import RowOrder
from view.source import SURPRISES, Source, read_alf, read_c


class Analysis:
    """A report on a source."""

    def __init__(self, source: Source, report: Report, root: str) -> None:
        self.source, self.report = source, report
        self.model = Model(source, report, root)
        self.alarms = Alarms(self.model)
        self.lines = Lines(self.model, self.alarms)
        self.loops = Loops(self.model)
        self.rows = RowOrder(self.model)
        self.exclusions: list[Exclusion] = exclusions_of(self.model)


@dataclasses.dataclass(slots=True)
class View:
    """A file with its text, the words of the call, and the program's answer with its status.

    `origin` is the file that it was written from, if its lines are shown: `text` is then of that file. `differs` says
    why no line is marked, `refusal` why there is no report, and `place` where; `unproved` says that the answers are not
    of the proved program, and `notes` are further sentences. `fixed` has what the report takes as the program begins with
    it, and is None where that is not known.
    """

    path: str
    words: list[str]
    text: str
    answer: str = ""
    status: int = 0
    source: Source | None = None
    origin: Origin | None = None
    report: Report | None = None
    analysis: Analysis | None = None
    differs: str = ""
    refusal: Refusal | None = None
    unproved: str = ""
    place: tuple[int, int, str] | None = None
    given: dict[int, list[str]] = dataclasses.field(default_factory=dict)
    fixed: list[Fixed] | None = None
    notes: list[str] = dataclasses.field(default_factory=list)

    @property
    def shown_path(self) -> str:
        """The path of the text."""
        return self.origin.path if self.origin else self.path

    @property
    def why_not(self) -> str:
        """Why there is no report, or why no line is marked, in a sentence."""
        where = f" It is at line {self.place[0] + 1} of {self.shown_path}." if self.place else ""
        differs = f"No line of {self.path} is marked: the rules of this viewer and of ./sweet do not agree on it: "
        told = [f"There is no report on {self.path}. {self.refusal.words}{where}"] if self.refusal else []
        return " ".join([*told, *([f"{differs}{self.differs}."] if self.differs else [])])

    @property
    def rows(self) -> list[str]:
        """The lines of the text. A line ends at a line feed alone."""
        rows = self.text.split("\n")
        return rows[:-1] if rows[-1] == "" else rows


def look(words: list[str], is_own: bool = False, named: str | None = None) -> View:
    """The view for the words of `analyse`. The lines of the file itself are shown where `is_own` is set, also where it
    was written from another; that other one is the file `named`, if one is."""
    path, options = options_of(words)
    if path is None:
        raise Unreadable("give a FILE, as ./sweet analyse takes it")
    root, is_c = options.get("--root", "main"), path.endswith(".c")
    text, answer = text_of(path), call("analyse", *words)
    view = View(path, words, text, answer.text, answer.status, unproved=unproved())
    printed = None
    try:
        printed = printed_text(view, root, is_c)
        view.source = source_of(view, printed, is_c)
        if view.source and is_c and not is_own:
            move(view, named)
        if answer.status == 0:
            view.report = report_of(answer.text)
            view.analysis = analysis_of(view.source, view.report, root)
    except Differs as differs:
        view.source, view.differs = None, str(differs)
    if answer.status:
        view.refusal = refusal_of(answer.text, answer.status, view.text, is_c)
        view.place = view.refusal.place
        if view.source and not view.place:
            view.place = waiting_place(answer.text, view.source, root)
    if view.source and "--inputs" in options:
        give(view, options["--inputs"])
    if answer.status == 0 and printed is not None:
        fix(view, printed, options.get("--inputs"))
    return view


def fix(view: View, printed: str, inputs: str | None) -> None:
    """Finds what the report takes as fixed."""
    try:
        view.fixed = fixed_in(printed, None if inputs is None else text_of(inputs))
    except (Differs, Unreadable, *SURPRISES):
        view.notes.append("What the report takes as fixed in memory could not be found out.")


def move(view: View, named: str | None) -> None:
    """Puts what is shown at the lines of the file that a text of `sweet-c` was written from, where they are known."""
    try:
        view.origin = origin_of(view.path, view.source, named)
    except Apart as apart:
        view.notes.append(str(apart))
    if view.origin:
        view.source, view.text = moved(view.source, view.origin), view.origin.text


def printed_text(view: View, root: str, is_c: bool) -> str | None:
    """The program as ALF; None where the program does not take the file."""
    words = ["lower", f"--root={root}"] if is_c else ["print"]
    printed = call(*words, "--", view.path)
    return printed.text if printed.status == 0 else None


def source_of(view: View, printed: str | None, is_c: bool) -> Source | None:
    """The source with its items."""
    if printed is None:
        return None
    return read_c(view.text, printed) if is_c else read_alf(view.text, printed)


def report_of(text: str) -> Report:
    try:
        return Report(text)
    except SURPRISES as error:
        raise Differs(f"the report is not as it should be: {type(error).__name__} {error}") from error


def analysis_of(source: Source | None, report: Report, root: str) -> Analysis:
    if source is None:
        raise Differs("there is a report, and no program that it is of")
    try:
        return Analysis(source, report, root)
    except SURPRISES as error:
        raise Differs(f"the report does not fit the rules: {type(error).__name__} {error}") from error


def give(view: View, path: str) -> None:
    """Puts the ranges of an inputs file at their declarations."""
    try:
        view.given = given_at_lines(text_of(path), view.source)
    except (Unreadable, *SURPRISES):
        view.notes.append("The ranges of the inputs file could not be shown on their lines.")
