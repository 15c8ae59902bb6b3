"""The words of the command, the files in their order, and the answer with its status."""

import argparse
import pathlib
import re
import sys

from recheck.alf_text import text_of
from recheck.checks import check
from recheck.given import costs_of, rows_of
from recheck.graph import ENTRY, graph_of, name_of
from recheck.objections import Subject, objection
from recheck.program import program_of
from recheck.report import report_of
from recheck.scopes import outline_of
from recheck.step import Stepper
from recheck.unread import Refused, Unread

USAGE, NO, READ_FAILED, WRITE_FAILED, MEMORY, UNREAD = 1, 4, 5, 6, 7, 9
NAME = re.compile(r"[ !#-\[\]-~]{1,64}")


class Words(argparse.ArgumentParser):
    """The program answers what is no command by a line of its own."""

    def error(self, message: str) -> None:  # type: ignore[override]
        raise Refused("fault usage", USAGE)


def words_of(words: list[str]) -> argparse.Namespace:
    parser = Words(prog="sweet-recheck", description="Checks a certified report a second time.", allow_abbrev=False)
    parser.add_argument("file", metavar="FILE.alf")
    parser.add_argument("report", metavar="REPORT")
    parser.add_argument("--root", default="main", metavar="NAME")
    parser.add_argument("--inputs", metavar="FILE")
    parser.add_argument("--costs", metavar="FILE")
    given = parser.parse_args(words)
    if not NAME.fullmatch(given.root):
        parser.error("a root is a name")
    return given


def read(name: str, role: str) -> bytes:
    try:
        return pathlib.Path(name).read_bytes()
    except (OSError, ValueError) as fault:
        raise Refused(f"fault read {role}", READ_FAILED) from fault


def subject_of(given: argparse.Namespace) -> Subject:
    text = text_of(read(given.file, "program"))
    check(text, given.root)
    program = program_of(text)
    root = program.numbers[given.root]
    graph = graph_of(program, root)
    outline = outline_of(graph)
    rows = rows_of(read(given.inputs, "inputs"), program, root) if given.inputs is not None else []
    table = costs_of(read(given.costs, "costs") if given.costs is not None else None, program)
    costs = [
        0 if block == ENTRY else table[function][block]
        for (_, block), function in zip(graph.nodes, graph.functions, strict=True)
    ]
    names = [name_of(program, root, it).encode() for it in graph.nodes]
    return Subject(graph, outline, costs, names, Stepper(program, graph, rows))


def judged(subject: Subject, report: bytes) -> tuple[str, int]:
    """The answer to a report on a program that was read."""
    try:
        line = objection(subject, report_of(report))
    except Refused as refused:
        return refused.line, refused.status
    return (line, NO) if line else ("accepted", 0)


def answer(words: list[str]) -> tuple[str, int]:
    try:
        given = words_of(words)
        subject = subject_of(given)
        return judged(subject, read(given.report, "report"))
    except Refused as refused:
        return refused.line, refused.status
    except Unread as unread:
        return f"unread {unread}", UNREAD


def main(words: list[str]) -> int:
    try:
        line, status = answer(words)
        print(line, flush=True)
    except MemoryError:
        return MEMORY
    except OSError:
        sys.stdout = None  # type: ignore[assignment]
        return WRITE_FAILED
    return status


if __name__ == "__main__":
    sys.exit(main(sys.argv[1:]))
