"""Holds `sweet-recheck` against `sweet check`: the same answer to each certificate, as it is and altered."""

import argparse
import collections
import dataclasses
import os
import pathlib
import subprocess
import tempfile
from collections.abc import Iterator

from check_recheck.altering import altered, damaged
from check_recheck.programs import program
from examples import TOP, options_of
from recheck.command import UNREAD, answer, judged, subject_of, words_of

SWEET = os.environ.get("SWEET") or str(TOP / "sweet")
POLICIES = ("joins", "exits", "none")


@dataclasses.dataclass(frozen=True, slots=True)
class Case:
    """A program of ALF with its report, and the options of `check` for it."""

    name: str
    file: pathlib.Path
    options: list[str]
    report: str


def ran(*words: str) -> tuple[str, int]:
    found = subprocess.run([SWEET, *words], cwd=TOP, stdin=subprocess.DEVNULL, capture_output=True, timeout=120)
    return found.stdout.decode(), found.returncode


def by_examples(room: pathlib.Path) -> Iterator[Case]:
    for path in sorted([*(TOP / "examples").glob("*.alf"), *(TOP / "examples").glob("*.c")]):
        options, file = options_of(path), path
        if path.suffix == ".c":
            text, status = ran("lower", str(path))
            file = room / f"{path.name}.alf"
            file.write_text(text, encoding="ascii")
            if status:
                continue
        text, status = ran("analyse", str(file), *options, "--cert")
        if status == 0:
            yield Case(path.name, file, options[:2] if "--inputs" in options else [], text)


def by_chance(seeds: range, room: pathlib.Path) -> Iterator[Case]:
    for seed in seeds:
        text, inputs = program(seed)
        file = room / "program.alf"
        file.write_text(text, encoding="ascii")
        ranges = file.with_suffix(".toml")
        ranges.write_text(inputs, encoding="ascii")
        options = ["--inputs", str(ranges)]
        policy = POLICIES[seed % len(POLICIES)]
        report, status = ran("analyse", str(file), *options, "--cert", "--merge", policy, "--turns", "2000")
        if status not in (0, 3):
            raise SystemExit(f"recheck: the program of seed {seed} is refused: {report.strip()}")
        if status == 0:
            yield Case(f"seed {seed}", file, options, report)


def differences(case: Case, times: int, room: pathlib.Path, answers: collections.Counter[str]) -> list[str]:
    """The report as it is, which is accepted, and so many altered ones: what the two checkers answer differently."""
    wrong = []
    subject = subject_of(words_of([str(case.file), "-", *case.options]))
    for number in range(times + 1):
        text = altered(case.report, f"{case.name} {number}") if number else case.report
        report = room / "report"
        report.write_text(text, encoding="ascii")
        due, status = ran("check", str(case.file), str(report), *case.options)
        line, found = judged(subject, text.encode())
        answers[" ".join(due.split()[:2])] += 1
        if (f"{line}\n", found) != (due, status) or (number == 0 and line != "accepted"):
            wrong.append(f"{case.name}, alteration {number}: check answers {due.strip()}, sweet-recheck {line}")
    return wrong


def is_refused(due: str) -> str:
    """What is not read where `check` tells this of a program or a table."""
    number = int(due.split()[1]) if due.startswith("fault ") and due.split()[1].isdigit() else 0
    return "unread program" if 10 <= number <= 40 else f"unread {due.split()[3]}" if 70 <= number <= 73 else ""


def damages(case: Case, times: int, room: pathlib.Path, answers: collections.Counter[str]) -> list[str]:
    """Damaged programs and tables: what is refused is not read, and all else is answered alike."""
    wrong = []
    report = room / "report"
    report.write_text(case.report, encoding="ascii")
    for number in range(times):
        is_table = bool(case.options) and number % 3 == 2
        given = pathlib.Path(case.options[1]) if is_table else case.file
        file = room / ("damaged.toml" if is_table else "damaged.alf")
        file.write_text(damaged(given.read_text(encoding="ascii"), f"{case.name} {number}"), encoding="ascii")
        words = [str(case.file if is_table else file), str(report)]
        words += ["--inputs", str(file)] if is_table else case.options
        due, status = ran("check", *words)
        line, found = answer(words)
        unread = is_refused(due)
        answers["unread" if unread else " ".join(due.split()[:2])] += 1
        if not (line.startswith(unread) and found == UNREAD if unread else (f"{line}\n", found) == (due, status)):
            wrong.append(f"{case.name}, damage {number}: check answers {due.strip()}, sweet-recheck {line}")
    return wrong


def run(words: list[str]) -> int:
    parser = argparse.ArgumentParser(prog="check-recheck", description=__doc__)
    parser.add_argument("--programs", type=int, default=25, metavar="N", help="programs by chance, 25 if not told")
    parser.add_argument("--first", type=int, default=0, metavar="SEED", help="the first seed, 0 if not told")
    parser.add_argument("--altered", type=int, default=20, metavar="N", help="altered reports of each, 20 if not told")
    parser.add_argument("--damaged", type=int, default=3, metavar="N", help="damaged programs of each, 3 if not told")
    given = parser.parse_args(words)
    answers: collections.Counter[str] = collections.Counter()
    wrong, count = [], 0
    with tempfile.TemporaryDirectory(prefix="recheck-") as place:
        room = pathlib.Path(place)
        seeds = range(given.first, given.first + given.programs)
        for cases in (by_chance(seeds, room), by_examples(room)):
            for case in cases:
                count += 1
                wrong += differences(case, given.altered, room, answers)
                wrong += damages(case, given.damaged, room, answers)
    for it in wrong:
        print(it)
    told = ", ".join(f"{name} {number}" for name, number in sorted(answers.items()))
    print(f"recheck: {count} programs, {sum(answers.values())} reports, {len(wrong)} faults: {told}")
    return 1 if wrong or not count else 0
