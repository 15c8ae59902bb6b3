"""Counts of lines by gcov, of runs of a program as it was written, against what the view shows of it."""

import collections.abc
import json
import pathlib
import random
import shutil
import subprocess
import tomllib

from view.file_view import View

# The low ends of the ranges, the high ends, and values between.
RUNS = 3
Cell = tuple[str, int, int]


def is_here() -> bool:
    return shutil.which("gcov") is not None


def count_faults(given: pathlib.Path, inputs: pathlib.Path, view: View, chance: random.Random) -> tuple[int, list[str]]:
    """How many counts were compared, and those that are not in the range that is shown at their line."""
    rows = tomllib.loads(inputs.read_text(encoding="utf-8")).get("input", [])
    room, compared, faults = given.parent, 0, []
    build(given, [cell for row in rows for cell in cells_of(row)])
    for run in range(RUNS):
        words = [str(value_in(row, run, chance)) for row in rows for _ in cells_of(row)]
        (room / "given.gcda").unlink(missing_ok=True)
        subprocess.run([room / "counted", *words], cwd=room, stdin=subprocess.DEVNULL, timeout=60)
        for line, count in counts_of(given):
            shown, code = view.analysis.lines.facts(line).count, view.rows[line].strip()
            compared += shown is not None
            # To a brace alone gcov gives the end of a function.
            if shown is None and count and code != "}" or shown and not shown[0] <= count <= shown[1]:
                faults.append(f"line {line + 1} is executed {count} times, and {shown} is shown: {code}")
    return compared, faults


def cells_of(row: dict) -> list[Cell]:
    """The cells of a range: frame, first byte and bytes."""
    size = row["size"] // 8
    return [(row["frame"], row["offset"] + number * size, size) for number in range(row.get("count", 1))]


def value_in(row: dict, run: int, chance: random.Random) -> int:
    return [row["low"], row["high"]][run] if run < 2 else chance.randint(row["low"], row["high"])


def build(given: pathlib.Path, cells: list[Cell]) -> None:
    """Makes the program `counted` beside the file. Its words are the values of the cells."""
    room, names = given.parent, sorted({name for name, _, _ in cells})
    text = "#include <stdlib.h>\n#include <string.h>\nint counted_main(void);\n"
    text += "".join(f"extern unsigned char {it}[];\n" for it in names)
    text += "int main(int count, char **words) {\n    long long worth;\n"
    for number, (name, offset, size) in enumerate(cells, 1):
        text += f"    worth = atoll(words[{number}]);\n    memcpy({name} + {offset}, &worth, {size});\n"
    (room / "driver.c").write_text(text + "    counted_main();\n    return 0;\n}\n", encoding="ascii")
    counted = ["-O0", "-fwrapv", "--coverage", "-Dmain=counted_main", "-c", given.name, "-o", "given.o"]
    for words in (counted, ["-c", "driver.c"], ["--coverage", "-o", "counted", "given.o", "driver.o"]):
        subprocess.run(["cc", "-w", *words], cwd=room, check=True)


def counts_of(given: pathlib.Path) -> collections.abc.Iterator[tuple[int, int]]:
    """The lines of the file, from 0, with how often each was executed."""
    told = subprocess.run(["gcov", "-t", "-j", "given.o"], cwd=given.parent, capture_output=True, check=True).stdout
    for file in json.loads(told)["files"]:
        if pathlib.Path(file["file"]).name == given.name:
            for line in file["lines"]:
                yield line["line_number"] - 1, line["count"]
