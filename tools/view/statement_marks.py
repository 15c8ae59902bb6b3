"""The comments by which `sweet-c` tells of each statement the line that it comes from."""

import re

from view.source import Source

MARK = re.compile(r"/\* (?:([\w.+/-]+):)?([0-9]+) \*/")


class StatementMarks:
    """For each token the comment that holds for it: the last one before it on its line.

    Braces, and `else` after one, have no comment: they are of the statement that opened the brace.
    """

    def __init__(self, source: Source) -> None:
        self.source = source
        # File and line; the file is empty where it is the one that the text was written from.
        self.places: list[tuple[str, int] | None] = []
        self.has_own: list[bool] = []
        self.read()
        self.fault = self.first_fault()

    def read(self) -> None:
        opened: list[tuple[str, int] | None] = []
        here = last = None
        line, is_own, end = -1, False, 0
        for token in self.source.tokens:
            if token.line != line:
                here, is_own, line = None, False, token.line
            between = self.source.text[end : token.start].rpartition("\n")[2]
            for file, number in MARK.findall(between):
                here = last = file, int(number)
                is_own = True
            if token.text == "{":
                here = here or (opened[-1] if opened else last)
                opened.append(here)
            elif token.text == "}" and opened:
                opener = opened.pop()
                here = here if is_own else opener
            self.places.append(here)
            self.has_own.append(is_own)
            end = token.end

    def line_of(self, token: int) -> int:
        """The line of a token in the file, from 1; 0 where no comment holds for it, or one that names another file."""
        place = self.places[token]
        return place[1] if place and not place[0] else 0

    def is_marked(self, token: int) -> bool:
        return self.has_own[token] and not self.places[token][0]

    def first_fault(self) -> str:
        """Why not each statement has a line of the file, if so."""
        for function in self.source.functions:
            strong = {token for item in function.items for token in item.strong} | {function.named}
            weak = {token for item in function.items for token in item.weak}
            for it in sorted(strong | weak):
                where = f"line {self.source.tokens[it].line + 1}"
                if it in strong and not self.has_own[it] or not self.places[it]:
                    return f"a statement at its {where} has none"
                if self.places[it][0]:
                    return f"that of its {where} names {self.places[it][0]}"
        return ""

    def lacking(self, rows: list[str]) -> str:
        """Which line the file does not have, or has without code, if there is one."""
        for place in self.places:
            if place and not place[0] and not (0 < place[1] <= len(rows) and rows[place[1] - 1].strip()):
                return f"nothing is at line {place[1]}"
        return ""
