"""The row below a line: what its parts count, each under its first column."""

from view.visible import visible

# Beyond so many characters a line has no such row.
LONGEST = 140
TAB = 8


def column_in(row: str, column: int) -> int:
    """Where a character stands as the row is shown, once tabs are spaces."""
    return len(visible(row[:column]).expandtabs(TAB))


def labels_row(row: str, parts: list[tuple[int, str]]) -> str:
    """Labels at their columns, moved right where they would touch; from one that does not fit on they are left out."""
    text = ""
    for column, label in parts if len(row) <= LONGEST else []:
        wanted = column_in(row, column)
        at = max(wanted, len(text) + 1 if text else 0)
        if at > wanted + 24:
            return text + " …"
        text += " " * (at - len(text)) + label
    return text
