"""What ends a run: `abort` and a failed `assert` at their place, and `exit` in a function whose name says so."""

from pycparser import c_ast

from .effects import LEAVING
from .types import place_of

__all__ = ["LEAVING", "Endings"]


class Endings:
    """The functions that stand for `exit`, one for each line that has one: a division by 0 in it ends the run.

    So the report tells an end by `exit` at a node of such a function, where no other division stands.
    """

    def __init__(self, program: "Program") -> None:  # noqa: F821
        self.program = program
        self.functions: dict[tuple[str, int], tuple[str, str]] = {}

    def exit_at(self, node: c_ast.Node) -> str:
        """The function for the line of a call of `exit`."""
        place = place_of(node) or (self.program.name, 0)
        if place not in self.functions:
            self.functions[place] = self.program.free(f"sw_exit_{place[1]}"), self.program.mark(node)
        return self.functions[place][0]

    def prototypes(self) -> list[str]:
        return [f"void {name}(int);" for name, _ in self.functions.values()]

    def definitions(self) -> list[str]:
        end = f"{self.program.fault()};" if self.functions else ""
        return self.defined(end)

    def defined(self, end: str) -> list[str]:
        return [f"\n{mark}void {name}(int status)\n{{\n    {mark}{end}\n}}" for name, mark in self.functions.values()]

    def ending(self, text: str, function: str) -> str:
        """The text of the program, where this function ends a run with the status in place of a division by 0."""
        for plain, ended in zip(self.definitions(), self.defined(f"{function}(status);")):
            text = text.replace(plain, ended, 1)
        return f"void {function}(int);\n{text}" if self.functions else text
