"""Conditions: of an if, of a loop, and of ?:; what they change or call is made where C evaluates it."""

from pycparser import c_ast

from .expressions import MOST_DEPTH, Expressions, Value, has_effect
from .types import INT, Array, Outside, Whole, decayed

COMPARISONS = ("<", ">", "<=", ">=", "==", "!=")


def is_both(node):
    return isinstance(node, c_ast.BinaryOp) and node.op in ("&&", "||")


class Conditions(Expressions):
    """Conditions of one function."""

    def is_logical(self, node):
        return is_both(node) or (isinstance(node, c_ast.UnaryOp) and node.op == "!" and self.is_logical(node.expr))

    def condition(self, node):
        """A condition of an if or a loop; what must go before it is written."""
        if isinstance(node, c_ast.UnaryOp) and node.op == "!":
            inner = self.truth_value(self.condition(node.expr))
            return Value(f"!({inner.text})", INT, inner.depth + 1)
        if is_both(node):
            return self.both(node)
        value = self.value(node)
        if isinstance(value.kind, Array):
            self.program.note(node, "an array as a condition is 1")
            return Value("1", INT, 0, True)
        return self.number_of(node, value)

    def number_of(self, node, value):
        """The value, if it is a number."""
        if not isinstance(decayed(value.kind), Whole):
            raise Outside(node, "a null pointer")
        return value

    def both(self, node):
        """&& and ||: as they are, where the right side does nothing."""
        if self.has_late_step(node):
            return self.branched(node)
        left = self.condition(node.left)
        right, lines = self.apart(lambda: self.condition(node.right))
        if not lines and max(left.depth, right.depth) < MOST_DEPTH - 1:
            text = f"{left.inner()} {node.op} {right.inner()}"
            return Value(text, INT, max(left.depth, right.depth) + 1)
        return self.split_condition(node, left, right, lines)

    def split_condition(self, node, left, right, lines):
        """&& and || whose right side must not be made where it is not evaluated."""
        self.program.note(node, f"what the right side of {node.op} does is made only where C evaluates it")
        name = self.program.fresh()
        is_and = node.op == "&&"
        left = left if is_and else self.truth_value(left)
        right, more = (right, []) if is_and else self.apart(lambda: self.truth_value(right))
        self.write(f"int {name} = {0 if is_and else 1};")
        self.write(f"if ({left.text}) {{" if is_and else f"if (!({left.text})) {{")
        self.lines += [f"    {it}" for it in (*lines, *more)]
        self.write(f"    if ({right.text})" if is_and else f"    if (!({right.text}))")
        self.write(f"        {name} = {1 if is_and else 0};")
        self.write("}")
        return Value(name, INT)

    def branched(self, node):
        """&& and || in a variable that is put on each way."""
        self.program.note(node, f"what the right side of {node.op} does is made only where C evaluates it")
        name = self.program.fresh()
        self.write(f"int {name} = 0;")
        hold = lambda: self.write(f"{name} = 1;")
        right = lambda: self.branch(node.right, hold, None)
        self.branch(node.left, *((right, None) if node.op == "&&" else (hold, right)))
        return Value(name, INT)

    def truth_value(self, value):
        """A condition under one more operator: in a variable where that would be too many."""
        if value.depth < MOST_DEPTH:
            return value
        name = self.program.fresh()
        self.write(f"int {name} = 0;")
        self.write(f"if ({value.text})")
        self.write(f"    {name} = 1;")
        return Value(name, INT)

    def branch(self, node, then, other):
        """An if, whose parts are written by calls."""
        found, steps = self.test(node)
        _, first = self.apart(then)
        _, second = self.apart(other) if other else (None, [])
        first, second = [*steps, *first], [*steps, *second]
        if second and not first:
            found, first, second = self.truth_value(found), second, []
            self.write(f"if (!({found.text})) {{")
        else:
            self.write(f"if ({found.text}) {{")
        self.lines += [f"    {it}" for it in first]
        if second:
            self.write("} else {")
            self.lines += [f"    {it}" for it in second]
        self.write("}")

    # ---- steps after the test

    def late_step(self, node):
        """The n++ or n-- that a condition is, or that it compares with what the step does not change; else None."""
        if isinstance(node, c_ast.UnaryOp):
            return node if node.op in ("p++", "p--") else self.late_step(node.expr) if node.op == "!" else None
        if not isinstance(node, c_ast.BinaryOp) or node.op not in COMPARISONS or self.program.orders.is_open(node):
            return None
        changing = [it for it in (node.left, node.right) if has_effect(it)]
        is_step = len(changing) == 1 and isinstance(changing[0], c_ast.UnaryOp) and changing[0].op in ("p++", "p--")
        return changing[0] if is_step else None

    def has_late_step(self, node):
        """Whether a step that may be made after its test stands in a condition."""
        return is_both(node) and any(map(self.has_late_step, (node.left, node.right))) or bool(self.late_step(node))

    def test(self, node):
        """A condition, and the step that is to be made after it on both ways, if there is one.

        So what is tested is the object itself, and what is known of it by the test is known where it is stepped.
        """
        step = self.late_step(node)
        if step is None:
            return self.condition(node), []
        self.program.note(node, "++ or -- in a condition is made after the test, on both ways")
        place = self.place(step.expr)
        found = self.number_of(node, self.compared(node, step, place))
        return found, self.apart(lambda: self.step(step, place, "++" if "++" in step.op else "--"))[1]

    def compared(self, node, step, place):
        """The condition with the object in place of its step."""
        if node is step:
            return place
        if isinstance(node, c_ast.UnaryOp):
            inner = self.truth_value(self.number_of(node, self.compared(node.expr, step, place)))
            return Value(f"!({inner.text})", INT, inner.depth + 1)
        left, right = (place if it is step else self.value(it) for it in (node.left, node.right))
        return self.operation(node, node.op, left, right)

    def leave(self, node):
        """Ends the loop where the condition does not hold: each part of && for itself."""
        if is_both(node) and self.has_late_step(node):
            if node.op == "&&":
                self.leave(node.left)
                self.leave(node.right)
            else:
                self.branch(node.left, lambda: None, lambda: self.leave(node.right))
            return
        found, steps = self.test(node)
        self.leave_by(self.truth_value(found), steps)

    def leave_by(self, found, steps=()):
        """The test that ends a loop, as it stands in it; steps are made on both ways."""
        self.write(f"if (!({found.text})){' {' if steps else ''}")
        self.lines += [*(f"    {it}" for it in steps), f"    {self.mark}break;"]
        if steps:
            self.write("}")
            self.lines += steps
