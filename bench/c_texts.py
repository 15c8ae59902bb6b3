"""Texts of C, which the scripts beside this file make their programs of."""

from texts import many

# About as many bytes as a text may have.
MOST = 1_048_000
# So many locals, globals or functions.
MANY = 250
ARGUMENTS = ",".join(f"int a{it}" for it in range(10))


def triangles(count):
    """So many pairs of loops, the inner one as long as the outer one has come."""
    lines = [f"for (i = 0; i < {n}; i = i + 1) for (j = 0; j < i; j = j + 1) s = s + j;\n" for n in range(1, count + 1)]
    return "int main(void) { int i; int j; int s = 0;\n" + "".join(lines) + "return s; }\n"


def branches(count):
    """So many tests of one input."""
    tests = "".join(f"if (x == {n}) s = {n};\n" for n in range(count))
    return "int x; int s;\nint main(void) {\n" + tests + "return s; }\n"


def filled(head, part, tail, most=MOST):
    """A text of about as many bytes as there may be, with parts by their numbers."""
    return many(part, most, head, tail)


def short(it):
    return f"x{it}"


def sums(name):
    return lambda it: f"{name(it % MANY)}={name(7 * it % MANY)}+{name(13 * it % MANY)};\n"


def condition(it):
    return f"if(x{it % MANY}<1&&(x{it % 7}>2||!x{it % 11}))x{it % 13}++;\n"


def labels():
    """A switch with as many labels as fit."""
    return filled("int main(void){switch(1){\n", lambda it: f"case {it}:\n", ";}return 0;}\n")


def arguments():
    """Calls of a void function with ten arguments."""
    head = f"void f({ARGUMENTS}){{}}\nint main(void){{int x=1;\n"
    return filled(head, lambda it: f"f({','.join(['x', str(it)] * 5)});\n", "return 0;}\n")


def declared():
    """Functions that are declared and not defined, each of its own name."""
    return filled("", lambda it: f"void f{it}(int a,int b);\n", "int main(void){return 0;}\n")
