"""Random programs whose calls and assignments change what other parts of the same expression read.

Where C leaves an order open and it matters, `sweet-c` has to tell it. So they have little but such expressions, of
calls that touch one global each, elements by constants and by globals, and places behind pointers.
"""

import random

TYPES = ["int", "unsigned", "short", "unsigned char", "char", "_Bool"]
HEAD = """int i = 1, k;
{0} x = 5;
{1} y = 3;
{2} a[8] = {{4, 3, 2, 1, 9}};
{2} c[8] = {{1, 2, 3, 4, 5}};
int pure(int u, int v) {{ return u * 3 - v; }}
int get(void) {{ return x + 1; }}
int put(int u) {{ x = u + 2; return u & 7; }}
{1} turn(void) {{ y = y * 3 + 1; return y; }}
int next(void) {{ static int n = 1; n += 2; return n; }}
int step(void) {{ i = (i + 1) & 3; return i; }}
{2} at(int u) {{ return a[u & 3]; }}
void fill(int u) {{ a[u & 3] = u + 1; }}
int add({2} *u, int v) {{ *u += v; return *u & 15; }}
int look(const {2} *u) {{ return u[1] + 1; }}
int far(int u) {{ return u ? put(u - 1) + turn() : step(); }}
int over({2} *u, {2} *v) {{ {2} kept = *v; *u = kept + 1; return kept; }}
"""
MAIN = """int main(void) {{
    unsigned s = 0;
    int l = 1;
    {0} m = 2;
    for (int r = 0; r < 6; r++) {{
        {1} *p = a + 2, *q = c + 3;
        i = r & 3; x += r * 5; y ^= r; l = r ^ 2; m += r & 1;
{2}        s = s * 31 + x * 3 + y * 5 + i + k * 7 + l * 2 + m + (p - a == 2);
        for (int t = 0; t < 8; t++) s = s * 3 + a[t] + c[t] * 2;
    }}
    return s;
}}
"""
BINARY = ("+", "-", "*", "&", "|", "^", "<", ">", "==", "!=", "<=", ">=")
SIGNS = ("=", "=", "=", "+=", "-=", "|=", "^=", "&=", "*=")


# Elements of arrays of eight, of which a pointer stands at the third and moves by one.
MOVED = ("*p++", "*--p", "*(p = a + 1)", "*(p = c + 2)", "*q++", "*--q")
TESTED = ("k--", "i--", "l--", "a[1]--", "a[i & 3]--", "(*p)--", "x--", "y--", "y++")
TESTS = ("{0}", "{0} > 0", "{0} != 0", "!({0} == 0)", "0 < {0}", "{0} > x", "{0} && get()", "next() < 9 && {0}",
         "!{0} || turn() > 9")
BODIES = ("m++;", "if (m++ > 3) break;", "{ if (m & 1) { m++; continue; } m += 3; }", "{ int l = 2; m += l; }")
LOOPS = ("while ({0}) {{ {1} }}", "for (; {0}; m ^= 1) {{ {1} }}", "do {{ {1} }} while ({0});")
CHOICES = ("if ({0}) {{ int l = m; m += l; }} else m--;", "m = {0} ? m + 1 : m * 2;",
           "if (m > 3) m = 2; else if ({0}) m = 7; else l++;")


class OrderMaker:
    """Programs of one statement or two."""

    def __init__(self, seed: int) -> None:
        self.random = random.Random(seed)

    def pick(self, *of: str) -> str:
        return self.random.choice(of)

    def below(self, most: int) -> int:
        return self.random.randrange(most)

    # ---- expressions

    def index(self, depth: int) -> str:
        return self.pick(str(self.below(4)), "i", "i", "(l & 3)", f"({self.expression(depth - 1)} & 3)")

    def place(self, depth: int) -> str:
        """What may be assigned."""
        kind = self.below(9)
        if kind < 4:
            return self.pick("x", "x", "y", "k", "l", "m")
        if kind < 7:
            return f"{self.pick('a', 'a', 'a', 'c')}[{self.index(depth)}]"
        summed = f"*({self.pick('a', 'c')} + {self.index(depth)})"
        return self.pick("*p", "p[0]", "*q", "p[1]", summed, self.pick(*MOVED))

    def leaf(self) -> str:
        return self.pick(str(self.below(9)), "x", "x", "y", "i", "l", "m", f"a[{self.below(4)}]", "*p", "a[i]")

    def call(self, depth: int) -> str:
        first, second = self.expression(depth - 1), self.expression(depth - 1)
        given, other = self.pick("a", "a + 1", "p", "&a[2]", "q", "&c[1]"), self.pick("a", "p", "q")
        return self.pick("get()", f"put({first})", "turn()", "next()", "step()", f"at({first})", f"far({first} & 3)",
                         f"pure({first}, {second})", f"add({given}, {first})", f"look({given})",
                         f"over({given}, {other})", f"(fill({first}), {second})")

    def effect(self, depth: int) -> str:
        if self.below(3) == 0:
            place = self.place(depth - 1)
            place = f"({place})" if place[0] == "*" else place
            return "(" + self.pick("{0}++", "{0}--", "++{0}", "--{0}").format(place) + ")"
        return f"({self.place(depth - 1)} {self.pick(*SIGNS)} {self.expression(depth - 1)})"

    def expression(self, depth: int) -> str:
        if depth <= 0:
            return self.leaf()
        kind = self.below(12)
        if kind < 3:
            return f"({self.expression(depth - 1)} {self.pick(*BINARY)} {self.expression(depth - 1)})"
        if kind < 6:
            return self.call(depth)
        if kind < 8:
            return self.effect(depth)
        if kind == 8:
            return f"({self.expression(depth - 1)} {self.pick('&&', '||')} {self.expression(depth - 1)})"
        if kind == 9:
            return f"({self.expression(depth - 1)} ? {self.expression(depth - 1)} : {self.expression(depth - 1)})"
        if kind == 10:
            return f"({self.expression(depth - 1)}, {self.expression(depth - 1)})"
        return self.place(depth) if self.below(2) else f"{self.pick('!', '-', '~', '(short)', '(char)')}{self.leaf()}"

    # ---- statements

    def condition(self) -> str:
        """A statement with a step as its condition."""
        test = self.pick(*TESTS).format(self.pick(*TESTED))
        if self.below(2):
            return self.pick(*CHOICES).format(test)
        return f"{{ int t = 0; {self.pick(*LOOPS).format(test, f'if (t++ > 6) break; {self.pick(*BODIES)}')} }}"

    def statement(self) -> str:
        depth, kind = self.random.randrange(1, 3), self.below(10)
        if kind < 5:
            return f"{self.place(depth)} {self.pick(*SIGNS)} {self.expression(depth)};"
        if kind == 5:
            return f"{{ int d[2] = {{{self.expression(depth)}, {self.expression(depth)}}}; k ^= d[0] * 5 + d[1]; }}"
        if kind == 6:
            return self.condition()
        if kind == 7:
            return f"k = pure({self.expression(depth)}, {self.expression(depth)});"
        whole = f"{self.expression(depth)} {self.pick(*BINARY)} {self.expression(depth)}"
        return f"{self.pick('k ^=', 'm =', 'k +=')} ({whole});"

    def program(self) -> str:
        """The statements six times, from other values each time."""
        types = [self.pick(*TYPES) for _ in range(3)]
        body = "".join(f"        {self.statement()}\n" for _ in range(1 + self.below(2)))
        return f"{HEAD.format(*types)}{MAIN.format(self.pick(*TYPES), types[2], body)}"
