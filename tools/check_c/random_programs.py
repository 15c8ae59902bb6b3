"""Random programs whose meaning C fixes.

Where C leaves an order open, no part reads or writes what another one writes.
"""

import random

TYPES = ["int", "unsigned", "short", "unsigned short", "char", "unsigned char", "signed char", "long", "unsigned long"]
TYPES.append("_Bool")
ARRAYS = {"m": (2, 3), "r": (4,), "n": (2, 2, 2)}
# Elements behind a pointer, and behind a pointer to rows.
FLAT = ("*{0}", "{0}[0]", "*({0} + 1)", "{0}[1]")
ROWS = ("{0}[1][2]", "(*{0})[1]", "*{0}[0]", "{0}[0][1]", "*(*({0} + 1) + 1)")
# What a pointer walks over: the array, and how many elements there are.
WALKS = (("m", "m[1]", 3), ("m", "m[0]", 3), ("r", "r", 4), ("n", "n[1][0]", 2))


class Part:
    """An expression: its text, and the names that it reads and writes."""

    def __init__(self, text, reads=(), writes=()):
        self.text, self.reads, self.writes = text, frozenset(reads), frozenset(writes)

    def is_apart(self, other):
        return not (self.writes & (other.reads | other.writes) or other.writes & self.reads)

    def joined(self, text, *others):
        reads = self.reads.union(*(it.reads for it in others))
        return Part(text, reads, self.writes.union(*(it.writes for it in others)))


class Maker:
    def __init__(self, seed):
        self.random, self.names, self.functions, self.fresh = random.Random(seed), [], {}, 0
        # Of a pointer the array that it points into, and the forms of its elements.
        self.pointers, self.types = {}, {}

    def pick(self, *of):
        return self.random.choice(of)

    def below(self, most):
        return self.random.randrange(most)

    # ---- expressions

    def constant(self):
        found = [str(self.below(200)), str(-self.below(300)), f"0x{self.below(2**32):x}", f"{self.below(70000)}u"]
        found += [f"0{self.below(512):o}", "'a'", "'\\n'", "'\\377'", "sizeof m", "sizeof(short)", "sizeof *r"]
        return Part(self.pick(*found, "LOW", "HIGH", "2147483647", "(-2147483647 - 1)"))

    def name(self):
        it = self.pick(*self.names)
        return Part(it, [it])

    def element(self, depth):
        """An element of an array or behind a pointer, which may be assigned."""
        if self.pointers and self.below(4) == 0:
            pointer = self.pick(*self.pointers)
            array, forms = self.pointers[pointer]
            return Part(self.pick(*forms).format(pointer), [pointer, array])
        array = self.pick(*ARRAYS)
        indexes = [self.index(length, depth) for length in ARRAYS[array]]
        found = indexes[0]
        for it in indexes[1:]:
            if not found.is_apart(it):
                return Part(array + "[0]" * len(indexes), [array])
            found = found.joined("", it)
        text = array + "".join(f"[{it.text}]" for it in indexes)
        if array in found.writes:
            return Part(array + "[1]" * len(indexes), [array])
        return found.joined(text, Part("", [array]))

    def index(self, length, depth):
        if self.below(2):
            return Part(str(self.below(length)))
        inner = self.expression(depth - 1) if depth > 0 and self.below(3) == 0 else self.name()
        return inner.joined(f"({inner.text}) & {length - 1 if length & (length - 1) == 0 else 1}")

    def leaf(self):
        return self.pick(self.name(), self.name(), self.constant(), self.element(0))

    def both(self, depth, made):
        """Two parts in an order that C leaves open."""
        a, b = made(depth - 1), made(self.below(depth))
        return (a, b) if a.is_apart(b) else (a, self.constant())

    def expression(self, depth):
        """An expression, with effects or without."""
        if depth <= 0:
            return self.leaf()
        kind = self.below(20)
        if kind < 5:
            a, b = self.both(depth, self.expression)
            return a.joined(f"({a.text} {self.pick('+', '-', '*', '&', '|', '^')} {b.text})", b)
        if kind == 5:
            a, b = self.both(depth, self.expression)
            return a.joined(f"({a.text} {self.pick('<', '>', '<=', '>=', '==', '!=')} {b.text})", b)
        if kind == 6:
            a, b = self.both(depth, self.expression)
            return a.joined(f"({a.text} {self.pick('/', '%')} (({b.text}) & 7 | 1))", b)
        if kind == 7:
            a, b = self.both(depth, self.expression)
            return a.joined(f"({a.text} {self.pick('<<', '>>')} (({b.text}) & {self.pick(7, 15, 31)}))", b)
        if kind < 10:
            a, b = self.expression(depth - 1), self.expression(depth - 1)
            return a.joined(f"({a.text} {self.pick('&&', '||')} {b.text})", b)
        if kind == 10:
            a = self.expression(depth - 1)
            return a.joined(f"({self.pick('!', '~', '- ', '+ ', '!!')}{a.text})")
        if kind == 11:
            a = self.expression(depth - 1)
            return a.joined(f"(({self.pick(*TYPES)}){a.text})")
        if kind in (12, 13):
            a, b, c = (self.expression(depth - 1) for _ in range(3))
            return a.joined(f"({a.text} ? {b.text} : {c.text})", b, c)
        if kind == 14:
            a, b = self.effect(depth - 1), self.expression(depth - 1)
            return a.joined(f"({a.text}, {b.text})", b)
        return self.effect(depth)

    def effect(self, depth):
        """An assignment, a step or a call."""
        kind = self.below(8) if self.functions else self.below(5)
        if kind >= 5:
            return self.call(depth)
        place = self.pick(self.name(), self.name(), self.element(depth))
        base = place.text.split("[")[0] if place.text[0] not in "*(" else ""
        changed = (base, place.text, *(array for array, _ in self.pointers.values()))
        written = place.joined("", Part("", (), [it for it in place.reads if it in changed]))
        if kind < 2:
            inner = f"({place.text})" if place.text[0] == "*" else place.text
            return written.joined(f"({self.pick('++{0}', '--{0}', '{0}++', '{0}--').format(inner)})")
        value = self.expression(depth - 1)
        if not value.is_apart(place) or value.writes & written.writes:
            value = self.constant()
        sign = self.pick("=", "=", "+=", "-=", "*=", "^=", "|=", "&=")
        return written.joined(f"({place.text} {sign} {value.text})", value)

    def call(self, depth):
        name = self.pick(*self.functions)
        count, reads, writes = self.functions[name]
        if not count:
            return Part(f"{name}({self.pick('m[1]', '*m', '&m[0][1]', 'v')}, m)", reads, writes)
        given = []
        for _ in range(count):
            it = self.expression(depth - 1)
            given.append(it if all(map(it.is_apart, given)) else self.constant())
        whole = Part("").joined("", *given)
        return whole.joined(f"{name}({', '.join(it.text for it in given)})", Part("", reads, writes))

    # ---- statements

    def statement(self, depth, in_loop):
        kind = self.below(16 if depth > 0 else 4)
        if kind > 13:
            return self.walk()
        if kind < 3:
            return f"{self.effect(3).text};"
        if kind == 3:
            a, b = self.effect(2), self.effect(2)
            return f"{a.text}, {b.text};"
        if kind < 6:
            plain = f" else {self.block(depth - 1, in_loop)}"
            other = self.pick("", plain, f" else if ({self.expression(2).text}) {self.block(depth - 1, in_loop)}")
            return f"if ({self.expression(3).text}) {self.block(depth - 1, in_loop)}{other}"
        self.fresh += 1
        name = f"k{self.fresh}"
        if kind in (6, 7):
            tail = f", {self.effect(2).text}" if self.below(2) else ""
            test = f" && {self.expression(2).text}" if self.below(3) == 0 else ""
            head = f"for (int {name} = 0; {name} < {self.below(4) + 1}{test}; {name}++{tail})"
            return f"{head} {self.block(depth - 1, True)}"
        if kind == 8:
            head = f"while ({name}-- > 0 && {self.expression(2).text})"
            return f"{{ int {name} = 4; {head} {self.block(depth - 1, True)} }}"
        if kind == 9:
            body = self.block(depth - 1, True)
            return f"{{ int {name} = 0; do {body} while (++{name} < 3 && {self.expression(2).text}); }}"
        if kind == 10:
            cases = " ".join(self.case(i) for i in range(3))
            return f"switch ({self.expression(2).text} & 3) {{ {cases} default: {self.statement(0, False)} }}"
        if kind == 11:
            a, b = self.expression(2), self.expression(2)
            head = f"{self.pick(*TYPES)} {name}[3] = {{{a.text}, 7}};"
            return f"{{ {head} {self.pick(*self.names)} ^= {name}[1] + {name}[{self.below(3)}]; }}"
        if kind == 12:
            shadow = self.pick(*self.names)
            head = f"{self.pick(*TYPES)} {name} = {self.expression(2).text};"
            return f"{{ {head} {{ short {shadow} = {name} + 1; {name} += {shadow}++; }} r[1] += {name}; }}"
        head = f"static {self.pick(*TYPES)} {name} = {self.below(50)};"
        return f"{{ {head} {name} += {self.expression(2).text}; r[2] ^= {name}; }}"

    def walk(self):
        """A pointer that goes over a row."""
        self.fresh += 1
        array, start, length = self.pick(*WALKS)
        name, other, kind = f"k{self.fresh}", self.pick(*self.names), self.types[array]
        return self.pick(
            f"{{ {kind} *{name} = {start}; while ({name} < {start} + {length}) {other} += *{name}++; }}",
            f"for ({kind} *{name} = {start} + {length}; {name} != {start};) {{ {other} -= *--{name}; }}",
            f"{{ {kind} *{name} = &{start}[{length}]; do *--{name} ^= {other}; while ({name} - {start}); }}",
            f"{{ {kind} *{name} = {start}; int d = &{start}[{length}] - {name}++; {name}[-1] = d; *{name} -= {other}; }}",
        )

    def case(self, i):
        label = self.pick(i, f"{i + 3} - 3")
        return f"case {label}: {self.statement(0, False)} {self.pick('break;', '')}"

    def block(self, depth, in_loop):
        lines = [self.statement(depth, in_loop) for _ in range(self.random.randrange(1, 3))]
        if in_loop and self.below(4) == 0:
            lines.insert(self.below(2), f"if ({self.expression(2).text}) {self.pick('continue;', 'break;')}")
        return "{ " + " ".join(lines) + " }"

    # ---- programs

    def function(self, name, globals_):
        """A function of narrow types, which changes its own globals alone."""
        kept = self.names, self.functions, self.pointers
        own = self.random.sample(globals_, 2)
        self.names, self.functions, self.pointers = [*own, "p", "q"], {}, {}
        # elements are read and written too: the arrays count as read and written by each function
        body = " ".join(self.statement(1, False) for _ in range(2))
        head = f"{self.pick('', 'static ')}{self.pick(*TYPES)} {name}({self.pick(*TYPES)} p, {self.pick(*TYPES)} q)"
        text = f"{head}\n{{ {body} return {self.expression(2).text}; }}\n"
        self.names, self.functions, self.pointers = kept
        self.functions = {**self.functions, name: (2, frozenset({*own, *ARRAYS}), frozenset({*own, *ARRAYS}))}
        return text

    def walker(self, name, globals_):
        """A function that is given pointers into an array."""
        kept = self.names, self.functions
        own = self.random.sample(globals_, 2)
        self.names, self.functions, self.pointers = own, {}, {"p": ("m", FLAT), "q": ("m", ROWS)}
        body = " ".join(self.statement(1, False) for _ in range(2))
        second = self.pick("q[2][3]", "q[][3]", "(*q)[3]")
        head = f"{self.pick(*TYPES)} {name}({self.types['m']} {self.pick('*p', 'p[]', 'p[3]')}, {self.types['m']} {second})"
        text = f"{head}\n{{ {body} {self.pick('p++;', 'p += 1;', '')} return {self.pick('*p', 'p - *q', 'q[1] - p')}; }}\n"
        self.names, self.functions = kept
        changed = frozenset({*own, *ARRAYS})
        self.functions = {**self.functions, name: (0, changed, changed)}
        return text

    def program(self):
        globals_ = [f"g{i}" for i in range(5)]
        text = f"enum {{ LOW = -{self.below(5)}, HIGH = {self.below(99)} }};\ntypedef {self.pick(*TYPES[:6])} word;\n"
        text += "".join(f"{self.pick(*TYPES, 'word')} {it} = {self.below(100)};\n" for it in globals_)
        self.types = {it: self.pick(*TYPES) for it in ARRAYS}
        text += f"{self.types['m']} m[2][3] = {{{{1, 2}}, {{4, {self.below(300)}, 6}}}};\n"
        text += f"{self.types['r']} r[4] = {{[2] = 'x', 5}};\n"
        text += f"{self.types['n']} n[2][2][2] = {{1, 2, 3, 4, [1] = {{{{5}}, 7}}}};\n"
        text += self.function("f", globals_) + self.function("g", globals_) + self.walker("h", globals_)
        self.names = [*globals_, "x", "y", "z"]
        self.pointers = {"u": ("r", FLAT), "v": ("m", FLAT), "w": ("m", ROWS), "t": ("n", ("{0}[1][1]", "**{0}"))}
        body = "\n    ".join(self.statement(2, False) for _ in range(4))
        kept = "i < 6 ? m[i / 3][i % 3] : i < 8 ? r[i - 6] : n[i & 1][i >> 1 & 1][1]"
        ends = f"for (int i = 0; i < 12; i++) s = s * 31 + ({kept});"
        text += f"int main(void) {{\n    {self.pick(*TYPES)} x = 1;\n    unsigned y = 2;\n"
        text += f"    {self.pick(*TYPES)} z = {self.constant().text};\n"
        text += f"    {self.types['r']} *u = r + {self.below(3)};\n    {self.types['m']} *v = m[{self.below(2)}];\n"
        text += f"    {self.types['m']} (*w)[3] = m;\n    {self.types['n']} (*t)[2] = n[{self.below(2)}];\n"
        return f"{text}    {body}\n    unsigned s = x ^ y ^ z;\n    {ends}\n    return s;\n}}\n"
