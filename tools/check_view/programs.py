"""Programs of the profile of C by chance, one for each seed: all statements, calls, pointers, odd layouts."""

import random

TYPES = ("int", "unsigned", "short", "unsigned char", "signed char", "unsigned short int")
ARRAYS = {"table": 8, "ring": 4}
BINARY = ("+", "-", "*", "&", "|", "^", "<<", ">>", "==", "!=", "<", ">", "<=", ">=", "/", "%")


class Program:
    """A text that is being made."""

    def __init__(self, seed: int) -> None:
        self.chance = random.Random(seed)
        self.names: list[list[str]] = [["count", "limit"]]
        # Counters of loops, which only their loops change.
        self.counters: set[str] = set()
        self.functions: dict[str, tuple[bool, list[bool]]] = {}
        self.pointers: list[str] = []
        self.fresh = 0
        self.loops = 0

    def pick(self, *choices: str) -> str:
        return self.chance.choice(choices)

    def often(self, share: float) -> bool:
        return self.chance.random() < share

    def new_name(self) -> str:
        """A name, sometimes one that hides another."""
        self.fresh += 1
        return self.pick("x", "y", "n") if self.often(0.3) else f"v{self.fresh}"

    def text(self) -> str:
        parts = ["/* a program by chance */", f"{self.pick(*TYPES)} count;", "int limit = -3;"]
        parts += [f"{self.pick(*TYPES)} {name}[{size}] = {{1, 'a', 0x1F}};" for name, size in ARRAYS.items()]
        parts += [self.function(f"f{number}") for number in range(self.chance.randint(0, 3))]
        self.pointers = []
        parts.append("int main(void) " + self.body(4))
        return ("\r\n" if self.often(0.1) else "\n").join(parts) + "\n"

    # -- functions

    def function(self, name: str) -> str:
        gives, pointers = self.often(0.6), [self.often(0.4) for _ in range(self.chance.randint(0, 2))]
        named = [(f"p{number}", it) for number, it in enumerate(pointers)]
        words = [f"const int *{it}" if is_pointer else f"{self.pick(*TYPES)} {it}" for it, is_pointer in named]
        self.pointers = [it for it, is_pointer in named if is_pointer]
        self.names.append([it for it, is_pointer in named if not is_pointer])
        body = self.body(2, gives)
        self.names.pop()
        self.functions[name] = gives, pointers
        return f"{'int' if gives else 'void'} {name}({', '.join(words) or 'void'}) {body}"

    def body(self, size: int, gives: bool = True) -> str:
        self.names.append([])
        members = [self.member(2) for _ in range(self.chance.randint(1, size))]
        end = f"return {self.expression()};" if gives else self.pick("return;", "")
        self.names.pop()
        return "{" + self.gap() + self.gap().join([*members, end]) + self.gap() + "}"

    def gap(self) -> str:
        """What stands between two statements."""
        return self.pick("\n    ", "\n    ", "\n    ", " ", "\n\t", " /* so */ ", "  // then\n")

    # -- expressions

    def variable(self) -> str:
        return self.pick(*(it for names in self.names for it in names))

    def place(self) -> str:
        """What may be stored to."""
        free = [it for names in self.names for it in names if it not in self.counters]
        if self.often(0.3):
            array = self.pick(*ARRAYS)
            return f"{array}[{self.expression(1)} & {ARRAYS[array] - 1}]"
        return self.pick(*free)

    def constant(self) -> str:
        return self.pick("0", "1", "2", "3", "7", "0x10", "012", "'c'", "'\\n'", "9u", "100")

    def expression(self, depth: int = 2) -> str:
        if depth == 0 or self.often(0.3):
            return self.pick(self.constant(), self.variable(), self.variable())
        if self.pointers and self.often(0.2):
            pointer = self.pick(*self.pointers)
            return self.pick(f"*{pointer}", f"{pointer}[{self.pick('0', '1', '2')}]", f"*({pointer} + 1)")
        inner = self.expression(depth - 1)
        if self.often(0.2):
            array = self.pick(*ARRAYS)
            return f"{array}[({inner}) & {ARRAYS[array] - 1}]"
        if self.often(0.25):
            return self.pick(f"-({inner})", f"~({inner})", f"!({inner})", f"(unsigned char)({inner})", f"({inner})")
        operator = self.pick(*BINARY)
        is_plain = operator in ("<<", ">>", "/", "%") and self.often(0.8)
        other = self.constant() if is_plain else self.expression(depth - 1)
        return f"{inner} {operator} ({other})" if self.often(0.5) else f"({inner}){operator}({other})"

    def test(self, depth: int = 2) -> str:
        if depth == 0 or self.often(0.5):
            return self.expression(1)
        operator = self.pick("&&", "||", "!")
        if operator == "!":
            return f"!({self.test(depth - 1)})"
        return f"({self.test(depth - 1)}) {operator} ({self.test(depth - 1)})"

    def call(self, gives: bool) -> str | None:
        """A call of a function that gives a value, or of one that need not."""
        names = [it for it, (its, _) in self.functions.items() if its or not gives]
        if not names:
            return None
        name = self.pick(*names)
        pointers = self.functions[name][1]
        return f"{name}({', '.join(self.argument(it) for it in pointers)})"

    def argument(self, is_pointer: bool) -> str:
        return self.pick("wide", "wide + 1", "&wide[2]") if is_pointer else self.expression(1)

    # -- statements

    def member(self, depth: int) -> str:
        if self.often(0.3):
            return self.declaration()
        return self.statement(depth)

    def declaration(self) -> str:
        name = self.new_name()
        if name in self.names[-1] or name in self.counters:
            return ";"
        if self.often(0.15):
            return f"short a{self.fresh}[3] = {{4, -5}};"
        call = self.call(True) if self.often(0.4) else None
        text = f"{self.pick(*TYPES)} {name} = {call or self.expression()};"
        self.names[-1].append(name)
        return text

    def statement(self, depth: int) -> str:
        plain = (self.assignment, self.assignment, self.step, self.called)
        nested = (self.branch, self.branch, self.for_loop, self.while_loop, self.do_loop, self.switch, self.block)
        if depth == 0 or self.often(0.4):
            return self.chance.choice(plain)()
        return self.chance.choice(nested)(depth - 1)

    def assignment(self) -> str:
        call = self.call(True) if self.often(0.3) else None
        if call:
            return f"{self.place()} = {call};"
        operator = self.pick("=", "=", "=", "+=", "-=", "*=", "^=", "|=", "&=")
        return f"{self.place()} {operator} {self.expression()};"

    def step(self) -> str:
        place = self.place()
        return self.pick(f"{place}++;", f"{place}--;", f"++{place};", f"--{place};")

    def called(self) -> str:
        call = self.call(False)
        return f"{call};" if call else self.step()

    def block(self, depth: int) -> str:
        self.names.append([])
        members = [self.member(depth) for _ in range(self.chance.randint(0, 3))]
        self.names.pop()
        return "{" + self.gap() + self.gap().join(members) + self.gap() + "}"

    def branch(self, depth: int) -> str:
        then = self.often(0.5) and self.statement(depth) or self.block(depth)
        then = self.leave() if self.loops and self.often(0.3) else "{ " + then + " }"
        other = f" else {self.block(depth)}" if self.often(0.4) else ""
        return f"if ({self.test()}){self.gap()}{then}{other}"

    def leave(self) -> str:
        return self.pick("break;", "continue;", "break;")

    def counter(self) -> str:
        self.fresh += 1
        name = f"i{self.fresh}"
        self.counters.add(name)
        return name

    def within(self, name: str, depth: int) -> str:
        """The body of a loop with a counter."""
        self.names.append([name])
        self.loops += 1
        body = self.block(depth)
        self.loops -= 1
        self.names.pop()
        return body

    def for_loop(self, depth: int) -> str:
        name, turns = self.counter(), self.chance.randint(0, 4)
        test = "" if self.often(0.15) else f"{name} < {turns}"
        body = self.within(name, depth)
        if not test:
            body = f"{{ if ({name} >= {turns}) break; {body} }}"
        return f"for (int {name} = 0; {test}; {self.pick(name + '++', name + ' += 1')}) {body}"

    def while_loop(self, depth: int) -> str:
        name = self.counter()
        body = self.within(name, depth)
        text = f"int {name} = {self.pick('1', '2', '3')}; while ({name} > 0) {{ {name}--; {body} }}"
        return "{ " + text + " }"

    def do_loop(self, depth: int) -> str:
        name = self.counter()
        body = self.within(name, depth)
        text = f"int {name} = 0; do {{ {name}++; {body} }} while ({name} < {self.pick('1', '2', '3')});"
        return "{ " + text + " }"

    def switch(self, depth: int) -> str:
        members, loops, self.loops = [], self.loops, 0
        for value in range(self.chance.randint(1, 3)):
            end = self.pick(" break;", " break;", "")
            members.append(f"case {value}: {self.block(depth)}{end}")
        if self.often(0.5):
            members.insert(self.chance.randint(0, len(members)), f"default: {self.block(depth)}")
        self.loops = loops
        return f"switch ({self.expression()}) {{{self.gap()}{self.gap().join(members)} }}"


def program(seed: int) -> str:
    """The text for a seed. Arguments that are pointers point into the array `wide`."""
    return "int wide[4];\n" + Program(seed).text()
