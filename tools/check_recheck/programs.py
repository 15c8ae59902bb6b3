"""Programs of ALF by chance, one for each seed, with their inputs: all operators, pointers, calls, loops and faults."""

import random

SIZES = (8, 16, 32, 64)
# Global frames, with their bytes.
FRAMES = {"x": 1, "y": 2, "w": 4, "q": 8, "a": 8, "b": 9, "p": 4}
INPUTS = {"x": 8, "y": 16, "w": 32, "q": 64, "a": 8}
ALIKE = ("and", "or", "xor", "u_min", "u_max", "s_min", "s_max")
RELATIONS = ("eq", "neq", "u_lt", "u_le", "u_gt", "u_ge", "s_lt", "s_le", "s_gt", "s_ge")
DIVIDED = ("u_div", "s_div", "l_shift", "r_shift", "r_shift_a", "rot_l", "rot_r")


def number(value: int, size: int = 32) -> str:
    return f"{{ dec_unsigned {size} {value % (1 << size)} }}"


def address(frame: str, offset: int = 0) -> str:
    return f'{{ addr 32 {{ fref 32 "{frame}" }} {number(offset)} }}'


def label(name: str) -> str:
    return f'{{ label 32 {{ lref 32 "{name}" }} {number(0)} }}'


def jump(name: str) -> str:
    return f"{{ jump {label(name)} leaving 0 }}"


def term(name: str, sizes: tuple[int, ...], *operands: str) -> str:
    return f"{{ {name} {' '.join(map(str, sizes))} {' '.join(operands)} }}"


def alloc(frame: str, size: int) -> str:
    return f'{{ alloc 32 "{frame}" {8 * size} }}'


class Program:
    """A text that is being made."""

    def __init__(self, seed: int) -> None:
        self.chance = random.Random(seed)
        self.fresh = 0
        self.frames = dict(FRAMES)
        self.functions: list[tuple[str, int]] = []

    def pick(self, *choices):  # type: ignore[no-untyped-def]
        return self.chance.choice(choices)

    def often(self, share: float) -> bool:
        return self.chance.random() < share

    def new(self, stem: str) -> str:
        self.fresh += 1
        return f"{stem}{self.fresh}"

    # -- expressions

    def value(self, size: int) -> str:
        small = self.chance.randint(-3, 9)
        return number(self.pick(small, small, self.chance.getrandbits(size), 1 << self.chance.randrange(size)), size)

    def place(self, size: int) -> str:
        """An address, of a cell that most often lies in its frame."""
        if self.often(0.01):
            return self.expression(32, 1)
        if size <= 32 and self.often(0.12):
            return f"{{ load 32 {address('p')} }}"
        fitting = [it for it, most in self.frames.items() if 8 * most >= size and (it[-1] != "p" or self.often(0.03))]
        frame = self.pick(*fitting)
        last = max(self.frames[frame] - size // 8, 0)
        if self.often(0.25):
            index = term("z_ext", (8, 32), self.expression(8, 1))
            mask = self.pick(*[it for it in (0, 1, 3, 7) if it <= last], 7 if self.often(0.1) else 0)
            index = index if self.often(0.05) else term("and", (32,), index, number(mask))
            return term("add", (32,), address(frame), index, number(0, 1))
        return address(frame, self.pick(0, 0, self.chance.randint(0, last), self.chance.randint(0, last)))

    def load(self, size: int) -> str:
        return f"{{ load {size} {self.place(size)} }}"

    def expression(self, size: int, depth: int = 2) -> str:
        if depth == 0 or self.often(0.25):
            if size == 32 and self.often(0.1):
                return self.pointer() if self.often(0.3) else self.value(size)
            return self.load(size) if size in SIZES and self.often(0.7) else self.value(size)
        made = [self.same, self.same, self.sized, self.bits]
        made += [self.relation] * 3 if size == 1 else [self.narrow] if size < 64 else []
        return self.chance.choice(made)(size, depth - 1)

    def same(self, size: int, depth: int) -> str:
        a, b = self.expression(size, depth), self.expression(size, depth)
        match self.chance.randrange(5):
            case 0:
                return term(self.pick("neg", "not"), (size,), a)
            case 1 | 2:
                carry = self.pick(number(0, 1), number(1, 1), self.expression(1, depth))
                return term(self.pick("add", "sub"), (size,), a, b, carry)
            case 3:
                return term("if", (size,), self.expression(1, depth), a, b)
        return term(self.pick(*ALIKE), (size,), a, b)

    def sized(self, size: int, depth: int) -> str:
        other = self.pick(8, 8, 16, 3)
        a = self.expression(size, depth)
        b = self.pick(self.value(other), self.expression(other, depth))
        if self.often(0.3):
            return term(self.pick("u_mod", "s_mod"), (other, size), self.expression(other, depth), a)
        return term(self.pick(*DIVIDED), (size, other), a, b)

    def bits(self, size: int, depth: int) -> str:
        if size > 1 and self.often(0.6):
            first = self.chance.choice([it for it in (8, 16, 32, 1, 5, size - 1) if it < size])
            return term(
                self.pick("conc", "u_mul", "s_mul"), (first, size - first), self.expression(first, depth),
                self.expression(size - first, depth),
            )  # fmt: skip
        first = self.pick(*[it for it in (*SIZES, size) if it <= size])
        return term(self.pick("s_ext", "z_ext"), (first, size), self.expression(first, depth))

    def narrow(self, size: int, depth: int) -> str:
        first = self.pick(*[it for it in (*SIZES, size + 1) if it >= size])
        if self.often(0.5):
            return term("trunc", (first, size), self.expression(first, depth))
        low = self.chance.randint(0, first - size)
        return term("select", (first, low, low + size - 1), self.expression(first, depth))

    def relation(self, size: int, depth: int) -> str:
        first = self.pick(8, 8, 16, 32)
        sides = [self.side(first, depth), self.side(first, depth)]
        if self.often(0.2):
            return term(self.pick("c_add", "c_sub"), (first,), *sides, self.pick(number(0, 1), number(1, 1)))
        return term(self.pick(*RELATIONS), (first,), *sides)

    def side(self, size: int, depth: int) -> str:
        if self.often(0.5):
            return self.load(size)
        if size > 8 and self.often(0.3):
            return term(self.pick("s_ext", "z_ext"), (8, size), self.load(8))
        return self.pick(self.value(size), self.expression(size, depth))

    # -- items

    def items(self, depth: int) -> list[str]:
        return [it for _ in range(self.chance.randint(1, 3)) for it in self.item(depth)]

    def item(self, depth: int) -> list[str]:
        if depth == 0 or self.often(0.5):
            size = self.pick(8, 8, 16, 32, 64)
            if self.often(0.2):
                return [f"{{ store {address('p')} with {self.pointer()} }}"]
            return [f"{{ store {self.place(size)} with {self.expression(size)} }}"]
        return self.chance.choice((self.branch, self.branch, self.loop, self.call))(depth - 1)

    def pointer(self) -> str:
        wide = [it for it, most in self.frames.items() if most > 3 or self.often(0.05)]
        first = address(self.pick(*wide), 1 if self.often(0.05) else 0)
        if self.often(0.3):
            other = address(self.pick(*wide)) if self.often(0.8) else self.value(32)
            return term("if", (32,), self.expression(1, 1), first, other)
        return first

    def branch(self, depth: int) -> list[str]:
        size = self.pick(1, 1, 1, 8, 8, 16)
        made = self.expression(size) if self.often(0.4) else self.relation(1, 1) if size == 1 else self.side(size, 1)
        end = self.new("l")
        arms = [(self.new("l"), self.items(depth)) for _ in range(self.chance.randint(1, 3))]
        values = self.chance.sample(range(min(8, 1 << size)), min(2, self.chance.randint(1, 3)))
        targets = [f"{{ target {number(it, size)} {label(self.pick(*arms)[0])} }}" for it in values]
        found = [f"{{ switch {made} {' '.join(targets)} {{ default {label(self.pick(end, arms[0][0]))} }} }}"]
        for name, items in arms:
            found += [label(name), *items, *([jump(end)] if self.often(0.8) else [])]
        return [*found, label(end), "{ null }"]

    def loop(self, depth: int) -> list[str]:
        head, body, end, counter = self.new("l"), self.new("l"), self.new("l"), self.new("i")
        self.counters.append(counter)
        load = f"{{ load 8 {address(counter)} }}"
        mask = term("and", (8,), self.load(8), number(3, 8))
        turns = self.pick(number(self.chance.randint(1, 4), 8), number(3, 8), mask)
        one = term("add", (8,), load, number(1, 8), number(0, 1))
        return [
            f"{{ store {address(counter)} with {number(0, 8)} }}",
            label(head),
            f"{{ switch {term('u_lt', (8,), load, turns)} {{ target {number(1, 1)} {label(body)} }} "
            f"{{ default {label(end)} }} }}",
            label(body), *self.items(depth), f"{{ store {address(counter)} with {one} }}", jump(head), label(end),
            "{ null }",
        ]  # fmt: skip

    def call(self, _: int) -> list[str]:
        if not self.functions:
            return ["{ null }"]
        name, size = self.pick(*self.functions)
        given = f"{self.expression(8, 1)} {self.pointer()}"
        fitting = [it for it, most in self.frames.items() if 8 * most >= size]
        result = address(self.pick(*fitting), self.pick(0, 0, 0, 1)) if size else ""
        return [f"{{ call {label(name)} {given} result {result} }}"]

    # -- the whole

    def function(self, name: str, size: int, depth: int) -> str:
        outer, self.counters = self.frames, []
        own = {} if name == "main" else {f"{name}_n": 1, f"{name}_p": 4, f"{name}_v": 4}
        self.frames = {**outer, **own}
        returned = self.expression(size) if size else ""
        if size == 32 and self.often(0.5):
            returned = self.pointer()
        begun = [f"{{ store {address('p')} with {self.pointer()} }}"] if name == "main" and self.often(0.9) else []
        items = [*begun, *self.items(depth), f"{{ return {returned} }}"]
        self.frames = outer
        arguments = "" if name == "main" else alloc(f"{name}_n", 1) + alloc(f"{name}_p", 4)
        decls = "".join(alloc(it, 1) for it in self.counters) + (alloc(f"{name}_v", 4) if own else "")
        inits = f'{{ init {{ ref "{name}_v" {number(0)} }} {number(7)} }}' if own and self.often(0.9) else ""
        return (
            f"{{ func {label(name)} {{ arg_decls {arguments} }} {{ scope {{ decls {decls} }} {{ inits {inits} }} "
            f"{{ stmts\n" + "\n".join(items) + " } } }"
        )  # fmt: skip

    def bits_of(self, size: int) -> str:
        return number(self.chance.getrandbits(8 * size), 8 * size)

    def text(self) -> str:
        functions = []
        for count in range(self.chance.randint(0, 2)):
            name, size = f"f{count}", self.pick(0, 8, 32)
            functions.append(self.function(name, size, 1))
            self.functions.append((name, size))
        functions.append(self.function("main", 0, 3))
        inits = "".join(
            f'{{ init {{ ref "{it}" {number(0)} }} {self.bits_of(min(size, 8))} }}'
            for it, size in FRAMES.items() if it != "p" and self.often(0.97)
        )  # fmt: skip
        inits += f'{{ init {{ ref "b" {number(8)} }} {number(5, 8)} }}'
        return (
            "{ alf { macro_defs } { least_addr_unit 8 } little_endian { exports { frefs } { lrefs } } "
            "{ imports { frefs } { lrefs } }\n{ decls " + "".join(alloc(it, size) for it, size in FRAMES.items())
            + f" }} {{ inits {inits} }} {{ funcs\n" + "\n".join(functions) + " } }\n"
        )  # fmt: skip

    def inputs(self) -> str:
        found = []
        for frame, size in INPUTS.items():
            if self.often(0.6):
                low = self.chance.randint(-5, 5) if self.often(0.7) else self.chance.getrandbits(size - 1)
                high = min(low + self.pick(0, 1, 7, 30, 300, (1 << size) - 1), (1 << size - 1) - 1)
                low = max(low, -(1 << size - 1))
                found.append(
                    f'[[input]]\nframe = "{frame}"\noffset = 0\nsize = {size}\nlow = {low}\nhigh = {max(low, high)}\n'
                )
        return "".join(found)


def program(seed: int) -> tuple[str, str]:
    """The text for a seed, and its inputs."""
    made = Program(seed)
    return made.text(), made.inputs()
