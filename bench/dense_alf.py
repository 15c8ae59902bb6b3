"""Texts of ALF without blanks, which the scripts beside this file make their programs of."""

HEAD = "{alf{macro_defs}{least_addr_unit 8}little_endian{exports{frefs}{lrefs}}{imports{frefs}{lrefs}}"
RETURN = "{return}"


def program(*funcs, frames=()):
    """A program of these functions and global frames, each frame a name and its bits."""
    decls = "".join(f'{{alloc 32"{name}"{bits}}}' for name, bits in frames)
    return f"{HEAD}{{decls{decls}}}{{inits}}{{funcs{''.join(funcs)}}}}}"


def main_alone(*items, frames=()):
    return program(func("main", *items), frames=frames)


def func(name, *items):
    return f"{{func{label(name)}{{arg_decls}}{{scope{{decls}}{{inits}}{{stmts{''.join(items)}}}}}}}"


def number(n, size=32):
    return f"{{dec_unsigned {size} {n}}}"


def address(frame, offset=0):
    return f'{{addr 32{{fref 32"{frame}"}}{number(offset)}}}'


def load(at):
    return f"{{load 32{at}}}"


def variable(frame):
    return load(address(frame))


def add(one, other):
    return f"{{add 32{one}{other}{number(0, 1)}}}"


def store(at, value):
    return f"{{store{at}with{value}}}"


def put(frame, value):
    return store(address(frame), value)


def label(name):
    return f'{{label 32{{lref 32"{name}"}}{number(0)}}}'


def jump(name):
    return f"{{jump{label(name)}leaving 0}}"


def call(name):
    return f"{{call{label(name)}result}}"


def switch(*ways, value=number(0), size=32):
    """Leads to the first labels where the value, of so many bits, is 0, 1, .., and else to the last one."""
    *ahead, default = ways
    targets = "".join(f"{{target{number(n, size)}{label(it)}}}" for n, it in enumerate(ahead))
    return f"{{switch{value}{targets}{{default{label(default)}}}}}"


def labelled(parts):
    """Items behind their labels."""
    return "".join(label(name) + items for name, items in parts)


def rowed(part, count):
    """So many parts in a row, each of which goes on to the label of the next one, P and its number."""
    return main_alone(*(part(it) for it in range(count)), label(f"P{count}"), RETURN)


def loop(it):
    """A loop with a test, and two blocks of which one is gone through."""
    return labelled([
        (f"P{it}", "{null}"),
        (f"H{it}", switch(f"P{it + 1}", f"T{it}")),
        (f"T{it}", switch(f"B{it}", f"C{it}")),
        (f"B{it}", jump(f"H{it}")),
        (f"C{it}", jump(f"H{it}")),
    ])


def wide(count):
    """One loop: tests in a row, each of which leads to the next one or to a block that leads back."""
    tests = "".join(label(f"T{it}") + switch(f"B{it}", f"T{it + 1}") for it in range(count))
    blocks = "".join(label(f"B{it}") + jump("T0") for it in range(count))
    return main_alone(tests, label(f"T{count}") + switch("T0", "end"), blocks, label("end"), RETURN)
