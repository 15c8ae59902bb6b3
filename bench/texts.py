"""Texts of ALF and of tables, which the scripts beside this file make their programs of."""

K = "{ dec_unsigned 32 %d }"
HEAD = "{ alf { macro_defs } { least_addr_unit 8 } little_endian { exports { frefs } { lrefs } } { imports { frefs } { lrefs } } "


def label(name):
    return '{ label 32 { lref 32 "%s" } { dec_unsigned 32 0 } }' % name


def address(frame, offset=0):
    return '{ addr 32 { fref 32 "%s" } { dec_unsigned 32 %d } }' % (frame, offset)


def load(frame, size=32):
    return "{ load %d %s }" % (size, address(frame))


def store(to, value):
    return "{ store %s with %s } " % (to, value)


def add(left, right):
    return "{ add 32 %s %s { dec_unsigned 1 0 } }" % (left, right)


def program(frames, items):
    """A program of ALF with these frames, of so many bits, and these items of main."""
    decls = " ".join('{ alloc 32 "%s" %d }' % it for it in frames)
    parts = "{ decls %s } { inits } { funcs { func %s { arg_decls } { scope { decls } { inits } { stmts %s } } } } }"
    return HEAD + parts % (decls, label("main"), items)


def loop(turns, body):
    """Items that make so many turns, counted in frame i."""
    test = "{ switch { u_lt 32 %s %s } { target { dec_unsigned 1 1 } %s } { default %s } } " % (
        load("i"), K % turns, label("b"), label("e"))
    more = store(address("i"), add(load("i"), K % 1))
    start = store(address("i"), K % 0) + label("h") + test + label("b")
    return start + body + more + "{ jump %s leaving 0 } " % label("h") + label("e") + "{ return }"


def many(piece, most, front="", back=""):
    """The pieces of 0, 1, .. between front and back, as many as fit into so many bytes."""
    made, size, n = [front], len(front) + len(back), 0
    while size + len(piece(n)) <= most:
        made.append(piece(n))
        size += len(made[-1])
        n += 1
    return "".join([*made, back])


def entry(frame, low, high, size=32, count=1):
    return '[[input]]\nframe = "%s"\noffset = 0\nsize = %d\nlow = %d\nhigh = %d\ncount = %d\n' % (frame, size, low, high, count)


def task(number, cost, period, deadline):
    return f'[[task]]\nname = "t{number}"\ncost = {cost}\nperiod = {period}\ndeadline = {deadline}\npriority = {number}\n'
