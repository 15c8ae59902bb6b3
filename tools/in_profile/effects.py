"""What expressions and calls may read and write, and of which of their sides C does not say which is first.

Of a function it is all that it and those that it calls touch and that outlives the call. What a pointer may point to
is all that it is given anywhere, and of a parameter what the arguments of each call may point to.
"""

import dataclasses

from pycparser import c_ast

from .constants import number
from .objects import Objects, Thing
from .reach import STEPS, Reach
from .types import Outside

# Of each object the numbers of the elements, or None where any may be meant.
Places = dict[Thing, frozenset[int] | None]
LEAVING, DYING = ("exit", "_exit"), ("abort", "__builtin_abort", "__builtin_trap", "__builtin_unreachable")
EXPRESSIONS = (c_ast.ID, c_ast.Constant, c_ast.Cast, c_ast.ExprList, c_ast.ArrayRef, c_ast.UnaryOp, c_ast.BinaryOp,
               c_ast.TernaryOp, c_ast.Assignment, c_ast.FuncCall, c_ast.StructRef, c_ast.CompoundLiteral)


def joined(*given: Places) -> Places:
    found: Places = {}
    for places in given:
        for thing, at in places.items():
            before = found.get(thing, frozenset())
            found[thing] = None if at is None or before is None else at | before
    return found


def met(one: Places, other: Places) -> list[Thing]:
    """The objects of which both have an element."""
    both = [(it, at, other[it]) for it, at in one.items() if it in other]
    return [it for it, a, b in both if a is None or b is None or a & b]


@dataclasses.dataclass(frozen=True, slots=True)
class Effect:
    """What an expression reads and writes: `own` is written outside of calls, `late` may be written after its value."""

    reads: Places = dataclasses.field(default_factory=dict)
    writes: Places = dataclasses.field(default_factory=dict)
    own: Places = dataclasses.field(default_factory=dict)
    late: Places = dataclasses.field(default_factory=dict)


NOTHING = Effect()


def together(*given: Effect, late: Places | None = None) -> Effect:
    """The effect of all; what may come late is that of all too, where nothing else is said."""
    columns = [joined(*(getattr(it, word) for it in given)) for word in ("reads", "writes", "own", "late")]
    return Effect(*columns[:3], columns[3] if late is None else late)


@dataclasses.dataclass(frozen=True, slots=True)
class Sides:
    """Parts of `whole`, with their effects, of which C does not say which is first. OUT.c has them in this order."""

    statement: c_ast.Node
    whole: c_ast.Node
    nodes: list[c_ast.Node]
    effects: list[Effect]


class Effects:
    """The effects of all functions of a tree, and all sides without an order in them."""

    def __init__(self, tree: c_ast.FileAST, root: str) -> None:
        self.objects = Objects(tree)
        self.reach = Reach(self.objects)
        self.end = Thing("the end of the run")
        self.sides: list[Sides] = []
        self.calls: list[tuple[str, list[c_ast.Node]]] = []
        self.functions: dict[str, Effect] = {}
        for name in self.called_first():
            self.functions[name] = self.function(name)
        self.behind = self.given(root)

    def called_first(self) -> list[str]:
        """The functions, each behind those that it calls."""
        found: list[str] = []
        ahead = [(name, False) for name in reversed(list(self.objects.functions))]
        seen: set[str] = set()
        while ahead:
            name, is_left = ahead.pop()
            if is_left:
                found.append(name)
            elif name not in seen:
                seen.add(name)
                ahead.append((name, True))
                below = called(self.objects.functions[name].body)
                ahead += [(it, False) for it in below if it in self.objects.functions]
        return found

    def given(self, root: str) -> dict[Thing, set[Thing]]:
        """Of what each parameter points to the objects; of those of a function that nothing calls all of the file."""
        found: dict[Thing, set[Thing]] = {}
        called_ones = {it for it, _ in self.calls} - {root}
        for name, given in self.objects.parameters.items():
            is_called = name in called_ones
            for it in given:
                if it.behind:
                    found[it.behind] = set() if is_called else set(self.objects.file)
        is_new = True
        while is_new:
            before = sum(map(len, found.values()))
            for name, arguments in self.calls:
                for parameter, it in zip(self.objects.parameters[name], arguments):
                    if parameter.behind:
                        known = self.reach.of(it)
                        found[parameter.behind] |= known.union(*(found.get(thing, ()) for thing in known))
            is_new = sum(map(len, found.values())) > before
        return found

    def whole(self, places: Places) -> Places:
        """The places, with the objects that parameters may point to."""
        return joined(places, *({it: None for it in self.behind.get(thing, ())} for thing in places))

    # ---- statements

    def function(self, name: str) -> Effect:
        """What a call may touch that outlives it."""
        self.here: c_ast.Node = self.objects.functions[name]
        self.touched: list[Effect] = []
        self.statement(self.objects.functions[name].body)
        found = together(*self.touched)
        kept = [{it: at for it, at in places.items() if it.owner != name} for places in (found.reads, found.writes)]
        return Effect(*kept)

    def statement(self, node: c_ast.Node) -> None:
        if isinstance(node, EXPRESSIONS):
            self.here = node
            self.touched.append(self.value(node))
        elif isinstance(node, c_ast.Decl):
            self.here = node
            self.declaration(node)
        else:
            self.statement_parts(node)

    def statement_parts(self, node: c_ast.Node) -> None:
        for _, it in node.children():
            self.here = node
            if isinstance(it, EXPRESSIONS) and not is_statement_in(node, it):
                self.touched.append(self.value(it))
            elif isinstance(node, c_ast.For) and isinstance(it, c_ast.DeclList):
                for decl in it.decls:
                    self.declaration(decl)
            else:
                self.statement(it)

    def declaration(self, node: c_ast.Decl) -> None:
        thing = self.objects.declared.get(id(node))
        if thing is None or node.init is None or not thing.owner:
            return
        leaves = leaves_of(node.init)
        effects = [self.value(it) for it in leaves]
        own: Places = {thing: None}
        if thing.shape.is_array:
            self.apart(node, [*leaves], effects)
            for it, effect in zip(leaves, effects):
                self.apart(node, [node, it], [Effect(writes=own), effect])
        else:
            self.apart(node, [node, *leaves], [Effect(writes=own), *(Effect(writes=it.late) for it in effects)])
        self.touched += [*effects, Effect(writes=own)]

    def apart(self, whole: c_ast.Node, nodes: list[c_ast.Node], effects: list[Effect]) -> None:
        """Notes sides without an order, if one of them writes something."""
        if len(nodes) > 1 and any(it.writes for it in effects):
            self.sides.append(Sides(self.here, whole, nodes, effects))

    # ---- values

    def value(self, node: c_ast.Node) -> Effect:
        made = getattr(self, f"value_{type(node).__name__.lower()}", None)
        return made(node) if made else together(*(self.value(it) for _, it in node.children()))

    def value_typename(self, node: c_ast.Typename) -> Effect:
        return NOTHING

    def value_structref(self, node: c_ast.StructRef) -> Effect:
        return self.value(node.name)

    def value_id(self, node: c_ast.ID) -> Effect:
        found = self.objects.of.get(id(node))
        return NOTHING if found is None or found.shape.is_array else Effect(reads={found: None})

    def value_arrayref(self, node: c_ast.ArrayRef) -> Effect:
        return self.content(node)

    def content(self, node: c_ast.Node) -> Effect:
        """What is read where the value of a place is wanted: a row is none yet."""
        effect, places = self.place(node)
        return effect if self.reach.rank(node) else together(effect, Effect(reads=places))

    def place(self, node: c_ast.Node) -> tuple[Effect, Places]:
        """The effect of finding a place, and the place."""
        if isinstance(node, c_ast.ID):
            found = self.objects.of.get(id(node))
            return NOTHING, {found: None} if found else {}
        if isinstance(node, c_ast.ArrayRef):
            base, index = self.value(node.name), self.value(node.subscript)
            self.apart(node, [node.name, node.subscript], [base, index])
            return together(base, index), self.element(node)
        if isinstance(node, c_ast.UnaryOp) and node.op == "*":
            return self.value(node.expr), {it: None for it in self.reach.of(node.expr)}
        return self.value(node), {it: None for it in self.objects.file}

    def element(self, node: c_ast.ArrayRef) -> Places:
        """The element where an array of one dimension has a constant as its index; else any of what it may be."""
        found = self.objects.of.get(id(node.name))
        at = constant(node.subscript)
        if found and found.shape == (1, True) and at is not None:
            return {found: frozenset({at})}
        bases = [it for it in (node.name, node.subscript) if self.reach.rank(it)]
        return {it: None for base in bases for it in self.reach.of(base)}

    def value_unaryop(self, node: c_ast.UnaryOp) -> Effect:
        if node.op == "sizeof":
            return NOTHING
        if node.op == "&":
            return self.place(node.expr)[0]
        if node.op == "*":
            return self.content(node)
        if node.op not in STEPS:
            return self.value(node.expr)
        effect, places = self.place(node.expr)
        self.apart(node, [node.expr, node], [Effect(writes=effect.late), Effect(writes=places)])
        return together(effect, Effect(places, places, places, places))

    def value_binaryop(self, node: c_ast.BinaryOp) -> Effect:
        left, right = self.value(node.left), self.value(node.right)
        if node.op in ("&&", "||"):
            return together(left, right, late=right.late)
        self.apart(node, [node.left, node.right], [left, right])
        return together(left, right)

    def value_ternaryop(self, node: c_ast.TernaryOp) -> Effect:
        ways = together(self.value(node.iftrue), self.value(node.iffalse))
        return together(self.value(node.cond), ways, late=ways.late)

    def value_exprlist(self, node: c_ast.ExprList) -> Effect:
        effects = [self.value(it) for it in node.exprs]
        return together(*effects, late=effects[-1].late if effects else {})

    def value_assignment(self, node: c_ast.Assignment) -> Effect:
        """A side that is a call alone is finished before anything is written; so is each call before `op=` reads."""
        (finding, places), right = self.place(node.lvalue), self.value(node.rvalue)
        sides = [node.lvalue, node.rvalue]
        self.apart(node, sides, [finding, right])
        late = joined(finding.late, right.late)
        self.apart(node, sides, [Effect(writes=places), Effect(writes=late)])
        if node.op != "=":
            self.apart(node, sides, [Effect(reads=places), Effect(writes=right.own)])
        read = {} if node.op == "=" else places
        return together(finding, right, Effect(read, places, places, places))

    def value_funccall(self, node: c_ast.FuncCall) -> Effect:
        name = node.name.name if isinstance(node.name, c_ast.ID) else ""
        arguments = node.args.exprs if node.args else []
        effects = [self.value(it) for it in arguments]
        self.apart(node, arguments, effects)
        return together(*effects, self.call(name, arguments), late={})

    def call(self, name: str, arguments: list[c_ast.Node]) -> Effect:
        """What the function that is called does."""
        if name in self.objects.functions:
            self.calls.append((name, arguments))
            done = self.functions.get(name, NOTHING)
            parameters = zip(self.objects.parameters[name], arguments)
            behind = {it.behind: self.reach.of(given) for it, given in parameters if it.behind}
            return Effect(through(done.reads, behind), through(done.writes, behind))
        if name in LEAVING:
            return Effect({it: None for it in self.objects.file}, {self.end: None})
        return Effect({self.end: None}) if name in DYING else NOTHING


def through(places: Places, behind: dict[Thing, frozenset[Thing]]) -> Places:
    """The places of a function where its parameters point to what the arguments do."""
    own = {it: at for it, at in places.items() if it not in behind}
    return joined(own, *({target: None for target in behind[it]} for it in places if it in behind))


def is_statement_in(node: c_ast.Node, it: c_ast.Node) -> bool:
    """Whether an expression is a statement of its own in another statement, and no part of that."""
    if isinstance(node, (c_ast.If, c_ast.While, c_ast.DoWhile, c_ast.For, c_ast.Switch)):
        return it in [getattr(node, word, None) for word in ("iftrue", "iffalse", "stmt")]
    return not isinstance(node, (c_ast.Return, c_ast.Case)) or it in (getattr(node, "stmts", None) or ())


def called(node: c_ast.Node) -> list[str]:
    """The names of the functions that are called in a tree."""
    found, ahead = [], [node]
    while ahead:
        it = ahead.pop()
        if isinstance(it, c_ast.FuncCall) and isinstance(it.name, c_ast.ID):
            found.append(it.name.name)
        ahead += [part for _, part in it.children()]
    return found


def leaves_of(node: c_ast.Node) -> list[c_ast.Node]:
    """The expressions of an initialiser."""
    if isinstance(node, c_ast.InitList):
        return [leaf for it in node.exprs for leaf in leaves_of(it)]
    return leaves_of(node.expr) if isinstance(node, c_ast.NamedInitializer) else [node]


def constant(node: c_ast.Node) -> int | None:
    """The number that a constant is."""
    if not isinstance(node, c_ast.Constant) or node.type == "string":
        return None
    try:
        return number(node)[0]
    except Outside:
        return None
