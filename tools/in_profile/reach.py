"""What pointers may point to: each pointer may hold all that it is given anywhere in its function."""

from pycparser import c_ast

from .objects import Objects, Thing

STEPS = ("++", "--", "p++", "p--")


class Reach:
    """The objects that expressions may point to, in a program without pointers to pointers."""

    def __init__(self, objects: Objects) -> None:
        self.objects = objects
        self.ranks: dict[int, int] = {}
        self.found: dict[int, frozenset[Thing]] = {}

    def rank(self, node: c_ast.Node) -> int:
        """How many `*` may stand before an expression until it is a number."""
        found = self.ranks.get(id(node))
        if found is None:
            found = 0
            for it in parts(node):
                found = max(found, self.rank(it))
            found = self.ranks[id(node)] = self.own_rank(node, found)
        return found

    def own_rank(self, node: c_ast.Node, inner: int) -> int:
        """The rank of an expression, where the greatest of its parts is known."""
        if isinstance(node, c_ast.ID):
            found = self.objects.of.get(id(node))
            return found.shape.rank if found else 0
        if isinstance(node, c_ast.Constant):
            return int(node.type == "string")
        if isinstance(node, c_ast.BinaryOp) and node.op == "-" and self.rank(node.right):
            return 0
        step = {"*": -1, "&": 1}.get(node.op, 0) if isinstance(node, c_ast.UnaryOp) else 0
        return max(0, inner - 1 if isinstance(node, c_ast.ArrayRef) else inner + step)

    def of(self, node: c_ast.Node) -> frozenset[Thing]:
        """What the value of an expression may point to, or what an array is."""
        if id(node) not in self.found:
            self.found[id(node)] = frozenset(self.pointed(node))
        return self.found[id(node)]

    def pointed(self, node: c_ast.Node) -> set[Thing]:
        found: set[Thing] = set()
        ahead, seen = [node], set()
        while ahead:
            it = ahead.pop()
            if not isinstance(it, c_ast.ID):
                is_address = isinstance(it, c_ast.UnaryOp) and it.op == "&"
                if is_address and id(it.expr) in self.objects.of:
                    found.add(self.objects.of[id(it.expr)])
                else:
                    ahead += [part for part in parts(it) if is_address or self.rank(part)]
                continue
            thing = self.objects.of.get(id(it))
            if thing and thing.shape.is_array:
                found.add(thing)
            elif thing and thing.is_pointer and thing not in seen:
                seen.add(thing)
                ahead += thing.flows
                found |= {thing.behind} if thing.behind else set()
        return found


def parts(node: c_ast.Node) -> list[c_ast.Node]:
    """The parts of an expression that its value may point into."""
    if isinstance(node, c_ast.ArrayRef):
        return [node.name, node.subscript]
    if isinstance(node, c_ast.UnaryOp):
        return [node.expr] if node.op in ("*", "&", *STEPS) else []
    if isinstance(node, c_ast.BinaryOp):
        return [node.left, node.right] if node.op in ("+", "-") else []
    if isinstance(node, c_ast.TernaryOp):
        return [node.iftrue, node.iffalse]
    if isinstance(node, c_ast.ExprList):
        return node.exprs[-1:]
    if isinstance(node, c_ast.Cast):
        return [node.expr]
    if isinstance(node, c_ast.Assignment):
        return [node.lvalue, node.rvalue]
    if isinstance(node, c_ast.InitList):
        return node.exprs
    return []
