"""What names of a tree mean: the objects of the file and of functions, each found by the places that name it."""

import dataclasses
import typing

from pycparser import c_ast


class Shape(typing.NamedTuple):
    """How many arrays and pointers stand in one another in a type, and whether the outermost is an array."""

    rank: int = 0
    is_array: bool = False


@dataclasses.dataclass(eq=False, slots=True)
class Thing:
    """An object, or what a parameter points to in a call.

    `owner` is the function in whose calls it lives. A pointer has what it is given in `flows`, and one that is a
    parameter has `behind`, which stands for all that a caller lets it point to.
    """

    name: str
    owner: str = ""
    shape: Shape = Shape()
    flows: list[c_ast.Node] = dataclasses.field(default_factory=list)
    behind: "Thing | None" = None

    @property
    def is_pointer(self) -> bool:
        return self.shape.rank > 0 and not self.shape.is_array


class Objects:
    """The objects of a tree: `of` has that of each name that stands in an expression, by the identity of its node."""

    def __init__(self, tree: c_ast.FileAST) -> None:
        self.of: dict[int, Thing] = {}
        self.declared: dict[int, Thing] = {}
        self.functions: dict[str, c_ast.FuncDef] = {}
        self.parameters: dict[str, list[Thing]] = {}
        self.scopes: list[dict[str, Thing | Shape | None]] = [{}]
        self.function = ""
        self.walk(tree)

    @property
    def file(self) -> list[Thing]:
        """The objects that outlive each call: those of the file, and static locals."""
        found = [it for it in self.scopes[0].values() if isinstance(it, Thing)]
        return list(dict.fromkeys([*found, *(it for it in self.declared.values() if not it.owner)]))

    def find(self, name: str) -> Thing | Shape | None:
        return next((it[name] for it in reversed(self.scopes) if name in it), None)

    def shape(self, node: c_ast.Node) -> Shape:
        if isinstance(node, (c_ast.ArrayDecl, c_ast.PtrDecl)):
            return Shape(self.shape(node.type).rank + 1, isinstance(node, c_ast.ArrayDecl))
        if isinstance(node, (c_ast.TypeDecl, c_ast.Typename)):
            return self.shape(node.type)
        if isinstance(node, c_ast.IdentifierType) and len(node.names) == 1:
            found = self.find(node.names[0])
            return found if isinstance(found, Shape) else Shape()
        return Shape()

    def walk(self, node: c_ast.Node) -> None:
        made = getattr(self, f"walk_{type(node).__name__.lower()}", self.walk_parts)
        made(node)

    def walk_parts(self, node: c_ast.Node) -> None:
        for _, it in node.children():
            self.walk(it)

    def walk_inside(self, node: c_ast.Node) -> None:
        """The parts of what has a scope of its own."""
        self.scopes.append({})
        self.walk_parts(node)
        self.scopes.pop()

    walk_compound = walk_for = walk_inside

    def walk_funcdecl(self, node: c_ast.FuncDecl) -> None:
        """The types of a prototype: its names mean nothing outside of it."""
        self.walk(node.type)
        self.walk_members(node.args.params if node.args else [])

    def walk_struct(self, node: c_ast.Struct | c_ast.Union) -> None:
        self.walk_members(node.decls or [])

    walk_union = walk_struct

    def walk_members(self, nodes: list[c_ast.Node]) -> None:
        for it in nodes:
            if getattr(it, "type", None) is not None:
                self.walk(it.type)

    def walk_id(self, node: c_ast.ID) -> None:
        found = self.find(node.name)
        if isinstance(found, Thing):
            self.of[id(node)] = found

    def walk_structref(self, node: c_ast.StructRef) -> None:
        self.walk(node.name)

    def walk_assignment(self, node: c_ast.Assignment) -> None:
        self.walk_parts(node)
        found = self.of.get(id(node.lvalue))
        if found:
            found.flows.append(node.rvalue)

    def walk_typedef(self, node: c_ast.Typedef) -> None:
        self.walk(node.type)
        self.scopes[-1][node.name] = self.shape(node.type)

    def walk_enumerator(self, node: c_ast.Enumerator) -> None:
        self.walk_parts(node)
        self.scopes[-1][node.name] = None

    def walk_decl(self, node: c_ast.Decl) -> None:
        self.walk(node.type)
        if node.name is None:
            return
        found = None if isinstance(node.type, c_ast.FuncDecl) else self.thing(node)
        self.scopes[-1][node.name] = found
        if found:
            self.declared[id(node)] = found
        if node.init is not None:
            self.walk(node.init)
            if found:
                found.flows.append(node.init)

    def thing(self, node: c_ast.Decl) -> Thing:
        """The object of a declaration: the one that is there already, where it is of the file."""
        if self.function and not {"static", "extern"} & {*node.storage}:
            return Thing(node.name, self.function, self.shape(node.type))
        known = None if "static" in node.storage and self.function else self.scopes[0].get(node.name)
        found = known if isinstance(known, Thing) else Thing(node.name, "", self.shape(node.type))
        if "extern" in node.storage:
            self.scopes[0][node.name] = found
        return found

    def walk_funcdef(self, node: c_ast.FuncDef) -> None:
        name, self.function = node.decl.name, node.decl.name
        self.scopes[0][name] = None
        self.functions[name] = node
        self.walk(node.decl.type.type)
        self.scopes.append({})
        arguments = node.decl.type.args
        given = [self.parameter(it) for it in (arguments.params if arguments else ())]
        self.parameters[name] = [it for it in given if it]
        self.walk(node.body)
        self.scopes.pop()
        self.function = ""

    def parameter(self, node: c_ast.Node) -> Thing | None:
        """Makes a parameter known: an array is a pointer."""
        name = getattr(node, "name", None)
        if not isinstance(name, str):
            return None
        if not isinstance(node, c_ast.Decl):
            found = Thing(name, self.function)
        else:
            self.walk(node.type)
            found = Thing(name, self.function, Shape(self.shape(node.type).rank))
        if found.is_pointer:
            found.behind = Thing(f"*{name}", "")
        self.scopes[-1][name] = found
        return found
