"""What the root needs of a file: functions, objects, types and tags that it comes to by their names."""

import collections.abc
import dataclasses

from pycparser import c_ast

from .types import place_of

TAGGED = (c_ast.Struct, c_ast.Union, c_ast.Enum)
# Of those left out so many are told by name.
TOLD = 6


@dataclasses.dataclass(frozen=True)
class Needed:
    """The tree of what is needed, in its order, the functions that were left out, and names of objects and types."""

    tree: c_ast.FileAST
    definitions: list[c_ast.FuncDef]
    objects: list[str]
    types: list[str]

    @property
    def functions(self) -> list[str]:
        return [it.decl.name for it in self.definitions]

    def told(self, root: str) -> str:
        """A line of what was left out, or nothing."""
        parts = (("functions", self.functions), ("objects", self.objects), ("types", self.types))
        found = "; ".join(f"{word} {listed(names)}" for word, names in parts if names)
        return f"left out, since {root} does not come to it: {found}" if found else ""


def listed(names: list[str]) -> str:
    more = f" and {len(names) - TOLD} more" if len(names) > TOLD else ""
    return ", ".join(names[:TOLD]) + more


def nodes(tree: c_ast.Node) -> collections.abc.Iterator[c_ast.Node]:
    ahead = [tree]
    while ahead:
        it = ahead.pop()
        yield it
        ahead += [part for _, part in it.children()]


def used(tree: c_ast.Node) -> set[str]:
    """The names that stand in a part of a file; those of tags have the word before them that every tag has."""
    found: set[str] = set()
    for it in nodes(tree):
        if isinstance(it, c_ast.ID):
            found.add(it.name)
        elif isinstance(it, c_ast.IdentifierType):
            found.update(it.names)
        elif isinstance(it, TAGGED) and it.name:
            found.add(f"tag {it.name}")
    return found


def given(part: c_ast.Node) -> set[str]:
    """The names that a part of a file declares for what follows."""
    head = part.decl if isinstance(part, c_ast.FuncDef) else part
    found = {head.name} if getattr(head, "name", None) else set()
    for it in nodes(head):
        has_members = getattr(it, "decls", None) or getattr(it, "values", None)
        if isinstance(it, TAGGED) and it.name and has_members:
            found.add(f"tag {it.name}")
        elif isinstance(it, c_ast.Enumerator):
            found.add(it.name)
    return found


def needed(tree: c_ast.FileAST, root: str) -> Needed:
    """What the root needs, and assertions, which speak of the whole file; where there is no root, all of it."""
    roots = [i for i, it in enumerate(tree.ext) if isinstance(it, c_ast.FuncDef) and it.decl.name == root]
    if not roots:
        return Needed(tree, [], [], [])
    makers: dict[str, list[int]] = {}
    for i, it in enumerate(tree.ext):
        for name in given(it):
            makers.setdefault(name, []).append(i)
    assertions = [i for i, it in enumerate(tree.ext) if type(it).__name__ == "StaticAssert"]
    ahead = [*roots, *assertions]
    seen = set(ahead)
    while ahead:
        further = {at for name in used(tree.ext[ahead.pop()]) for at in makers.get(name, ())} - seen
        seen |= further
        ahead += further
    kept = [it for i, it in enumerate(tree.ext) if i in seen]
    return left_out(kept, [it for i, it in enumerate(tree.ext) if i not in seen], place_of(tree.ext[roots[0]].decl))


def left_out(kept: list[c_ast.Node], left: list[c_ast.Node], place: tuple[str, int] | None) -> Needed:
    """Sorts what was left out; types are told of the file that the root stands in alone."""
    own = [it for it in left if place and (place_of(it) or place)[0] == place[0]]
    functions = [it for it in left if isinstance(it, c_ast.FuncDef)]
    objects = [it.name for it in left if isinstance(it, c_ast.Decl) and is_object(it)]
    types = [it.name for it in own if isinstance(it, c_ast.Typedef)]
    types += [it.type.name for it in own if isinstance(it, c_ast.Decl) and isinstance(it.type, TAGGED) and it.type.name]
    return Needed(c_ast.FileAST(kept), functions, *(list(dict.fromkeys(it)) for it in (objects, types)))


def is_object(node: c_ast.Decl) -> bool:
    is_elsewhere = "extern" in node.storage and node.init is None
    return bool(node.name) and not isinstance(node.type, c_ast.FuncDecl) and not is_elsewhere
