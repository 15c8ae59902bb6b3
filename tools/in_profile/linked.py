"""Several files as one program: names that one file keeps to itself are told from those of the others."""

import collections.abc
import dataclasses

from pycparser import c_ast

from .needed import TAGGED, nodes
from .parser import Unit
from .refusal import Told, outside
from .types import place_of


@dataclasses.dataclass
class Linked:
    """The tree of all files, in which file each part of it stands, and of each name that was changed the first one."""

    tree: c_ast.FileAST
    unit_of: dict[int, int] = dataclasses.field(default_factory=dict)
    first_name: dict[str, str] = dataclasses.field(default_factory=dict)
    reasons: list[Told] = dataclasses.field(default_factory=list)
    notes: list[Told] = dataclasses.field(default_factory=list)


@dataclasses.dataclass(frozen=True)
class FileNames:
    """The names of a file: `own` are those of its types, constants and tags, which no other file can mean, and
    `outer` all that it has outside of functions, or declares in them as being there."""

    own: set[str]
    static: dict[str, c_ast.Node]
    defined: dict[str, c_ast.Node]
    outer: set[str]
    declared: set[str]

    def is_private(self, name: str) -> bool:
        return name in self.own or name in self.static


def head_of(part: c_ast.Node) -> c_ast.Node:
    return part.decl if isinstance(part, c_ast.FuncDef) else part


def is_definition(part: c_ast.Node) -> bool:
    """Whether it defines a function or an object, if only where no other declaration does."""
    if not isinstance(part, c_ast.Decl) or not part.name:
        return isinstance(part, c_ast.FuncDef)
    return not isinstance(part.type, c_ast.FuncDecl) and not ("extern" in part.storage and part.init is None)


def names_of(tree: c_ast.FileAST) -> FileNames:
    found = FileNames(set(), {}, {}, set(), set())
    for part in tree.ext:
        head = head_of(part)
        for it in nodes(head):
            if isinstance(it, (c_ast.Typedef, c_ast.Enumerator)):
                found.own.add(it.name)
            elif isinstance(it, TAGGED) and it.name:
                found.own.add(f"tag {it.name}")
        if "static" in (getattr(head, "storage", None) or ()) and head.name:
            found.static.setdefault(head.name, head)
        if getattr(head, "name", None):
            found.outer.add(head.name)
    for part in tree.ext:
        if is_definition(part) and head_of(part).name not in found.static:
            found.defined.setdefault(head_of(part).name, head_of(part))
    for it in nodes(tree):
        if isinstance(it, (c_ast.Decl, c_ast.Typedef, c_ast.Enumerator)) and it.name:
            found.declared.add(it.name)
            if isinstance(it, c_ast.Decl) and ("extern" in it.storage or isinstance(it.type, c_ast.FuncDecl)):
                found.outer.add(it.name)
        elif isinstance(it, c_ast.ParamList):
            found.declared.update(part.name for part in it.params if isinstance(part, c_ast.ID))
    found.outer.update(found.own)
    return found


def renamed(tree: c_ast.FileAST, names: dict[str, str]) -> None:
    """Gives names others, wherever they stand in a file and whatever they mean there, but for tags by theirs."""
    for it in nodes(tree):
        if isinstance(it, TAGGED):
            it.name = names.get(f"tag {it.name}", it.name)
            continue
        for role in ("name", "declname"):
            found = getattr(it, role, None)
            if isinstance(found, str) and found in names:
                setattr(it, role, names[found])
        if isinstance(it, c_ast.IdentifierType):
            it.names = [names.get(word, word) for word in it.names]


def linked(units: list[Unit]) -> Linked:
    """The files as one; one alone is as it is."""
    found = Linked(c_ast.FileAST([part for it in units for part in it.tree.ext]))
    found.unit_of = {id(part): i for i, it in enumerate(units) for part in it.tree.ext}
    if len(units) == 1:
        return found
    names = [names_of(it.tree) for it in units]
    twice(found, units, names)
    undeclared(found, units, names)
    spelled(found, units)
    taken = {it for unit in units for it in words_of(unit.tree)}
    for i, unit in enumerate(units):
        changed = {name: free(name, i + 1, taken) for name in sorted({*names[i].own, *names[i].static})
                   if is_to_change(name, i, names)}
        tell(found, names[i], changed)
        renamed(unit.tree, changed)
    return found


def is_to_change(name: str, at: int, names: list[FileNames]) -> bool:
    """Whether another file has the name: of those that keep it to themselves the first may have it, if no file has it
    for all."""
    others = [(i, it) for i, it in enumerate(names) if i != at and name in it.outer]
    return any(i < at or not it.is_private(name) for i, it in others)


def words_of(tree: c_ast.FileAST) -> collections.abc.Iterator[str]:
    for it in nodes(tree):
        for role in ("name", "declname"):
            if isinstance(getattr(it, role, None), str):
                yield getattr(it, role)


def free(name: str, number: int, taken: set[str]) -> str:
    found = f"{name.removeprefix('tag ')[:20]}_{number}"
    while found in taken:
        found += "_"
    taken.add(found)
    return found


def tell(found: Linked, names: FileNames, changed: dict[str, str]) -> None:
    """Notes the functions and objects that have other names now."""
    for name, new in changed.items():
        found.first_name[new] = name
        node = names.static.get(name)
        if node is not None and place_of(node):
            why = f"{name} is static here and another file has the name: it becomes {new}"
            found.notes.append(Told(*place_of(node), why))


def against(found: Linked, node: c_ast.Node, why: str) -> None:
    found.reasons.append(outside(*(place_of(node) or ("", 0)), why))


def twice(found: Linked, units: list[Unit], names: list[FileNames]) -> None:
    """What several files define for all."""
    for i, it in enumerate(names):
        for name, node in it.defined.items():
            before = next((j for j in range(i) if name in names[j].defined), None)
            if before is not None:
                against(found, node, f"{name}, which {units[before].name} defines too")


def undeclared(found: Linked, units: list[Unit], names: list[FileNames]) -> None:
    """What a file uses of others and does not declare."""
    for i, unit in enumerate(units):
        others = [it for j, it in enumerate(names) if j != i]
        elsewhere = {name for it in others for name in (*it.defined, *it.static, *it.own)} - names[i].declared
        for it in nodes(unit.tree):
            if isinstance(it, c_ast.ID) and it.name in elsewhere:
                against(found, it, f"{it.name} of another file, which this one does not declare")


def spelled(found: Linked, units: list[Unit]) -> None:
    """Names that sweet does not read have others in each file: they are to be the same in all, and no other's."""
    for i, unit in enumerate(units):
        for name, new in unit.text.renamed.items():
            for j, other in enumerate(units):
                has = other.text.renamed.get(name, new)
                is_taken = name not in other.text.renamed and new in words_of(other.tree)
                if j != i and (has != new or is_taken):
                    found.reasons.append(Told(unit.name, 0, f"{new} stands for a name here, and not in {other.name}"))
