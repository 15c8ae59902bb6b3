"""What definitions reach one another in crates/*/specs/: read anew, and not as `docs/trusted` reads it."""

import collections
import dataclasses
import pathlib
import re
import sys

sys.path.insert(0, str(pathlib.Path(__file__).resolve().parent.parent / ".ci"))

from lemmas import Lemmas  # noqa: E402

from antt_text import MARKS, SHUT, Token, Uses, closing, cut, statements, tokens  # noqa: E402

# A definition: the module that it stands in, and its name.
Name = tuple[str, str]


@dataclasses.dataclass
class Part:
    """A statement of a definition, and the heads of the modules without a name round it."""

    code: list[Token]
    around: list[Token]


class File:
    """A file of definitions: what it brings in, what it defines, and the definition of each constructor."""

    def __init__(self, text: str, crate: str) -> None:
        self.crate, self.brought, self.aliases = crate, {}, {}
        self.parts: dict[str, list[Part]] = collections.defaultdict(list)
        self.owners: dict[str, str] = {}
        self.operators: dict[str, set[str]] = collections.defaultdict(set)
        listed = [(own[strip(own) :], around) for own, around in statements(tokens(text), [])]
        clauses = [it for it in listed if not self.is_declared(*it)]
        for name in [*self.parts, *self.brought]:
            self.add_operator(name)
        for own, around in clauses:
            name = self.head(own)
            if name:
                self.parts[name].append(Part(own, around))

    @staticmethod
    def of_code(brought: list[str], crate: str) -> "File":
        """A file of code, which brings these in."""
        return File("\n".join(f"use {it}" for it in brought), crate)

    def add_operator(self, name: str) -> None:
        for word in filter(None, name.split("◌")) if "◌" in name else ():
            self.operators[word].add(name)

    def is_declared(self, own: list[Token], around: list[Token]) -> bool:
        """Whether the statement is no clause: what it brings in or declares is noted."""
        first = own[0].it
        if first == "use":
            self.bring(own[1:])
        elif first in {"record", "data"}:
            name = next(it.it for it in own[1:] if it.it not in SHUT)
            self.parts[name].append(Part(own[2:], around))
            if first == "data":
                self.owners.update(dict.fromkeys(constructors(own), name))
        elif len(own) > 1 and own[1].it in {":", "{"} and cut(own, ":") < cut(own, "="):
            self.parts[first].append(Part(own[1:], around))
        else:
            return first in {"mod", "infix", "infixl", "infixr", "syntax", "ruleset", "open"}
        return True

    def bring(self, code: list[Token]) -> None:
        """Notes a line that begins with `use`."""
        path = code[0].it.rstrip(".")
        path = f"Rattle.{self.crate}.specs.{path}" if path.startswith("declared.") else path
        if len(code) > 1 and (code[1].it == "{" or code[1].it == "." and code[2].it == "{"):
            words = [it.it for it in code if it.it not in {"{", "}", ".", code[0].it}]
            for it in " ".join(words).split(" , "):
                name, _, here = it.partition(" as ")
                self.brought[here or name] = path, name
        else:
            self.aliases[code[2].it if len(code) > 2 else path.rpartition(".")[2]] = path

    def head(self, own: list[Token]) -> str | None:
        """The definition that a clause is of."""
        left = own[: cut(own, "=")]
        if own[0].it in self.parts:
            return own[0].it
        found = [name for it in left for name in self.operators.get(it.it, ()) if name in self.parts]
        return found[0] if found else None


def strip(own: list[Token]) -> int:
    """How many marks stand before a statement, as `pub`."""
    return next((k for k, it in enumerate(own) if it.it not in MARKS), 0)


def constructors(own: list[Token]) -> list[str]:
    """The constructors of a `data`: each begins a line, and a colon follows."""
    where = cut(own, "where")
    pairs = list(zip(own, own[1:]))[where + 1 :]
    return [it.it for it, after in pairs if it.is_first and after.it in {":", "{"}]


class Reach:
    """All files, and what definitions name."""

    def __init__(self, crates: pathlib.Path, hidden_fields: frozenset[str] = frozenset()) -> None:
        self.hidden_fields, self.files, texts = hidden_fields, {}, {}
        for path in sorted(crates.glob("*/specs/**/*.antt")):
            crate, *rest = path.relative_to(crates).with_suffix("").parts
            module = ".".join(["Rattle", crate, *rest])
            texts[module] = path.read_text(encoding="utf-8")
            self.files[module] = File(texts[module], crate)
        # A lemma stands where a proof is wanted, and nobody has to read which.
        lemmas = Lemmas(texts)
        self.lemmas = {(module, name) for module in texts for name in lemmas.of(module)}

    def resolved(self, module: str, name: str) -> Name | None:
        """The definition that a module hands out by a name."""
        seen = set()
        while module in self.files and (module, name) not in seen:
            seen.add((module, name))
            file = self.files[module]
            if name in file.parts:
                return module, name
            if name in file.owners:
                return module, file.owners[name]
            if name not in file.brought:
                return None
            module, name = file.brought[name]
        return None

    def is_constructor(self, module: str, name: str) -> bool:
        """Whether a name in a pattern of the module is one of a type, and no variable."""
        file = self.files.get(module)
        while file and name not in file.parts and name not in file.owners and name in file.brought:
            module, name = file.brought[name]
            file = self.files.get(module)
        return bool(file) and name in file.owners and name not in file.parts

    def meant(self, file: File, module: str, word: str) -> set[Name]:
        """What a word of a statement may mean there."""
        first, _, rest = word.partition(".")
        found = set()
        if first in file.aliases and rest:
            found.add(self.resolved(file.aliases[first], rest.split(".")[0]))
        for part in {word, first, *filter(None, word.split("◌"))}:
            for name in {part, *file.operators.get(part, ())}:
                if module in self.files:
                    found.add(self.resolved(module, name))
                elif name in file.brought:
                    found.add(self.resolved(*file.brought[name]))
        return found - {None}

    def named_by(self, name: Name) -> set[Name]:
        """What a definition names."""
        module, own = name
        file = self.files[module]
        used: set[str] = set()
        for part in file.parts[own]:
            uses = Uses(lambda word: self.is_constructor(module, word), self.hidden_fields)
            self.walk_part(uses, part)
            used |= uses.found
        return {it for word in used for it in self.meant(file, module, word)} - {name} - self.lemmas

    def walk_part(self, uses: Uses, part: Part) -> None:
        """Walks the heads round a statement, what its left side binds, and the rest of it."""
        bound: set[str] = set()
        at = 0
        while at < len(part.around):
            if part.around[at].it in SHUT:
                end = closing(part.around, at)
                bound |= uses.group(part.around[at + 1 : end], bound, False)
                at = end
            at += 1
        equals, colon = cut(part.code, "="), cut(part.code, ":")
        if equals < colon:
            left = part.code[:equals]
            bound |= uses.binders([it for it in left[1:]])
            uses.walk(part.code[equals + 1 :], bound | local(part.code))
        else:
            uses.walk(part.code, bound)

    def of_clause(self, file: File, code: list[Token]) -> set[Name]:
        """What a clause of the code names, in a file that brings in its names."""
        uses = Uses(lambda word: False, self.hidden_fields)
        uses.walk(code, {"result", "self"})
        return {it for word in uses.found for it in self.meant(file, "", word)}

    def closed(self, roots: set[Name]) -> tuple[set[Name], dict[Name, Name]]:
        """All that these reach, and what names each of them."""
        found, by, ahead = set(), {}, sorted(roots)
        while ahead:
            name = ahead.pop()
            if name not in found:
                found.add(name)
                named = self.named_by(name)
                by.update({it: name for it in named if it not in found})
                ahead += sorted(named)
        return found, by


def local(code: list[Token]) -> set[str]:
    """The names that the lines below a `where` define."""
    begun = next((k for k, it in enumerate(code) if it.it == "where"), len(code))
    margin = min((it.column for it in code[begun:] if it.is_first), default=0)
    return {it.it for it in code[begun:] if it.is_first and it.column == margin and re.match(r"\w", it.it)}
