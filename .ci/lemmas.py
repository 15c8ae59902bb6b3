"""Which declarations of the files of `specs/` are lemmas: those whose type is a fact.

A declaration `name : .. → R` is a lemma where R is a relation of terms, `⊥`, a product or a sum with such a part, or a
predicate of something. It is a definition where R is a type of values, as `ℕ` and `List A`, or `Type 0`. A type that the
tree declares is a predicate where it is a family over values and says a fact, in a field, in a clause or as an index.
"""

import re

RELATIONS = set("≡ ≢ ≤ < > ≥ ≤ℤ <ℤ ↔ ⊥ ¬ ∈ ∣".split())
VALUES = set("ℕ ℤ Bool List Option Vec String Char Unit Result Ordering".split())
OUTSIDE = re.compile(r"(Is|Has|Are|If|All|Any|Contains|Some|Distinct|Fits)")
WORD = re.compile(r'"(?:[^"\\]|\\.)*"|[(){}\[\];,]|[^\s(){}\[\];,]+')
MARKS = r"(?:(?:pattern|unfoldable|abbrev|pub|axiom) )*"
SIGNATURE = re.compile(rf"{MARKS}([^\s(){{}}]+)(?: \{{[^}}]*\}})? :(?=\s|$)")
TYPE = re.compile(rf"{MARKS}(record|data) ([^\s:(){{}}]+)")
OPEN, CLOSE = set("({["), set(")}]")


def indent(line):
    return len(line) - len(line.lstrip(" "))


def depths(words):
    """Each word with the number of brackets round it."""
    depth = 0
    for word in words:
        depth -= word in CLOSE
        yield word, depth
        depth += word in OPEN


def outer(words):
    return [word for word, depth in depths(words) if depth == 0]


def parts(words, at):
    """The words between those that stand outside of brackets."""
    found = [[]]
    for word, depth in depths(words):
        if depth == 0 and word == at:
            found.append([])
        else:
            found[-1].append(word)
    return found


def first_part(words):
    """The words up to the end of what their first bracket opens."""
    end = next((k for k, (_, depth) in enumerate(depths(words)) if k and depth == 0), len(words) - 1)
    return words[: end + 1]


def bare(words):
    """The words without brackets round all of them."""
    while len(words) > 1 and words[0] == "(" and len(first_part(words)) == len(words):
        words = words[1:-1]
    return words


def binders(words):
    """For each name that the words bind, as in `(x y : A)`: whether it is a type, a family of types or a value."""
    found, text = {}, " ".join(words)
    for it in re.finditer(r"[({] ?([^:(){}]+) : ", text):
        rest = text[it.end() :].split(" ")
        end = next((k for k, (_, depth) in enumerate(depths(rest)) if depth < 0), len(rest))
        ends = parts(rest[:end], "→")
        kind = "value" if ends[-1][:1] != ["Type"] else "type" if len(ends) == 1 else "family"
        found.update(dict.fromkeys(it[1].split(), kind))
    return found


class Declaration:
    """A declaration: its kind, its name, the heads of the modules round it, how far in it stands, and its lines."""

    def __init__(self, kind, name, around, level, line):
        self.kind, self.name, self.around, self.level, self.lines = kind, name, around, level, [line]

    def told(self):
        """The words of the type, or of what stands before `where`, and the lines that follow."""
        end = 1
        while end < len(self.lines) and indent(self.lines[end]) > self.level and not self.closed(end):
            end += 1
        text = "\n".join(self.lines[:end])[self.level :]
        return WORD.findall(text[(TYPE if self.kind != "name" else SIGNATURE).match(text).end() :]), self.lines[end:]

    def closed(self, end):
        return self.kind != "name" and re.search(r"\bwhere$", self.lines[end - 1])

    def pieces(self):
        """The fields of a record, or the clauses of a function: the words of each."""
        level = self.level + 2 * (self.kind != "name")
        text = "\n".join(it for it in self.told()[1] if not it.strip().startswith("unfolding "))
        return [WORD.findall(it) for it in re.split(rf"(?:^|\n)(?= {{{level}}}\S)", text) if it.strip()]


class File:
    """A file: what it brings in by which name, and its declarations."""

    def __init__(self, text):
        self.brought, self.aliases, self.declarations = {}, {}, []
        text = re.sub(r"(?m)(^|\s)--( .*)?$", "", text)
        for path, names, alias in re.findall(r"(?m)^(?:pub )?use ([\w.]+?)(?:\.\{(.*)\}|(?: as (\S+))?)$", text):
            for name in filter(None, map(str.strip, names.split(","))):
                name, _, here = name.partition(" as ")
                self.brought[here or name] = path, name
            if not names:
                self.aliases[alias or path.rpartition(".")[2]] = path
        lines = [it for it in text.split("\n") if it.strip()]
        self.read([it for it in lines if not re.match(r"\s*((pub )?(use|mod)|infix\w*) ", it)], [], 0)
        self.own = {it.name: it for it in reversed(self.declarations)}

    def read(self, lines, around, level):
        """Reads the declarations that stand this far in."""
        at, current = 0, None
        while at < len(lines):
            line, body = lines[at], lines[at][level:]
            at += 1
            of_type, of_name = TYPE.match(body), SIGNATURE.match(body)
            if indent(line) > level:
                current.lines.append(line)
            elif re.match(r"module |((abbrev|unfoldable|pub) )*mutual$", body):
                at, current = self.read_block(lines, at - 1, around, level), None
            elif of_type or of_name:
                kind, name = (of_type[1], of_type[2]) if of_type else ("name", of_name[1])
                current = Declaration(kind, name, around, level, line)
                self.declarations.append(current)
            elif current:
                current.lines.append(line)

    def read_block(self, lines, begun, around, level):
        """Reads a block with its head, and says where it ends."""
        end = begun
        while not re.search(r"\b(where|mutual)$", lines[end]):
            end += 1
        end, head = end + 1, " ".join(lines[begun : end + 1])
        begun = end
        while end < len(lines) and indent(lines[end]) > level:
            end += 1
        if begun < end:
            self.read(lines[begun:end], [*around, head], indent(lines[begun]))
        return end


class Lemmas:
    """The files of the tree, by the names of their modules, and what was found out of their types."""

    def __init__(self, texts):
        self.files = {module: File(text) for module, text in texts.items()}
        self.known, self.fields = {}, {}
        for file in self.files.values():
            for it in file.declarations:
                for field in it.pieces() if it.kind == "record" else ():
                    words = field[field[0] == "pub" :]
                    ends = parts(words[2:], "→")
                    if ends[-1] == ["Type", "0"]:
                        self.fields.setdefault(words[0], set()).add("fact" if len(ends) > 1 else "value")

    def of(self, module):
        """The names of the lemmas of a file."""
        file = self.files[module]
        return [it.name for it in file.declarations if it.kind == "name" and self.kind(it.told()[0], file, it) == "fact"]

    def kind(self, words, file, at, bound=None):
        """What a term of this type is: a fact, a value, or a type."""
        bound = dict(bound or {})
        for head in at.around:
            bound.update(binders(WORD.findall(head)))
        *given, words = parts(bare(words), "→")
        for it in given:
            bound.update(binders(it))
        words = bare(words)
        while words[:1] == ["let"]:
            words = bare(words[[word for word, _ in depths(words)].index("in") + 1 :])
        if len(parts(words, "→")) > 1:
            return self.kind(words, file, at, bound)
        if words[:1] == ["Type"]:
            return "type"
        if RELATIONS & set(outer(words)) or words[:1] and words[0].startswith("¬"):
            return "fact"
        for sign in "⊎×":
            if sign in outer(words):
                return self.kind_of_parts(parts(words, sign), file, at, bound)
        return self.kind_of_head(words, given, file, at, bound) if words else "value"

    def kind_of_parts(self, found, file, at, bound):
        """What a product or a sum is."""
        kinds = set()
        for it in found:
            bound.update(binders(it))
            it = bare(it)
            it = it[it.index(":") + 1 :] if ":" in outer(it) else it
            kinds.add(self.kind(it, file, at, bound))
        return "fact" if "fact" in kinds else "value"

    def kind_of_head(self, words, given, file, at, bound):
        """What a type is by the name at its head."""
        head = words[0]
        if head == "(":
            begun = first_part(words)
            rest = words[len(begun) :]
            if rest[:1] and rest[0].startswith("."):
                return "value" if self.fields.get(rest[0][1:]) == {"value"} else "fact"
            return self.kind([*bare(begun), *rest], file, at, bound)
        if bound.get(head) == "type":
            facts = [self.kind(it, file, at, bound) for it in given if not (it[:1] and it[0] in OPEN and ":" in it)]
            return "fact" if "fact" in facts else "value"
        if head in bound:
            return "fact"
        first, _, last = head.rpartition(".")
        if first:
            if first in file.aliases:
                return self.kind_of_type(file.aliases[first], last)
            return "value" if self.fields.get(last) == {"value"} else "fact"
        if head in VALUES:
            return "value"
        if head in file.own:
            return self.kind_of_type(next(name for name, it in self.files.items() if it is file), head)
        return self.kind_of_type(*file.brought[head]) if head in file.brought else "fact"

    def kind_of_type(self, module, name):
        """What a term of a declared type is."""
        if (module, name) not in self.known:
            self.known[module, name] = "fact"
            file = self.files.get(module)
            if name in VALUES:
                kind = "value"
            elif file is None:
                kind = "fact" if OUTSIDE.match(name) else "value"
            elif name in file.own:
                kind = self.kind_of_declared(file.own[name], file)
            else:
                kind = self.kind_of_type(*file.brought[name]) if name in file.brought else "fact"
            self.known[module, name] = kind
        return self.known[module, name]

    def kind_of_declared(self, it, file):
        """What a term of a type is that this declares."""
        words = it.told()[0]
        ends = parts(words, "→")
        bound = {**binders(words), **{name: kind for head in it.around for name, kind in binders(WORD.findall(head)).items()}}
        over_values = "value" in bound.values() or "family" in bound.values()
        large = bool(re.search(r"Type [1-9]", " ".join(words)))
        if it.kind == "data":
            return "value" if large or not over_values and len(ends) == 1 else "fact"
        if it.kind == "record":
            kinds = set(self.kinds_of_fields(it, file, bound))
            if large or not over_values:
                return "value" if kinds & {"value", "type"} or not kinds else "fact"
            return "fact" if "fact" in kinds else "value"
        if ends[-1][:1] != ["Type"]:
            return "value"
        if any(re.search(r"\bmutual$", head) for head in it.around):
            return "fact" if len(ends) > 1 else "value"
        kinds = [self.kind(clause[outer(clause) and self.equals(clause) + 1 :], file, it, bound) for clause in it.pieces() if self.equals(clause)]
        return "fact" if "fact" in kinds or not kinds else "value"

    def kinds_of_fields(self, it, file, bound):
        for field in it.pieces():
            words = field[field[0] == "pub" :]
            yield self.kind(words[2:], file, it, bound)
            bound.update(binders(["(", *words, ")"]))

    @staticmethod
    def equals(clause):
        """Where the `=` of a clause stands."""
        return next((k for k, (word, depth) in enumerate(depths(clause)) if word == "=" and depth == 0), 0)
