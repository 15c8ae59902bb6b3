"""The arms of a switch: where it leads, and what is known there of the memory that its condition was found in."""

from recheck import strides
from recheck.expressions import Expressions
from recheck.memory import EMPTY, Memory, pinned
from recheck.strides import Stride, norm
from recheck.tree import Expression, Load, Operation, Switch
from recheck.values import KIND, of_words
from recheck.words import RELATIONS

# A label, and the memory there.
Arm = tuple[str, Memory]
OPPOSITE = {"eq": "neq", "neq": "eq", "lt": "ge", "ge": "lt", "le": "gt", "gt": "le"}
MIRRORED = {"lt": "gt", "gt": "lt", "le": "ge", "ge": "le"}


def arms_of(item: Switch, expressions: Expressions, memory: Memory) -> tuple[list[Arm], int]:
    """An arm for each target in their order, and that of the default last; and the faults that may come."""
    value, faults = expressions.value(item.value, memory)
    if value is None:
        return [], faults
    words, rest = value[0], value[0]
    ways = []
    for number, label in item.targets:
        ways.append((label, strides.only(words, number.word) if words else None))
        rest = strides.without(rest, number.word) if rest else None
    ways.append((item.default, rest))
    refined = [(label, refine(item.value, expressions, memory, left)) for label, left in ways if left]
    return [(label, it) for label, it in refined if it is not None], faults | (KIND if value[1] else 0)


def refine(term: Expression, expressions: Expressions, memory: Memory, words: Stride) -> Memory | None:
    """The memory where the switch goes on with these words; None where no run does."""
    if load_of(term):
        return pin(term, expressions, memory, memory, words)
    bit = strides.word_of(words)
    if isinstance(term, Operation) and term.name in RELATIONS and bit is not None:
        return relate(term, term.name if bit else turned(OPPOSITE, term.name), expressions, memory)
    return memory


def turned(table: dict[str, str], name: str) -> str:
    """The relation that the table has for a relation, or for its order."""
    return table.get(name) or name[:2] + table.get(name[2:], name[2:])


def relate(term: Operation, relation: str, expressions: Expressions, memory: Memory) -> Memory | None:
    """Both sides are found before either is pinned."""
    values = [expressions.value(it, memory)[0] for it in term.operands]
    words = [it[0] for it in values if it and it[0] and not it[1]]
    if len(words) < 2:
        return memory
    found = memory
    for at, held in enumerate((relation, turned(MIRRORED, relation))):
        left = strides.assume(words[at], held, words[1 - at])
        if left is None:
            return None
        found = pin(term.operands[at], expressions, memory, found, left)
    return found


def load_of(term: Expression) -> Load | None:
    """The load whose value a term has, as it stands or extended."""
    inner = term.operands[0] if isinstance(term, Operation) and term.name in ("s_ext", "z_ext") else term
    return inner if isinstance(inner, Load) else None


def pin(term: Expression, expressions: Expressions, before: Memory, memory: Memory, words: Stride) -> Memory:
    """The memory with the cell that a side loads pinned, where its address is that of one cell and cannot fault."""
    load = load_of(term)
    if load is None:
        return memory
    held, _ = expressions.value(load, before)
    address, faults = expressions.value(load.address, before)
    spots, fault = expressions.spots(address, load.size) if address else ([], 0)
    if held is None or held[1] or faults | fault or len(spots) != 1:
        return memory
    ((frame, offset),) = spots
    value = of_words(norm(load.size, *words[1:]))
    return {**memory, frame: pinned(memory.get(frame, EMPTY), (offset, load.size), value)}
