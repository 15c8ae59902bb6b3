"""Functions of a program as items, with the tokens that each item comes from."""

import dataclasses
import typing

# The items that end a block.
ENDS = ("call", "jump", "switch", "return")
# An operator of C or a constant.
Mark = str | int


@dataclasses.dataclass(slots=True)
class Item:
    """An item of a function.

    `labels` and `frames` are all names of labels (also of functions) and of frames in it, in order, and `marks` the
    operators and constants of C, an operator before its operands, as texts of ALF have them. `strong` are the tokens
    that stand for its block; `weak` ones do so only where the block has no strong one. `offset` is the number of the
    element that it initialises. `term` is what the program's text has for it.
    """

    kind: str
    strong: list[int] = dataclasses.field(default_factory=list)
    weak: list[int] = dataclasses.field(default_factory=list)
    labels: list[str] = dataclasses.field(default_factory=list)
    frames: list[str] = dataclasses.field(default_factory=list)
    marks: list[Mark] = dataclasses.field(default_factory=list)
    offset: int | None = None
    role: str = ""
    term: typing.Any = None

    @property
    def ends_block(self) -> bool:
        return self.kind in ENDS


@dataclasses.dataclass(slots=True, eq=False)
class LoopStatement:
    """A loop: its word, the token where it stands, and the labels of its header and of its body."""

    word: str
    token: int
    head: str
    body: str


@dataclasses.dataclass(slots=True, eq=False)
class Function:
    """A function: its tokens (`first` to `last`, its name at `named`), its frames, its items in order and its blocks.

    `blocks` has the numbers of the items of each block, and `block_of_label` the block of each label.
    """

    name: str
    first: int = 0
    last: int = 0
    named: int = 0
    parameters: list[str] = dataclasses.field(default_factory=list)
    frames: list[str] = dataclasses.field(default_factory=list)
    items: list[Item] = dataclasses.field(default_factory=list)
    loops: list[LoopStatement] = dataclasses.field(default_factory=list)
    blocks: list[list[int]] = dataclasses.field(default_factory=list)
    block_of_label: dict[str, int] = dataclasses.field(default_factory=dict)

    def cut(self) -> None:
        """Cuts the items into blocks: one ends at a call, a jump, a switch or a return, and before a label behind a
        statement."""
        begins = True
        for number, item in enumerate(self.items):
            if begins or item.kind == "label" and self.items[number - 1].kind != "label":
                self.blocks.append([])
            self.blocks[-1].append(number)
            if item.kind == "label":
                self.block_of_label[item.labels[0]] = len(self.blocks) - 1
            begins = item.ends_block

    def items_of(self, block: int) -> list[Item]:
        return [self.items[number] for number in self.blocks[block]]

    def last_item(self, block: int) -> Item:
        return self.items[self.blocks[block][-1]]

    def tokens_of(self, block: int) -> list[int]:
        """The tokens that a block stands for; of the entry, which is block -1, the name."""
        if block < 0:
            return [self.named]
        items = self.items_of(block)
        strong = sorted({token for item in items for token in item.strong})
        return strong or sorted({token for item in items for token in item.weak})

    def is_weak(self, block: int) -> bool:
        """Whether no item of the block has a token of its own."""
        return block >= 0 and not any(item.strong for item in self.items_of(block))
