"""Where a task may go in its script, which the program has taken: the ops that may follow each op. Each condition may hold or not."""
from __future__ import annotations

from typing import List


class Paths:
    """The ways through the ops of a script, each op as its words."""

    def __init__(self, ops: List[List[str]]) -> None:
        self.ops = ops
        # The places at which each block is parted and ends; of each else and each end its block; of each break its loop.
        self.parts, self.ends, self.blocks, self.loops = {}, {}, {}, {}
        opened = []
        for at, (word, *_) in enumerate(ops):
            if word in ("repeat", "if"):
                opened.append(at)
            elif word == "else":
                self.parts[opened[-1]], self.blocks[at] = at, opened[-1]
            elif word == "break":
                self.loops[at] = next(it for it in reversed(opened) if ops[it][0] == "repeat")
            elif word == "end":
                self.blocks[at] = opened.pop()
                self.ends[self.blocks[at]] = at

    def after(self, at: int) -> List[int]:
        """The ops that may be next when this one has ended; the number of ops is the script's end."""
        word = self.ops[at][0]
        if word == "if":
            return [at + 1, self.parts.get(at, self.ends[at]) + 1]
        if word == "else":
            return [self.ends[self.blocks[at]] + 1]
        if word == "break":
            return [self.ends[self.loops[at]] + 1]
        if word == "end" and self.ops[self.blocks[at]][0] == "repeat":
            back = self.blocks[at] + 1
            return [back] if self.is_endless(self.blocks[at]) else [back, at + 1]
        return [at + 1]

    def is_endless(self, at: int) -> bool:
        return self.ops[at] == ["repeat", "forever"]

    def unreached(self) -> List[int]:
        """The first op of each stretch that no way leads to, except for those that only part or close a block."""
        reached, following = set(), [0]
        while following:
            at = following.pop()
            if at not in reached and at < len(self.ops):
                reached.add(at)
                following += self.after(at)
        left = [at for at, (word, *_) in enumerate(self.ops) if at not in reached and word not in ("else", "end")]
        return [at for before, at in zip([None, *left], left) if before is None or set(range(before, at)) & reached]
