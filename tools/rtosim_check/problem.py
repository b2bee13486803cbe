"""What is wrong with an op, and how it is said."""
from __future__ import annotations

from typing import List, Optional, Tuple

from .context import Context
from .nodes import Span

# The place at which a message points, what it says, and the rule.
Explanation = Tuple[Span, str, Optional[str]]


class Problem:
    """What is wrong with an op's text: the part of it, the words, and the rule."""

    def __init__(self, start: int, end: int, message: str, rule: str) -> None:
        self.start, self.end, self.message, self.rule = start, end, message, rule


def told(context: Context, problem: str) -> str:
    return f'{context.label}, "{context.node.value}": {problem}'


def joined(numbers: List[int]) -> str:
    """As `1, 2 and 3`."""
    return " and ".join([", ".join(map(str, numbers[:-1])), str(numbers[-1])]) if len(numbers) > 1 else str(numbers[0])
