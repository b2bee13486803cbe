"""The families of ops, and which of them the program knows: the one place to change when it learns another."""
import enum
from typing import FrozenSet


class Family(enum.Enum):
    """Ops that the program learns together."""

    CALLS = "calls of the kernel, branches, loops and measuring"
    VARIABLES = "variables and arithmetic"
    CRITICAL = "critical sections"
    NOTIFICATIONS = "task notifications"


Target = FrozenSet[Family]

PROGRAM: Target = frozenset(Family)
