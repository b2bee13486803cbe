"""The points of a campaign: too many of them, and those after the end of the base run."""
from __future__ import annotations

from typing import Any, Iterator, List, Optional, Tuple

from rtosim_report.faults import counted

from .application import Application, pairs_of, range_of
from .findings import FAULT, WARNING, Finding
from .formats import MOST_POINTS
from .nodes import Table, Text


def count_of(node: Any, steps: int) -> int:
    """How many points an entry is, if the base run has this many steps."""
    found = range_of(node.value) if isinstance(node, Text) and node.value.lstrip(" ").startswith("all ") else None
    return len(range(found[1], min(steps, found[2] + 1))) if found else 1


def count(nodes: List[Text], steps: int) -> int:
    """How many points these are, if the base run has this many steps."""
    return sum(count_of(it, steps) for it in nodes)


def too_many(nodes: List[Text], steps: int, root: Table, line: str) -> Finding:
    """The fault of a campaign of too many points."""
    message = f"campaign, points: {count(nodes, steps):,} points, and a campaign has at most {MOST_POINTS:,}"
    message += f"; the base run has {steps:,} steps, and all HANDLER is a point for each, or for each from A to B"
    rule = "`rtosim run` accepts the file, and `rtosim campaign` doesn't; a smaller [limits] steps makes runs shorter"
    return Finding(FAULT, "TooManyPoints", root.get("campaign").members["points"].span, message, rule, line)


def warnings(application: Application, steps: int) -> Iterator[Finding]:
    """Points that are not reached by a base run of this many steps, in one warning."""
    behind: List[Tuple[int, Text]] = []
    empty: List[Tuple[int, Text]] = []
    for at, node in enumerate(application.points() or []):
        step = first_step(node)
        if step is not None and step >= steps:
            (empty if range_of(node.value) else behind).append((at, node))
    if behind:
        others = f", nor are {counted(len(behind) - 1, 'other')}" if len(behind) > 1 else ""
        yield past_the_end(behind[0], steps, f"this point is not reached{others}", "the row of a point that is not reached is the base run")
    if empty:
        have = "has" if len(empty) == 2 else "have"
        others = f", nor {have} {counted(len(empty) - 1, 'other')}" if len(empty) > 1 else ""
        yield past_the_end(empty[0], steps, f"this range has no point{others}", "a range has a point for each of its steps that the base run has")


def first_step(node: Any) -> Optional[int]:
    """The step of an entry's first injection, or None if it has none."""
    if not isinstance(node, Text):
        return None
    found = range_of(node.value)
    if found:
        return found[1]
    pairs = pairs_of(node.value)
    return pairs[0][0] if pairs else None


def past_the_end(entry: Any, steps: int, what: str, rule: str) -> Finding:
    at, node = entry
    message = f'campaign, points {at}, "{node.value}": the base run ends after {counted(steps, "step")}, so {what}'
    return Finding(WARNING, "NotReached", node.span, message, rule)
