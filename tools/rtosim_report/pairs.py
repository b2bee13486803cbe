"""The points of a campaign of two interrupts each: a section for the end of an application's file."""
from typing import Iterator, List, Tuple

from .faults import WordsFault, counted
from .output import Text
from .report import Injection, Point

MOST_POINTS = MOST_STEPS = 1_000_000


def pairs_of(handlers: List[str], steps: range, within: int) -> Iterator[Point]:
    """The pairs whose first interrupt comes before one of the steps, and the second one in that step or at most so many later: of one
    handler twice, or of two in both orders."""
    for first in steps:
        for second in range(first, min(first + within, MOST_STEPS) + 1):
            for one, other in orders_of(handlers):
                yield Point((Injection(first, one), Injection(second, other)))


def orders_of(handlers: List[str]) -> List[Tuple[str, str]]:
    if len(handlers) == 1:
        return [(handlers[0], handlers[0])]
    return [(one, other) for one in handlers for other in handlers if one != other]


def write_pairs(output: Text, handlers: List[str], steps: range, within: int) -> None:
    """Writes the section, a line for each first step."""
    count = len(steps) * (within + 1) * len(orders_of(handlers))
    if count > MOST_POINTS:
        raise WordsFault(f"{counted(count, 'pair')}, and a campaign has at most {MOST_POINTS:,} points: --from and --to name fewer first steps")
    output.line("[campaign]")
    output.line("points = [")
    for first in steps:
        output.line("  " + " ".join(f'"{it.text()}",' for it in pairs_of(handlers, range(first, first + 1), within)))
    output.line("]")
