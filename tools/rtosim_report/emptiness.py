"""What a campaign leaves untested. One without points, or none of whose points is reached, passes whatever the application does. The same
is true of a report from which the rows that fail are left out."""
from typing import NamedTuple, Optional

from .faults import counted
from .reading import Tally

ALLOWED_BY = "--allow-empty takes it"


class Emptiness(NamedTuple):
    """Why nothing is tested: a name, the reason in a sentence, and whether --allow-empty takes it."""

    name: str
    why: str
    may_be: bool = True

    @property
    def words(self) -> str:
        return f"{self.name}: {self.why}"

    def line(self) -> str:
        return f"{self.words}; {ALLOWED_BY}" if self.may_be else self.words


NO_POINTS = Emptiness("the campaign has no points", "nothing is injected, so nothing is tested")
NOT_REACHED = Emptiness("no point of the campaign is reached", "the base run ends before each of them, or its interrupt can't come there, so nothing is tested")
LEFT_OUT = "rows that fail are left out of the report"


def failing_left_out(total: Tally, written: Tally) -> int:
    """How many rows that fail a total line counts, and the report doesn't have."""
    return sum(total.by_kind[kind] - written.by_kind[kind] for kind in total.by_kind if kind != "pass")


def emptiness_of(total: Tally, is_of_a_run: bool, left_out: int = 0) -> Optional[Emptiness]:
    """Why so many rows, with so many failing ones left out, test nothing; None if they test something, or if the report is that of a run."""
    if left_out:
        return Emptiness(LEFT_OUT, f"{counted(left_out, 'row')}, by --only", False)
    if not total.rows:
        return None if is_of_a_run else NO_POINTS
    return NOT_REACHED if total.not_reached == total.rows else None
