"""What is said of a line of C: that it is refused, or that it leaves no op."""
from dataclasses import dataclass
from typing import List, Optional, Tuple


@dataclass(frozen=True, order=True)
class Place:
    """A line and a column of a file, both from 1; of what is in a function that was called, the lines of the calls."""

    file: str
    line: int
    column: int
    calls: Tuple[int, ...] = ()


class Refusal(Exception):
    """A construct that has no op: what it is, and what to write in its place."""

    def __init__(self, place: Optional[Place], what: str, instead: str = "") -> None:
        super().__init__(what)
        self.place, self.what, self.instead = place, what, instead


class SeveralRefusals(Exception):
    def __init__(self, refusals: List[Refusal]) -> None:
        super().__init__(str(len(refusals)))
        self.refusals = refusals


@dataclass(frozen=True)
class Lost:
    """Why a value isn't known at a place: the local that had it, if there is one, and where another call's answer took it. `array` is the
    array that it is an element of, if its elements may be followed."""

    why: str
    local: Optional[str] = None
    taken_at: Optional[Place] = None
    instead: str = ""
    array: Optional[str] = None


class LostUse(Refusal):
    """A value decides something, and isn't known."""

    def __init__(self, place: Optional[Place], lost: Lost) -> None:
        super().__init__(place, lost.why, lost.instead)
        self.lost = lost


@dataclass(frozen=True)
class Note:
    """A place that leaves no op, or behaves otherwise than the device. `is_warning` if the difference may change what a run does."""

    place: Optional[Place]
    text: str
    is_warning: bool = False
