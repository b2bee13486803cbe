"""The values of variables in a run: each `store` that the scripts name gives one from there on, and at reset it is `initial`.

A report has the value of a `store`, but not which variable it is of, so nothing is known without the application."""
from __future__ import annotations

import bisect
from typing import Any, Callable, Dict, Iterator, List, NamedTuple, Optional, Tuple

from .application import Application
from .report import Event, Kind

STORES = "store"
# Before the first boundary.
RESET = -1
# Of each variable the values that it may have.
Values = Dict[str, Tuple[int, ...]]


class ValueStretch(NamedTuple):
    """A value from one boundary to another, and the `store` that it comes from; None at reset."""

    start: int
    end: int
    value: int
    by: Optional[Event] = None


def stored_by(application: Application, name: str, index: Any, word: str) -> Optional[str]:
    """The variable that a call of a task or a handler stores, or None."""
    op = application.op(name, index) if word == STORES else None
    return op.object if op is not None and op.object in application.variables else None


def stores_of(application: Application, events: List[Event]) -> Iterator[Tuple[int, str]]:
    """The places of the events that store a variable, each with its name."""
    for at, it in enumerate(events):
        if it.kind in (Kind.CALL, Kind.ISR) and it.word == STORES:
            name = stored_by(application, it.name, it.op, it.word)
            if name is not None:
                yield at, name


class History:
    """The values of all variables of an application along a run. `boundary` returns when the event of an index is seen."""

    def __init__(self, application: Optional[Application], events: List[Event], boundary: Callable[[int], int]) -> None:
        self.events = events
        # Of each variable from which boundaries on it has which values, and the events that they come from.
        self.starts: Dict[str, List[int]] = {}
        self.values: Dict[str, List[Any]] = {}
        if application is None:
            return
        for name, initial in application.variables.items():
            self.starts[name], self.values[name] = [RESET], [(initial, None)]
        for at, name in stores_of(application, events):
            self.starts[name].append(boundary(at))
            self.values[name].append((events[at].answer, at))

    def value(self, name: str, boundary: int) -> int:
        """The value at a boundary, which is RESET at least."""
        return self.values[name][bisect.bisect_right(self.starts[name], boundary) - 1][0]

    def before(self, step: int) -> Values:
        """What the op of a step finds."""
        return {name: (self.value(name, step),) for name in self.starts}

    def stretches(self, name: str, steps: int) -> List[ValueStretch]:
        """The values one after the other, to the end of the run; of several of one boundary the last."""
        found, starts = [], [0, *self.starts[name][1:], steps]
        for at, (value, event) in enumerate(self.values[name]):
            if starts[at] < starts[at + 1] or at + 2 == len(starts):
                found.append(ValueStretch(starts[at], max(starts[at + 1], starts[at]), value, None if event is None else self.events[event]))
        return found
