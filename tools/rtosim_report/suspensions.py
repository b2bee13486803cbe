"""When each task is suspended, and by which task. A report has the call, but not the task that it is about: the application's scripts have."""
from __future__ import annotations

from typing import Any, Iterator, List, NamedTuple, Optional, Sequence, TYPE_CHECKING, Tuple

from .lanes import Doing
from .report import Kind

if TYPE_CHECKING:
    from .timeline import Builder


class Change(NamedTuple):
    """A `suspend` or a `resume` that changes something: when, which task, and by which task. The task isn't always known."""

    boundary: int
    task: Optional[str]
    is_suspend: bool
    by: str

    def may_be_of(self, name: str) -> bool:
        return self.task == name or self.task is None and self.by != name


def changes_of(builder: Builder) -> List[Change]:
    """Those of a run, in order. A task that leaves the processor in the step of its `suspend` has suspended itself."""
    left_at = {(it.lane.name, it.end) for it in builder.turns}
    found = []
    for index, event in enumerate(builder.events):
        if event.kind not in (Kind.CALL, Kind.ISR) or event.word not in ("suspend", "resume") or event.answer != 1:
            continue
        op = builder.application.op(event.name, event.op) if builder.application else None
        task = op.object if op is not None else None
        boundary = builder.boundary(index)
        if task is None and event.word == "suspend" and (event.name, boundary) in left_at:
            task = event.name
        found.append(Change(boundary, task, event.word == "suspend", event.name))
    return found


def known_stretches(name: str, changes: List[Change], bar_start: int, bar_end: int, doing: Optional[Doing],
                    comes_back: bool) -> Iterator[Tuple[int, int, Optional[Doing]]]:
    """The stretch in which a task does this, cut at each suspension: from there on the task is suspended, and Ready when it is resumed. If it may
    be suspended, and that isn't known, the rest is left out. Yields starts, ends and what is done."""
    at = bar_start
    for it in changes:
        if not bar_start <= it.boundary < bar_end or not it.may_be_of(name):
            continue
        if it.task is not None:
            yield at, it.boundary, doing
            at, doing = it.boundary, Doing.SUSPENDED if it.is_suspend else Doing.READY
        elif it.is_suspend and doing is not Doing.SUSPENDED and may_come_back(name, changes, it.boundary, bar_end, comes_back):
            yield at, it.boundary, doing
            return
    yield at, bar_end, doing


def may_come_back(name: str, changes: Sequence[Any], since: int, until: int, comes_back: bool) -> bool:
    """Whether a task that is suspended then does what this one does: a `resume` alone lets it come back."""
    resumes = (it for it in changes if not it.is_suspend and since < it.boundary <= until)
    return not comes_back or any(it.may_be_of(name) for it in resumes)
