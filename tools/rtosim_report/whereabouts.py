"""Where each task of a stuck run is, by its lines and the scripts. Up to its injection a row is the base run. So the tasks are followed once
through the base run, and through each row from its injection on."""
from __future__ import annotations

import copy
import re
from typing import Any, Dict, Optional, Sequence, TYPE_CHECKING, Tuple

from .application import Application, Script
from .progress import Walker
from .reading import Run
from .variables import Values, stored_by

if TYPE_CHECKING:
    from .base_run import BaseRun

CALLS = re.compile(rb"^[0-9]+ [0-9]+ (call|isr) ([A-Za-z][A-Za-z0-9_]*) ([0-9]+) ([a-z_]+) = (none|[0-9]+)$", re.MULTILINE)
CALL = re.compile(rb"(call|isr) ([A-Za-z][A-Za-z0-9_]*) ([0-9]+) ([a-z_]+) = (none|[0-9]+)")
# The call in which a task waits for another one, so that it serves nobody meanwhile.
WAITS_FOR_A_TASK = "lock"
# So many lines of the base run lie between two places that are kept.
STRIDE = 4096


class Place:
    """How far each task is: its walker, which is None if the run doesn't follow its script, and its last call; who is suspended by which task;
    and which values variables have, and had since the last call of a task."""

    def __init__(self, application: Application) -> None:
        self.application = application
        self.walkers: Dict[str, Any] = {name: Walker(it) for name, it in application.tasks.items()}
        self.last: Dict[str, int] = {}
        self.suspended: Dict[str, str] = {}
        self.values: Dict[str, int] = dict(application.variables)
        self.since: Dict[str, Values] = {}

    def copied(self) -> Place:
        found = copy.copy(self)
        found.walkers = {name: None if it is None else it.copied() for name, it in self.walkers.items()}
        found.last, found.suspended = dict(self.last), dict(self.suspended)
        found.values, found.since = dict(self.values), {name: dict(it) for name, it in self.since.items()}
        return found

    def take(self, parts: Sequence[Any]) -> None:
        """Goes on by a call of a task or a handler, cut into its parts."""
        kind, named, op, word, answer = parts
        name, index, number = named.decode(), int(op), None if answer == b"none" else int(answer)
        if word in (b"suspend", b"resume") and number == 1:
            self.take_suspension(name, index, word == b"suspend")
        if kind == b"call" and name in self.walkers:
            self.last[name] = index
            walker = self.walker(name)
            if walker is None or not walker.to_call(index) or walker.at != index:
                self.walkers[name] = None
            else:
                walker.called(number)
        if word == b"store" and self.values:
            self.take_store(stored_by(self.application, name, index, "store"), number)
        if kind == b"call":
            self.since.pop(name, None)

    def take_store(self, variable: Optional[str], value: Any) -> None:
        """A variable has a new value, which ops may find that tasks did since their last calls, or the old one."""
        if variable is None:
            return
        for name in self.walkers:
            since = self.since.setdefault(name, {})
            since[variable] = tuple(dict.fromkeys((*since.get(variable, (self.values[variable],)), value)))
        self.values[variable] = value

    def walker(self, name: str) -> Any:
        """The walker of a task, with the values that variables may have had since its last call."""
        found = self.walkers[name]
        if found is not None and self.values:
            found.values = {**{it: (value,) for it, value in self.values.items()}, **self.since.get(name, {})}
        return found

    def take_suspension(self, name: str, index: int, is_suspend: bool) -> None:
        op: Any = self.application.op(name, index)
        if op is None:
            return
        if is_suspend:
            self.suspended[op.object] = name
        else:
            self.suspended.pop(op.object, None)

    def words(self) -> str:
        """Each task that isn't at its end, as far as it is known."""
        found = (self.words_of_task(it) for it in self.application.tasks.values())
        return ", ".join(it for it in found if it)

    def words_of_task(self, script: Script) -> str:
        """Where this task is; empty if it has ended, or if it serves forever and waits for what it serves."""
        name, walker = script.name, self.walker(script.name)
        # one that is suspended before its last op is complete has ops left, though they may have no line
        has_ops_left = name in self.suspended and not (walker is not None and walker.has_ended)
        is_known = walker is not None and walker.to_call()
        if is_known and walker.has_ended and not has_ops_left:
            return ""
        if script.is_endless and (name in self.suspended or not is_known or walker.op.word != WAITS_FOR_A_TASK):
            return ""
        after = f" after {script.lasting_name(self.last[name])}" if name in self.last else ""
        if name in self.suspended:
            by = "itself" if self.suspended[name] == name else self.suspended[name]
            return f"{name} suspended by {by}{after}"
        return f"{name} in {script.lasting_name(walker.at)}" if is_known else f"{name}{after}"


class Whereabouts:
    """The tasks of an application in the runs of a campaign, whose base run may be known."""

    def __init__(self, application: Application, base: Any = None) -> None:
        self.application, self.base = application, base
        # The places before some lines of the base run, and the one that was asked for last.
        self.kept: Dict[int, Place] = {}
        self.last, self.last_place = 0, Place(application)

    def at_end_of(self, run: Run) -> str:
        """Where the tasks are at the end of a run, in words."""
        place, start = self.place_before(run)
        for it in CALLS.findall(run.text, start):
            place.take(it)
        return place.words()

    def place_before(self, run: Run) -> Tuple[Place, int]:
        """The place at the injection of a row that begins as the base run does, and how many bytes come before it."""
        base, point = self.base, run.head.point
        if base is None or point is None or not run.head.is_reached or point.first_step > base.known_until:
            return Place(self.application), 0
        position, size = base.place(point.first_step)
        if run.text[:size] != base.text[:size]:
            return Place(self.application), 0
        self.go_to(position)
        return self.last_place.copied(), size

    def go_to(self, position: int) -> None:
        """Follows the tasks through the base run to this line, from the nearest place before it that is kept."""
        if position < self.last:
            self.last = max((it for it in self.kept if it <= position), default=0)
            self.last_place = self.kept[self.last].copied() if self.last else Place(self.application)
        for at in range(self.last, position):
            if at % STRIDE == 0 and at not in self.kept:
                self.kept[at] = self.last_place.copied()
            parts = CALL.fullmatch(self.base.lines[at][2])
            if parts:
                self.last_place.take(parts.groups())
        self.last = position
