"""At which moments of the C the interrupts of a row come: after which call of the task that runs, and before which."""
from __future__ import annotations

from typing import Any, Iterator, List, Optional, Sequence

from .application import Application
from .base_run import BaseRun
from .injections import groups_of, position_of
from .reading import Run
from .report import IDLE, Line
from .source_map import SourceMap
from .whereabouts import CALL, Place, Whereabouts


class Moments:
    """The moments of rows of an application whose lines of C are known."""

    def __init__(self, application: Application, source_map: SourceMap) -> None:
        self.application, self.source_map = application, source_map
        self.whereabouts: Any = None

    def lines_of(self, run: Run, base: BaseRun) -> List[str]:
        """In words each moment at which interrupts come; nothing of the base run and of a row that isn't reached."""
        if run.head.point is None or not run.head.is_reached:
            return []
        if self.whereabouts is None or self.whereabouts.base is not base:
            self.whereabouts = Whereabouts(self.application, base)
        return list(self.words_of_row(run))

    def words_of_row(self, run: Run) -> Iterator[str]:
        place, size = self.whereabouts.place_before(run)
        lines, at = run.lines(), run.text.count(b"\n", 0, size)
        groups = groups_of(run.head.point)
        for step, injections in groups:
            position = position_of(lines, step)
            if step >= run.head.steps:
                return
            take(place, lines[at:position])
            at = position
            names = list(dict.fromkeys("the tick" if self.application.is_tick(it.handler) else it.handler for it in injections))
            which = f" (before step {step})" if len(groups) > 1 else ""
            who = f"{' and '.join(names)}{which} come{'s' * (len(names) == 1)}"
            yield from self.words_of_moment(who, self.runner(lines[:position]), place, lines[position:])

    def runner(self, lines: List[Line]) -> Optional[str]:
        """Who runs after these lines."""
        last = next((what for _, _, what in reversed(lines) if what.startswith(b"run ")), None)
        return self.application.first_runner() if last is None else last[4:].decode()

    def words_of_moment(self, who: str, runner: Optional[str], place: Place, rest: List[Line]) -> Iterator[str]:
        """After which call of the task that runs, and before which, as far as that is known. A call is over when it is complete."""
        if runner not in self.application.tasks:
            yield f"{who} while {'idle' if runner in (IDLE, None) else runner} runs"
            return
        last = self.source_map.line(runner, place.last.get(runner))
        following = self.source_map.line(runner, next_call(place, runner, rest))
        if last is not None:
            yield f"{who} after {last.shown}"
        if following is not None:
            yield f"{'and' if last else who} before {following.shown}"


def take(place: Place, lines: Sequence[Line]) -> None:
    """Goes on by these lines."""
    for _, _, what in lines:
        parts = CALL.fullmatch(what)
        if parts:
            place.take(parts.groups())


def next_call(place: Place, name: str, rest: List[Line]) -> Optional[int]:
    """The index of the call that a task completes next; None if that isn't known. Which branch it takes may depend on variables, and these may
    be changed by the interrupts that come now. Then the rest of the lines is looked at."""
    if place.values:
        calls = (CALL.fullmatch(what) for _, _, what in rest)
        found = next((int(it[3]) for it in calls if it and it[1] == b"call" and it[2].decode() == name), None)
        if found is not None:
            return found
        place = place.copied()
        take(place, rest)
    walker = place.walker(name)
    walker = None if walker is None else walker.copied()
    return walker.at if walker is not None and walker.to_call() and not walker.has_ended else None
