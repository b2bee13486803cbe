"""The daemon, step by step. No line shows its receive. But what it does follows from the steps in which it runs, and from the commands of
handlers that found room, each of which has a line.

With the application it is known by its name. Otherwise it is the task whose calls are those that a daemon makes in these steps, and that
has begun to wait in them. If several tasks are like that, none is taken."""
from __future__ import annotations

import enum
from typing import Iterator, List, NamedTuple, Optional, Set, TYPE_CHECKING, Tuple

from .lanes import Bar, Doing, Lane, Window, WindowKind
from .report import Kind

if TYPE_CHECKING:
    from .timeline import Builder

COMMANDS = ("set", "clear")
# The command is the first op of its endless script, which receives it, and this one, which does it.
OP_OF_COMMAND = 1
WORD, OBJECT = "receive", "commands"


class Command(NamedTuple):
    """A handler's `set` or `clear` that found room: when it is in the queue, its word, and its event group if that is known."""

    boundary: int
    word: str
    group: str


def commands_of(builder: Builder) -> List[Command]:
    """Those of a run, in order."""
    found = []
    for index, event in enumerate(builder.events):
        if event.kind is Kind.ISR and event.word in COMMANDS and event.answer == 1:
            op = builder.application.op(event.name, event.op) if builder.application else None
            found.append(Command(builder.boundary(index), event.word, op.object or "" if op is not None else ""))
    return found


class Phase(enum.Enum):
    """What the next step of the daemon is."""

    TRY = "try"
    DECIDE = "decide"
    PLACE = "place"
    UNLOCK = "unlock"
    LEAVE = "leave"
    SET = "set"
    END_OF_SET = "end of set"
    CLEAR = "clear"


# While one of these is next, the scheduler is held.
HELD = (Phase.PLACE, Phase.UNLOCK, Phase.LEAVE, Phase.END_OF_SET)


class DaemonTimes:
    """The daemon's turns, gone through step by step: its waits and its windows, or that it isn't the daemon."""

    def __init__(self, lane: Lane, turns: List[Bar], calls: List[Tuple[int, str]], commands: List[Command], steps: int) -> None:
        self.lane, self.turns, self.commands, self.steps = lane, turns, commands, steps
        self.phase, self.taken, self.since, self.waits = Phase.TRY, 0, 0, False
        self.done: List[Tuple[int, str]] = []
        self.wakes: List[int] = []
        self.windows: List[Window] = []
        self.is_known = all(self.follow(it) for it in turns) and self.done == calls

    def follow(self, turn: Bar) -> bool:
        """Goes through the turn; False if no daemon has it."""
        for step in range(turn.start, turn.end):
            if self.waits and self.phase is Phase.TRY and not self.has_command(step):
                return False
            self.phase = self.after(step)
        self.wakes.append(self.wake(turn.end))
        return turn.end == self.steps or self.phase not in HELD

    def has_command(self, step: int) -> bool:
        return self.taken < len(self.commands) and self.commands[self.taken].boundary <= step

    def wake(self, boundary: int) -> int:
        """From when on it is Ready, if it leaves the processor at this boundary."""
        if not self.waits or self.phase is not Phase.TRY:
            return boundary
        return max(boundary, self.commands[self.taken].boundary) if self.taken < len(self.commands) else self.steps

    def after(self, step: int) -> Phase:
        """Does the step, and returns what is next."""
        phase = self.phase
        if phase is Phase.TRY:
            return self.tried(step)
        if phase is Phase.DECIDE:
            self.since, self.waits = step, not self.has_command(step)
            return Phase.PLACE if self.waits else Phase.UNLOCK
        if phase is Phase.UNLOCK:
            self.windows.append(Window(self.lane, self.since, step + 1, WindowKind.LOCKED))
        elif phase is Phase.LEAVE:
            self.windows.append(Window(self.lane, self.since, step + 1, WindowKind.HELD))
        elif phase in (Phase.END_OF_SET, Phase.CLEAR):
            self.done.append((step, self.commands[self.taken - 1].word))
        return {Phase.PLACE: Phase.UNLOCK, Phase.UNLOCK: Phase.LEAVE, Phase.SET: Phase.END_OF_SET}.get(phase, Phase.TRY)

    def tried(self, step: int) -> Phase:
        self.waits = False
        if not self.has_command(step):
            return Phase.DECIDE
        self.taken += 1
        return Phase.SET if self.commands[self.taken - 1].word == "set" else Phase.CLEAR

    def bars(self, is_first_known: bool) -> Iterator[Bar]:
        """What it does between its turns: it waits until a command is there, and is Ready from then on; at reset it is Ready."""
        starts = [it.start for it in self.turns] + [self.steps]
        stretches = [(0, 0, starts[0])] if is_first_known else []
        stretches += [(turn.end, wake, start) for turn, wake, start in zip(self.turns, self.wakes, starts[1:])]
        for first, wake, last in stretches:
            if min(wake, last) > first:
                yield Bar(self.lane, first, min(wake, last), Doing.WAITS, WORD, OBJECT)
            if last > max(first, wake):
                yield Bar(self.lane, max(first, wake), last, Doing.READY)


def times_of(builder: Builder, name: str) -> DaemonTimes:
    """The times of the task of this name, as if it were the daemon."""
    lane = builder.lanes[name]
    calls = [(it.step, it.event.word or "") for it in builder.notes if it.lane == lane and it.event.kind is Kind.CALL]
    turns = [it for it in builder.turns if it.lane == lane and it.end > it.start]
    return DaemonTimes(lane, turns, calls, builder.commands, builder.head.steps)


def who_may_be_it(builder: Builder) -> List[str]:
    """The tasks whose lines could all be a daemon's; none if no command has found room."""
    like_it: Set[Optional[str]] = set()
    others = {builder.head.verdict.task}
    for it in builder.events if builder.commands else ():
        if it.kind is not Kind.RUN:
            is_like_it = it.kind is Kind.CALL and it.op == OP_OF_COMMAND and it.word in COMMANDS
            (like_it if is_like_it else others).add(it.name)
    return [it for it in builder.lanes if it in like_it - others]


def find_daemon(builder: Builder) -> Tuple[Optional[DaemonTimes], bool]:
    """The daemon's times, or None if it isn't known; and whether a task whose turns aren't a daemon's must be or may be the daemon."""
    if builder.application is not None:
        daemon = builder.application.daemon
        names = [daemon.name] if daemon is not None and daemon.name in builder.lanes else []
    else:
        names = who_may_be_it(builder)
    found = [it for it in (times_of(builder, name) for name in names) if it.is_known and (builder.application or it.windows)]
    return found[0] if len(found) == 1 else None, bool(names) and not found
