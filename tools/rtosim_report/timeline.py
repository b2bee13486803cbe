"""A run as a timeline: who runs in which steps, what is reported at which, and what the events show of waits and windows.

A report has changes of the processor and the ends of calls. What neither these show, nor the scripts of a known application, isn't drawn."""
from __future__ import annotations

from itertools import combinations
from typing import AbstractSet, Any, Dict, Iterator, List, Optional, Sequence, Set, Tuple

from .application import Application
from .away import UNNAMED, AwayTimes
from .base_run import BaseRun
from .clock_of_lines import TickReader, WRAP
from .daemon import commands_of, find_daemon, Command
from .injections import arrivals_of, arrived, groups_of, position_of, stretches_of_step
from .lanes import Bar, Doing, Lane, LaneKind, Note, Timeline, Window, WindowKind
from .op_times import Stretch
from .reading import Run
from .report import Event, Head, IDLE, Injection, Kind, Line, Point, TICK, event_of
from .sources import Followed, follow
from .suspensions import changes_of
from .variables import History
from .windows import windows_of_calls, windows_of_sections, windows_of_waits


def of_base(base: BaseRun, application: Optional[Application] = None) -> Timeline:
    built = Builder(base.head, [event_of(it) for it in base.lines], application=application).build()
    built.is_presumed = base.origin.name == "PRESUMED"
    return built


def of_row(run: Run, base: BaseRun, application: Optional[Application] = None) -> Timeline:
    """The timeline of a row. The base run shows whether a change of the processor at the injection is the step's own; and so do
    the daemon, which can't do in fewer steps what it does, and the scripts."""
    lines = run.checked_lines()
    tasks = frozenset(it.encode() for it in application.tasks) if application is not None else frozenset()
    own, switches = injected_lines(lines, run.head.point, base, tasks) if run.head.is_reached else (set(), set())
    arrivals = arrivals_of(lines, run.head.point)
    events = [event_of(it) for it in lines]
    first: Any = None
    for count in range(len(switches) + 1):
        for left_out in combinations(sorted(switches), count):
            builder = Builder(run.head, events, own | switches.difference(left_out), application, arrivals)
            built = builder.build()
            if not builder.is_contradicted:
                return built
            first = first or built
    return first


def injected_lines(lines: List[Line], point: Point, base: BaseRun, tasks: AbstractSet[bytes]) -> Tuple[Set[int], Set[int]]:
    """Which lines come before their step: the handlers' own, those of the base interrupts of an injected tick, and the changes of the
    processor that they bring about."""
    found: Set[int] = set()
    switches: Set[int] = set()
    for step, injections in groups_of(arrived(lines, point)):
        first = position_of(lines, step)
        stretches = stretches_of_step(lines, first, injections, tasks)
        at, count = stretches[-1]
        own, following = lines[first : at + count], lines[at + count : at + count + 2]
        ticks = sum(it.handler == TICK and not its_lines for it, (_, its_lines) in zip(injections, stretches))
        found.update(range(first, at + count))
        if (own or ticks or step == point.first_step) and following and is_switch_of_injection(own, following, step, base, ticks):
            switches.add(at + count)
    return found, switches


def is_switch_of_injection(own: List[Line], following: List[Line], injected_at: int, base: BaseRun, ticks: int) -> bool:
    """Whether the line after the handlers' own shows that the processor changes at once, and not after the step. If ticks are injected
    too, it may have another tick than theirs, and a change of the base run's step comes so many ticks later here."""
    step, tick, what = following[0]
    if not what.startswith(b"run ") or int(step) != injected_at or own and own[-1][1] != tick and not ticks:
        return False
    if len(following) > 1 and following[1][0] == step:
        return True
    return base is None or (step, str((int(tick) - ticks) % WRAP).encode() if ticks else tick, what) not in base.lines


class Builder:
    """Puts a timeline together from the events of a run."""

    def __init__(self, head: Head, events: List[Event], injected: AbstractSet[int] = frozenset(), application: Any = None,
                 arrivals: Optional[Dict[Injection, int]] = None) -> None:
        self.head, self.events, self.injected, self.application = head, events, injected, application
        # Of each injection the step before which its lines come.
        self.arrivals = arrivals or {}
        self.lanes: Dict[str, Lane] = {}
        self.commands = commands_of(self)
        self.history = History(application, events, self.boundary)
        self.has_handler_tick = self.is_handler_tick()
        self.name_lanes()
        self.clock = TickReader(head, events, injected, self.boundary, application, self.ticks()).clock()
        self.turns: List[Bar] = []
        self.notes: List[Note] = []
        self.is_contradicted = False

    def name_lanes(self) -> None:
        """Tasks as they are named, idle, handlers. A mark's name alone doesn't show which it is."""
        tasks = [it.name for it in self.events if it.kind in (Kind.CALL, Kind.RUN) and it.name != IDLE]
        handlers = [it.name for it in self.events if it.kind is Kind.ISR]
        if self.head.point is not None:
            handlers += [it.handler for it in self.head.point if not self.is_tick(it)]
        if self.application is not None:
            handlers += [it.name for it in self.events if it.kind is Kind.MARK and it.name in self.application.handlers]
        if self.head.verdict.task is not None:
            (handlers if self.is_handler(self.head.verdict.task, handlers) else tasks).append(self.head.verdict.task)
        tasks += [it.name for it in self.events if it.kind is Kind.MARK and it.name not in handlers]
        tasks += [self.daemon_name] if self.daemon_name and self.commands else []
        first = self.first_runner(set(handlers))
        for name in dict.fromkeys([first, *tasks]):
            self.lanes[name] = Lane(name, LaneKind.TASK)
        if any(it.kind is Kind.RUN and it.name == IDLE for it in self.events):
            self.lanes[IDLE] = Lane("idle", LaneKind.IDLE)
        for name in dict.fromkeys(handlers):
            self.lanes.setdefault(name, Lane(name, LaneKind.HANDLER))

    def is_handler_tick(self) -> bool:
        """Whether a handler has the name of the tick. Without the application it is one that has lines, and none of a task."""
        if self.application is not None:
            return TICK in self.application.handlers
        kinds = {it.kind for it in self.events if it.name == TICK}
        return bool(kinds) and not kinds & {Kind.CALL, Kind.RUN}

    def is_tick(self, injection: Injection) -> bool:
        return injection.handler == TICK and not self.has_handler_tick

    def ticks(self) -> List[int]:
        """The steps before which ticks are injected."""
        return [it.step for it in self.injections() if self.is_tick(it)]

    @property
    def daemon_name(self) -> Optional[str]:
        """The daemon's name; None if no application is known that has one."""
        daemon = self.application.daemon if self.application else None
        return None if daemon is None else daemon.name

    def is_handler(self, name: str, handlers: List[str]) -> bool:
        """Whether it is a handler that ends the run by a check. Without the application it is one that has a line, or whose check fails
        while another one runs: a task that checks runs, and doesn't leave the processor by that."""
        if name in handlers or self.application is not None:
            return name in handlers or name in self.application.handlers
        changes = [it.name for it in self.events if it.kind is Kind.RUN]
        return self.head.verdict.kind == "check" and changes != [] and changes[-1] != name

    def first_runner(self, handlers: Set[str]) -> str:
        """Who runs at reset: the task that a line names before the first change. If there is none and that change is to idle, it is the one task that
        is named, since all tasks have run before idle does."""
        if self.application is not None and self.application.first_runner() is not None:
            return self.application.first_runner()
        changed_to, named = None, set()
        for it in self.events:
            is_task = it.kind is Kind.CALL or it.kind is Kind.MARK and it.name not in handlers
            if is_task and changed_to is None:
                return it.name
            if it.kind is Kind.RUN:
                changed_to = changed_to or it.name
            if is_task or it.kind is Kind.RUN:
                named.add(it.name)
        if self.head.verdict.task is not None and self.head.verdict.task not in handlers:
            named.add(self.head.verdict.task)
        left = named - {changed_to, IDLE}
        return left.pop() if len(left) == 1 and changed_to == IDLE else self.who_ran_before(left) or UNNAMED

    def who_ran_before(self, tasks: Set[str]) -> Optional[str]:
        """The task whose first call has too high an index for the steps that it is reported to have run before it."""
        runner: Any = None
        since, steps = 0, dict.fromkeys(tasks, 0)
        for it in self.events:
            if it.kind is Kind.CALL and it.name in steps:
                if it.op is not None and steps.pop(it.name) + it.step - since < it.op:
                    return it.name
            elif it.kind is Kind.RUN:
                if runner in steps:
                    steps[runner] += it.step + 1 - since
                runner, since = it.name, it.step + 1
        return None

    def boundary(self, index: int) -> int:
        """When an event is seen: after its step, or before it if it is injected."""
        step = self.events[index].step
        return step if index in self.injected else step + 1

    def build(self) -> Timeline:
        self.walk()
        daemon, self.is_contradicted = find_daemon(self)
        waits, endings, ops = self.away(None if daemon is None else daemon.lane)
        self.is_contradicted |= self.leaves_a_script(ops)
        windows = self.windows(waits, ops)
        followed = follow(self, ops)
        self.is_contradicted |= followed is None and self.application is not None and self.application.has_arrivals
        come = self.injections() if followed is None else followed.come
        windows += [] if followed is None else self.windows_of_sources(followed)
        if daemon is not None:
            waits += daemon.bars(UNNAMED not in self.lanes)
            windows += daemon.windows
        bars = [it for it in self.turns if it.end > it.start] + waits + list(dict.fromkeys(self.pending(windows, come)))
        used = {it.lane for it in bars} | {it.lane for it in self.notes} | {it.lane for it in windows}
        lanes = [it for it in self.lanes.values() if it in used or it.name != UNNAMED]
        variables = {name: self.history.stretches(name, self.head.steps) for name in self.history.starts}
        return Timeline(self.head, lanes, bars, self.notes, windows, self.clock, come,
                        endings, ops, variables)

    @property
    def passes_with_idle(self) -> bool:
        """Whether the run passes and idle runs at its end, so that nobody is Ready."""
        return self.head.verdict.passes and self.turns[-1].lane.kind is LaneKind.IDLE

    def injections(self) -> Tuple[Injection, ...]:
        """Those that come if their handlers can: the first one if the point is reached, a later one if the run isn't over before its step."""
        if self.head.point is None or not self.head.is_reached:
            return ()
        return tuple(it for it in self.head.point if it.step < self.head.steps)

    def walk(self) -> None:
        """Turns on the processor, and notes."""
        runner, since, commands = next(iter(self.lanes)), 0, iter(self.commands)
        for index, event in enumerate(self.events):
            at = self.boundary(index)
            if event.kind is Kind.RUN:
                self.turns.append(Bar(self.lanes[runner], since, at, Doing.RUNS))
                runner, since = event.name, at
            else:
                about = self.about(event, commands)
                self.notes.append(Note(self.lanes[event.name], event.step, event, index in self.injected, about))
        self.turns.append(Bar(self.lanes[runner], since, self.head.steps, Doing.RUNS))

    def about(self, event: Event, commands: Iterator[Command]) -> str:
        """What a call is about, as far as it is known. The daemon does the commands that found room in their order."""
        if event.kind is Kind.CALL and event.name == self.daemon_name:
            command = next(commands, None)
            return command.group if command is not None else ""
        op = self.application.op(event.name, event.op) if self.application and event.op is not None else None
        return op.object or "" if op is not None else ""

    def away(self, daemon: Optional[Lane]) -> Tuple[List[Bar], List[Tuple[Lane, int]], Dict[Lane, List[Stretch]]]:
        """What the tasks except the daemon do between their turns, as far as it is known, when they end, and which ops they are in."""
        found, endings, ops = [], [], {}
        changes = changes_of(self)
        for name, lane in self.lanes.items():
            if lane.kind is LaneKind.TASK and name not in (UNNAMED, self.daemon_name) and lane != daemon:
                turns = [it for it in self.turns if it.lane == lane]
                notes = [it for it in self.notes if it.lane == lane]
                script = self.application.tasks.get(name) if self.application else None
                times = AwayTimes(self, lane, turns, notes, script, changes)
                found += times.bars()
                endings += times.endings
                if times.ops is not None:
                    ops[lane] = times.ops.stretches
        return found, endings, ops

    def leaves_a_script(self, ops: Dict[Lane, List[Stretch]]) -> bool:
        """Whether the turns and the calls of a task aren't those of its script."""
        scripts = self.application.tasks if self.application else {}
        return any(it.lane.name in scripts and it.lane not in ops for it in self.turns if it.end > it.start)

    def windows(self, waits: List[Bar], ops: Dict[Lane, List[Stretch]]) -> List[Window]:
        sections = windows_of_sections(ops, self.application, self.head.steps)
        return windows_of_waits(waits, self.head.steps) + windows_of_calls(self.notes, self.head.steps) + sections

    def windows_of_sources(self, followed: Followed) -> List[Window]:
        """When handlers are armed and raised, in their lanes."""
        lane_of = lambda name: self.lanes.setdefault(name, Lane(name, LaneKind.HANDLER))
        kinds = ((WindowKind.ARMED, followed.armed), (WindowKind.RAISED, followed.raised))
        return [Window(lane_of(it.handler), it.start, it.end, kind) for kind, stretches in kinds for it in stretches]

    def pending(self, windows: List[Window], come: Sequence[Injection]) -> Iterator[Bar]:
        """From the boundary at which handlers were injected in a critical section to that at which they came, or to the run's end: by the sections
        if they are known, otherwise by the handlers' lines."""
        masked = [it for it in windows if it.kind is WindowKind.MASKED]
        if self.application is not None and not self.application.has_sections:
            return
        for it in come:
            open_there = next((window for window in masked if window.start <= it.step < window.end), None)
            end = open_there.end if open_there is not None else self.arrivals.get(it, it.step)
            lane = self.lanes.setdefault(it.handler, Lane(it.handler, LaneKind.HANDLER)) if end > it.step else None
            if lane is not None and lane.kind is LaneKind.HANDLER:
                yield Bar(lane, it.step, end, Doing.PENDING)
