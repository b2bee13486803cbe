"""What is said of a run that fails, at its end, in words with the names and the texts of the application. For a check it is what was
expected and what the answer is, or what an op lacks; for a misuse what is wrong with it. For a run that is stuck, or reaches a limit, it is
where each task is, who holds what it waits for, and which tasks wait for each other."""
from __future__ import annotations

from typing import Any, Callable, List, Optional, Set, Tuple

from .checks import words_of_check
from .end_state import EndState, Status, TaskState, state_of
from .moments import Moments
from .reading import Run
from .report import Verdict, event_of

NEVER_DONE = ("stuck", "ticks", "steps")
# The daemon's first op, in which it waits for a command.
OP_OF_RECEIVE = 0
LOCKS = "lock"
# What is wrong with the op of a misuse, by its code.
MISUSES = {
    1: "which may wait or switch, while a suspend_all is active", 2: "while no suspend_all is active",
    3: "of a mutex that the task doesn't hold", 4: "which ends the task, while a suspend_all is active",
    5: "which may wait or switch, takes ticks or holds the scheduler, while a critical section is open",
    6: "while no critical section is open", 7: "which ends the task, while a critical section is open",
}
PLAIN = {Status.RUNS: "runs", Status.READY: "is Ready", Status.AWAKE: "is Awake", Status.SUSPENDED: "is suspended"}


class Endings:
    """Words for the ends of runs of a known application, and the lines of C if there are any. `ask` has the program write the state at the end
    of a row, or returns None."""

    def __init__(self, application: Any, ask: Callable[..., Any] = lambda head: None,
                 source_map: Any = None) -> None:
        self.application, self.ask, self.source_map = application, ask, source_map
        self.moments = Moments(application, source_map) if application is not None and source_map is not None else None

    def lines_of(self, run: Run, base: Any = None, failed: Tuple[bytes, ...] = ()) -> List[str]:
        """The lines for this run, in which these calls of handlers failed; none if it passes, or if no more is known than its head says."""
        if run.head.verdict.passes:
            return []
        moments = self.moments.lines_of(run, base) if self.moments else []
        return [*moments, *self.source_of_failed(failed), *self.lines_of_end(run)]

    def lines_of_end(self, run: Run) -> List[str]:
        kind = run.head.verdict.kind
        if kind == "check":
            return self.lines_of_check(run) + self.source_of_verdict(run.head.verdict)
        if kind == "misuse":
            return self.lines_of_misuse(run.head.verdict) + self.source_of_verdict(run.head.verdict)
        if self.application is None:
            return []
        state = (state_of(run.state) or self.ask(run.head)) if kind in NEVER_DONE else None
        return [] if state is None else self.lines_of_state(kind, state)

    def source_of_verdict(self, verdict: Verdict) -> List[str]:
        found = self.source_map.line(verdict.task, verdict.numbers[0]) if self.source_map else None
        return [found.shown] if found else []

    def source_of_failed(self, failed: Tuple[bytes, ...]) -> List[str]:
        """The lines of C of calls of handlers that failed."""
        events = [event_of((b"0", b"0", it)) for it in failed] if self.source_map else []
        found = [(it.name, self.source_map.line(it.name, it.op, it.word)) for it in events]
        return [f"{name}: {line.shown}" for name, line in found if line]

    def lines_of_check(self, run: Run) -> List[str]:
        found = words_of_check(self.application, run) if self.application is not None else None
        return [] if found is None else [found]

    def lines_of_misuse(self, verdict: Verdict) -> List[str]:
        index, code = verdict.numbers
        op = self.application.op(verdict.task, index) if self.application else None
        return [f'{verdict.text}: "{op.text}", {MISUSES[code]}'] if op is not None and code in MISUSES else []

    def lines_of_state(self, kind: str, state: EndState) -> List[str]:
        left = [it for it in state.tasks if it.status is not Status.ENDED and not self.is_idle_daemon(it)]
        words = ", ".join(self.words_of_task(it, state) for it in left)
        deadlocks = [f"deadlock: {words_of_circle(it)}" for it in self.circles(state)]
        return [f"{kind}: {words}"] * bool(words) + self.source_of_tasks(left) + deadlocks + self.lines_of_values(state)

    def lines_of_values(self, state: EndState) -> List[str]:
        """The values of variables, by their names."""
        names = list(self.application.variables)
        known = [f"{names[at]} = {value}" for at, value in sorted(state.values.items()) if at < len(names)]
        return [f"variables: {', '.join(known)}"] if known else []

    def source_of_tasks(self, tasks: List[TaskState]) -> List[str]:
        """The line of C of each task."""
        found = [(it.name, self.source_map.line(it.name, it.op)) for it in tasks] if self.source_map else []
        return [f"{name}: {line.shown}" for name, line in found if line]

    def is_idle_daemon(self, it: TaskState) -> bool:
        return self.is_daemon(it.name) and it.status is Status.WAITS and it.op == OP_OF_RECEIVE

    def is_daemon(self, name: str) -> bool:
        return self.application.daemon is not None and name == self.application.daemon.name

    def words_of_task(self, it: TaskState, state: EndState) -> str:
        until = "" if it.until is None else f" until tick {it.until}"
        if it.status is Status.WAITS:
            return f"{it.name} waits in {self.op_text(it)}{until}{self.held_text(it, state)}"
        if it.status is Status.SLEEPS:
            return f"{it.name} sleeps{until} before {self.op_text(it)}"
        return f"{it.name} {PLAIN[it.status]} at {self.op_text(it)}"

    def op_text(self, it: TaskState) -> str:
        if self.is_daemon(it.name):
            return "its next command" if it.op == OP_OF_RECEIVE else "a command"
        op = self.application.op(it.name, it.op)
        return f'op {it.op} "{op.text}"' if op is not None else f"op {it.op}"

    def held_text(self, it: TaskState, state: EndState) -> str:
        """The holder of the mutex for which the task waits, in words."""
        holder = self.holder_before(it, state)
        if holder is None:
            return ""
        if holder == it.name:
            return " (held by itself)"
        has_ended = any(other.name == holder and other.status is Status.ENDED for other in state.tasks)
        return f" (held by {holder}{', which has ended' if has_ended else ''})"

    def holder_before(self, it: TaskState, state: EndState) -> Optional[str]:
        """Who holds the mutex for which the task waits; None if it waits for none."""
        op = self.application.op(it.name, it.op) if it.status is Status.WAITS else None
        if op is None or op.word != LOCKS or op.object not in self.application.objects:
            return None
        return state.holders.get(self.application.objects.index(op.object))

    def circles(self, state: EndState) -> List[List[str]]:
        """Each circle of tasks that wait forever for each other, from its first task on."""
        forever = [it for it in state.tasks if it.until is None]
        holder = {it.name: self.holder_before(it, state) for it in forever}
        found: List[List[str]] = []
        seen: Set[str] = set()
        name: Any
        for name in holder:
            way: List[str] = []
            while name is not None and name not in way and name not in seen:
                way.append(name)
                name = holder.get(name)
            if name in way:
                found.append(way[way.index(name) :])
            seen.update(way)
        return found


def words_of_circle(names: List[str]) -> str:
    first, *others = [*names[1:], names[0]]
    waits = f"{names[0]} waits for {'itself' if first == names[0] else first}"
    return waits + "".join(f", which waits for {it}" for it in others)
