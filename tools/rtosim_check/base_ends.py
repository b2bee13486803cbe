"""Warnings of what the end of the base run shows: base interrupts that it doesn't reach; and of sleeps at which a task ends."""
from __future__ import annotations

from typing import Iterator, NamedTuple

from rtosim_report.faults import counted

from .application import Application, integer_of
from .findings import WARNING, Finding
from .formats import SECTIONS, op_of

SLEEPS = ("delay", "delay_until")
NO_SLEEP = "a task ends with its last op, so a delay there doesn't sleep"
PASSES = f"a run passes as soon as every task that isn't endless has ended; {NO_SLEEP}"


class BaseEnd(NamedTuple):
    """How the base run ends: the words of its head, and its numbers of steps and ticks."""

    verdict: str
    steps: int
    ticks: int


def warnings(application: Application, end: BaseEnd) -> Iterator[Finding]:
    yield from of_interrupts(application, end)
    yield from of_last_sleeps(application)


def of_interrupts(application: Application, end: BaseEnd) -> Iterator[Finding]:
    """Base interrupts that are due after the base run, in one warning. A base run that fails ends early, which is no wonder."""
    if end.verdict not in ("pass", "steps"):
        return
    limit = integer_of(application.root.get("limits"), "ticks")
    ticks = [(it, integer_of(it.table, "tick")) for it in application.entries["interrupt"]]
    late = [(it, tick) for it, tick in ticks if tick is not None and end.ticks < tick <= (tick if limit is None else limit)]
    if not late:
        return
    entry, tick = late[0]
    others = f", nor {'does' if len(late) == 2 else 'do'} {counted(len(late) - 1, 'other')}" if len(late) > 1 else ""
    which = "no base interrupt comes" if len(late) == len(ticks) else f"interrupt {entry.index} doesn't come{others}"
    due = f"interrupt {entry.index} is due at tick {tick}" if len(late) == len(ticks) else f"it is due at tick {tick}"
    message = f"{which}: the base run ends with {end.verdict} at tick {end.ticks}, and {due}"
    rule = PASSES if end.verdict == "pass" else SECTIONS["limits"].keys["steps"].rule
    yield Finding(WARNING, "NeverComes", entry.table.get("tick").span, message, rule)


def of_last_sleeps(application: Application) -> Iterator[Finding]:
    for entry in application.entries["task"]:
        for at, node in entry.texts()[-1:]:
            words, op = op_of("task", node.value)
            if op is not None and op.word in SLEEPS and int(words[1]) > 0:
                message = f'{entry.label}, script {at}, "{node.value}": this doesn\'t sleep, since the task ends with it'
                rule = f'{NO_SLEEP}; add an op after it, as in "{node.value}", "time"'
                yield Finding(WARNING, "EndsInSleep", node.span, message, rule)
