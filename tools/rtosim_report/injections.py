"""Which lines of a row are those of the injected handlers.

The lines of a step are in this order: first those of the handlers that come before it, one handler after another, each followed by a change
of the processor if it causes one; then those of the step. A handler that is injected while a critical section is open is pending, and comes
before the first step after the section.

An injected tick has no lines of its own: those that it brings are its base interrupts', and a change of the processor."""
from __future__ import annotations

import functools
import re
from itertools import groupby, islice
from typing import AbstractSet, Dict, Iterator, List, Optional, Sequence, Set, TYPE_CHECKING, Tuple, Union

from .report import Injection, Line, Point, TICK

if TYPE_CHECKING:
    from .base_run import BaseRun

# What a task may report while a critical section is open.
INSIDE = re.compile(
    rb"call [A-Za-z0-9_]+ [0-9]+ (?:time|since|waiting|spaces|bits|clear|notify_clear|notify_value_clear"
    rb"|load|store|add|sub|mul|div|mod|and|or|xor) = |mark ")


@functools.lru_cache(maxsize=64)
def own_words(handler: str) -> Tuple[bytes, bytes]:
    """How the lines of a handler's ops begin."""
    name = handler.encode()
    return b"isr " + name + b" ", b"mark " + name + b" "


def leading_own(lines: List[Line], injection: Injection, start: int = 0) -> int:
    """How many lines, from the first or from this one on, are those of the injected handler. They are of one tick: those of
    a base interrupt in the tick that the step brings have the next."""
    when = str(injection.step).encode(), lines[start][1] if start < len(lines) else b""
    own, end = own_words(injection.handler), start
    while end < len(lines) and lines[end][:2] == when and lines[end][2].startswith(own):
        end += 1
    if end > start and injection.handler == TICK and has_task_tick(lines):
        return 0
    return end - start


def has_task_tick(lines: List[Line]) -> bool:
    """Whether a task has the name of the tick, so that no handler has it."""
    return any(what == b"run tick" or what.startswith(b"call tick ") for _, _, what in lines)


def position_of(lines: List[Line], step: int) -> int:
    """How many lines come before this step."""
    first, last = 0, len(lines)
    while first < last:
        middle = (first + last) // 2
        if int(lines[middle][0]) < step:
            first = middle + 1
        else:
            last = middle
    return first


def groups_of(point: Union[Point, Sequence[Injection]]) -> List[Tuple[int, List[Injection]]]:
    """The injections of a point by their steps: each step with those that come before it, in their order."""
    return [(step, list(group)) for step, group in groupby(point, key=lambda it: it.step)]


def arrival_of(lines: List[Line], injection: Injection, names: Set[bytes]) -> int:
    """Before which step an injected handler comes: its own, or a later one, if the lines up to those of handlers of these names are as in a
    critical section."""
    own, inside, left_at = own_words(injection.handler), None, None
    first = position_of(lines, injection.step)
    if injection.handler == TICK and first < len(lines) and not any(it[2].startswith(own) for it in lines[first:]):
        return arrival_of_tick(lines, injection, first)
    for at in range(first, len(lines)):
        step, tick, what = lines[at]
        kind, name = what.split(b" ", 2)[:2]
        if tick != lines[first][1] or left_at not in (None, int(step) - 1):
            break
        if name in names and kind != b"call":
            has_come = any(it[2].startswith(own) for it in lines_of_step(lines, at))
            return int(step) if has_come else injection.step
        if left_at is not None or not (kind == b"run" or INSIDE.match(what) and inside in (None, name)):
            break
        # a task that ends with the section leaves the processor in the step of its last exit
        inside, left_at = name, int(step) if kind == b"run" else None
    return injection.step


def arrival_of_tick(lines: List[Line], injection: Injection, first: int) -> int:
    """As arrival_of, for a tick, which has no line. It is pending if the lines before and after it have the same tick. Then it comes before
    the first step that begins with a handler's line or with a change of the processor."""
    name, at = lines[first][2].split(b" ", 2)[1], first
    if first == 0 or lines[first - 1][1] != lines[first][1]:
        return injection.step
    while at < len(lines) and lines[at][1] == lines[first][1] and INSIDE.match(lines[at][2]) and lines[at][2].split(b" ", 2)[1] == name:
        at += 1
    if first == at or at == len(lines) or lines[at][0] == lines[at - 1][0]:
        return injection.step
    kind, come, is_followed = lines[at][2].split(b" ", 1)[0], int(lines[at][0]), lines[at][0] == lines[min(at + 1, len(lines) - 1)][0]
    return come if kind in (b"isr", b"mark") or kind == b"run" and at + 1 < len(lines) and is_followed else injection.step


def lines_of_step(lines: List[Line], at: int) -> Iterator[Line]:
    """Those from this line on that are of its step."""
    step = lines[at][0]
    for it in islice(lines, at, None):
        if it[0] != step:
            return
        yield it


def arrivals_of(lines: List[Line], point: Point) -> Dict[Injection, int]:
    """Of each injection of a point the step before which it comes."""
    names = {it.handler.encode() for it in point}
    return {it: arrival_of(lines, it, names) for it in point}


def arrived(lines: List[Line], point: Point) -> List[Injection]:
    """The injections of a point, each with the step before which it comes, in the order in which they come."""
    arrivals = arrivals_of(lines, point)
    found = [(it, it._replace(step=arrivals[it])) for it in point]
    return [come for _, come in sorted(found, key=lambda it: (it[1].step, it[0].step == it[1].step, order_of(lines, *it)))]


def from_arrival(tail: List[Line], point: Point) -> List[Line]:
    """The lines of a row from the first of its handlers on; the tail begins at the first injection."""
    return tail[position_of(tail, min(arrivals_of(tail, point).values())) :]


def order_of(lines: List[Line], injection: Injection, come: Injection) -> int:
    """A key to sort by: for a pending handler the line at which its lines begin, otherwise 0. Pending handlers come in the order of the
    file, and the tick after them."""
    if injection.step == come.step:
        return 0
    if injection.handler == TICK:
        return len(lines)
    own = own_words(come.handler)
    return next((at for at in range(position_of(lines, come.step), len(lines)) if lines[at][2].startswith(own)), 0)


def is_change_between(lines: List[Line], at: int, injection: Injection) -> bool:
    """Whether the processor changes in this line, between a handler and the next one that has a line."""
    if at + 1 >= len(lines) or not lines[at][2].startswith(b"run "):
        return False
    step = str(injection.step).encode()
    following = lines[at + 1]
    return lines[at][0] == following[0] == step and following[2].startswith(own_words(injection.handler))


def is_change_before_tick(lines: List[Line], at: int) -> bool:
    """Whether the processor changes in this line before an injected tick: a line of the same step and another tick follows."""
    pair = lines[at : at + 2]
    return len(pair) == 2 and pair[0][2].startswith(b"run ") and pair[0][0] == pair[1][0] and pair[0][1] != pair[1][1]


def end_of_base_interrupts(lines: List[Line], start: int, step: int, tasks: AbstractSet[bytes]) -> int:
    """At which line those of the base interrupts of a tick end, if it is injected before this step, and from which line on they may be. A mark
    is a handler's unless a task has the name: one of these, or one that runs or calls in a line."""
    runners = {what.split(b" ", 2)[1] for _, _, what in lines if what.startswith((b"run ", b"call "))}
    when, end = lines[start : start + 1], start
    while end < len(lines) and int(lines[end][0]) == step and lines[end][1] == when[0][1]:
        kind, name = lines[end][2].split(b" ", 2)[:2]
        if kind != b"isr" and (kind != b"mark" or name in runners or name in tasks):
            break
        end += 1
    return end


def stretches_of_step(lines: List[Line], start: int, injections: List[Injection], tasks: Optional[AbstractSet[bytes]] = None) -> List[Tuple[int, int]]:
    """The lines of handlers that come before one step, as a stretch for each handler: its first line, and how many there are. Two handlers of
    one name that follow each other are one stretch, and an empty one. That of a tick is empty. It comes after the lines of its base interrupts
    if another injection follows, or if the names of tasks are given."""
    found: List[Tuple[int, int]] = []
    at = start
    for nth, injection in enumerate(injections, 1):
        is_tick = injection.handler == TICK
        if found and (is_change_between(lines, at, injection) or is_tick and is_change_before_tick(lines, at)):
            at += 1
        count = leading_own(lines, injection, at)
        if is_tick and not count and (tasks is not None or nth < len(injections)):
            at = end_of_base_interrupts(lines, at, injection.step, tasks or frozenset())
        found.append((at, count))
        at += count
    return found


def own_stretches(tail: List[Line], point: Point, base: Optional[BaseRun] = None) -> List[Tuple[int, int]]:
    """The stretches of all injections of a row, whose tail begins at the first one. While the ticks are held, the base run's own interrupt may
    have the same handler at the same step and tick: its lines are taken off the last stretch of the step."""
    found = []
    for step, injections in groups_of(arrived(tail, point)):
        stretches = stretches_of_step(tail, position_of(tail, step), injections)
        if base is not None:
            at, count = stretches[-1]
            stretches[-1] = at, max(0, count - known_in_base(base, injections[-1], tail[at : at + 1]))
        found += stretches
    return found


def known_in_base(base: BaseRun, injection: Injection, first: List[Line]) -> int:
    """How many lines of this handler the base run has at the step, with the same tick as the first one here."""
    at = base.position(injection.step)
    is_same_tick = first and base.lines[at : at + 1] and base.lines[at][1] == first[0][1]
    return leading_own(base.lines, injection, at) if is_same_tick else 0


def without(lines: List[Line], stretches: List[Tuple[int, int]]) -> List[Line]:
    """The lines that are in none of the stretches."""
    rest, at = [], 0
    for start, count in stretches:
        rest += lines[at:start]
        at = max(at, start + count)
    return rest + lines[at:]
