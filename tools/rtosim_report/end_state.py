"""What `rtosim run .. --state` writes after a run: where each task is after the last step, who holds which mutex, and the values of
variables."""
from __future__ import annotations

import enum
import re
from typing import Any, Dict, List, NamedTuple, Optional, Tuple

from .faults import BadReport
from .grammar import NAME, NUMBER

PLAIN = rb"(runs|ready|awake|suspended) (" + NUMBER + rb")"
TIMED = rb"(waits|sleeps) (" + NUMBER + rb") (forever|" + NUMBER + rb")"
STATE_LINE = re.compile(rb"state (" + NAME + rb") (?:(ended)|" + PLAIN + rb"|" + TIMED + rb")")
HELD_LINE = re.compile(rb"held (" + NUMBER + rb") (" + NAME + rb")")
VARIABLE_LINE = re.compile(rb"variable (" + NUMBER + rb") = (" + NUMBER + rb")")
FIRST_WORDS = (b"state ", b"held ", b"variable ")
# Of each kind of line its form; the kinds are in this order.
FORMS = {b"state": STATE_LINE, b"held": HELD_LINE, b"variable": VARIABLE_LINE}
A_STATE_LINE = "`state NAME WORD`, `held OBJECT NAME` or `variable X = V`, as `run --state` writes them after the run"


class Status(enum.Enum):
    """The place in its script at which a task is."""

    RUNS = "runs"
    READY = "ready"
    AWAKE = "awake"
    WAITS = "waits"
    SLEEPS = "sleeps"
    SUSPENDED = "suspended"
    ENDED = "ended"


class TaskState(NamedTuple):
    """A task: the op that it is in, or that it does next, and the latest printed tick at which its wait or sleep ends; None if it has no limit."""

    name: str
    status: Status
    op: Optional[int] = None
    until: Optional[int] = None


class EndState(NamedTuple):
    """The tasks in their order, the daemon last; the holders of mutexes by the numbers of these among all objects; and the values of
    variables by their numbers."""

    tasks: List[TaskState]
    holders: Dict[int, str]
    values: Dict[int, int] = {}


def first_of(body: bytes) -> Optional[int]:
    """The place at which the first line of a state begins, or None."""
    if body.startswith(FIRST_WORDS):
        return 0
    found = [it + 1 for it in (body.find(b"\n" + word) for word in FIRST_WORDS) if it >= 0]
    return min(found) if found else None


def parted(body: bytes, line_number: int) -> Tuple[bytes, bytes]:
    """Splits the lines of a run, the first of which has this number, into those of the run and those of its state, of which there may be none."""
    start = first_of(body)
    if start is None:
        return body, b""
    state = body[start:]
    first, kinds, kind = line_number + body.count(b"\n", 0, start), list(FORMS), b"state"
    for at, line in enumerate(state.split(b"\n")[:-1]):
        word = line.partition(b" ")[0]
        if at and word in kinds[kinds.index(kind) :]:
            kind = word
        if FORMS[kind].fullmatch(line) is None:
            raise BadReport(first + at, A_STATE_LINE, line)
    return body[:start], state


def state_of(lines: bytes) -> Optional[EndState]:
    """The state that these lines describe; None if there are none."""
    if not lines:
        return None
    found = EndState([], {}, {})
    for line in lines.splitlines():
        held, value = HELD_LINE.fullmatch(line), VARIABLE_LINE.fullmatch(line)
        if held:
            found.holders[int(held[1])] = held[2].decode()
        elif value:
            found.values[int(value[1])] = int(value[2])
        else:
            words: Any = STATE_LINE.fullmatch(line)
            found.tasks.append(task_of(words))
    return found


def task_of(match: re.Match) -> TaskState:
    name, ended, plain, op, timed, timed_op, until = match.groups()
    name = name.decode()
    if ended:
        return TaskState(name, Status.ENDED)
    if plain:
        return TaskState(name, Status(plain.decode()), int(op))
    return TaskState(name, Status(timed.decode()), int(timed_op), None if until == b"forever" else int(until))
