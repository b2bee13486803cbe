"""The stretches in which a queue is locked or the scheduler is held, as the waits and the calls of a run show them; and those in which a
critical section is open, as far as it is known which ops the tasks are in."""
from __future__ import annotations

from typing import Any, Dict, List

from .application import AWAITS, CLOSES, OPENS
from .lanes import Bar, Doing, Lane, Note, Window, WindowKind
from .op_times import Stretch
from .report import Kind

# The calls on queues, semaphores and mutexes begin a wait in these steps: Start or Try, Decide, Place, Unlock, Leave.
OBJECT_CALLS = {"send", "send_front", "receive", "peek", "take", "lock"}
# Those that wait for bits or for a notification lock nothing: Start, Leave.
PLAIN_CALLS = {"wait", *AWAITS}
SILENT_STEPS = {**dict.fromkeys(OBJECT_CALLS, 5), **dict.fromkeys(PLAIN_CALLS, 2)}
LOCKED_FROM, LOCKED_TO, HELD_FROM_OBJECT, HELD_FROM_PLAIN = 4, 1, 4, 2


def windows_of_waits(waits: List[Bar], steps: int) -> List[Window]:
    """A call that begins to wait holds the scheduler in its last steps before, and has the queue locked in some of them."""
    found = []
    for it in waits:
        if it.doing is not Doing.WAITS:
            continue
        if it.word in OBJECT_CALLS:
            found.append(Window(it.lane, it.start - LOCKED_FROM, it.start - LOCKED_TO, WindowKind.LOCKED))
            found.append(Window(it.lane, it.start - HELD_FROM_OBJECT, it.start, WindowKind.HELD))
        elif it.word in PLAIN_CALLS:
            found.append(Window(it.lane, it.start - HELD_FROM_PLAIN, it.start, WindowKind.HELD))
    return [it for it in found if 0 <= it.start < it.end <= steps]


def windows_of_calls(notes: List[Note], steps: int) -> List[Window]:
    """`set` holds the scheduler in its two steps; a task does from its first `suspend_all` to its last `resume_all`."""
    found: List[Window] = []
    depth, since = 0, 0
    holder: Any = None
    for it in notes:
        word = it.event.word if it.event.kind is Kind.CALL else None
        if word == "set":
            found.append(Window(it.lane, max(0, it.step - 1), it.step + 1, WindowKind.HELD))
        elif word == "suspend_all":
            depth += 1
            if depth == 1:
                since, holder = it.step + 1, it.lane
        elif word == "resume_all" and depth:
            depth -= 1
            if depth == 0:
                found.append(Window(holder, since, it.step + 1, WindowKind.HELD))
    if depth:
        found.append(Window(holder, since, steps, WindowKind.HELD))
    return found


def windows_of_sections(ops: Dict[Lane, List[Stretch]], application: Any, steps: int) -> List[Window]:
    """A task has interrupts masked from its first `enter_critical` to its last `exit_critical`."""
    found = []
    for lane, stretches in ops.items():
        depth, since = 0, 0
        for it in stretches:
            word = application.op(lane.name, it.op).word
            if word == OPENS:
                depth += 1
                since = it.end if depth == 1 else since
            elif word == CLOSES and depth:
                depth -= 1
                found += [Window(lane, since, it.end, WindowKind.MASKED)] if depth == 0 else []
        found += [Window(lane, since, steps, WindowKind.MASKED)] if depth and since < steps else []
    return found
