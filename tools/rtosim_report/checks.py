"""Why a check failed: the last answer, for which an `expect` wasn't true; or that an op needs a number and there is none, or that it divides
by a variable that is 0. A report has the answers, and the values of variables by their stores."""
from __future__ import annotations

from typing import Any, Dict, List, NamedTuple, Optional, Tuple

from .application import Application, Op
from .progress import Walker, holds
from .reading import Run
from .report import Event, Kind, event_of
from .variables import STORES, History, Values, stored_by

CHECKS = "expect"
DIVIDES = ("div", "mod")


class Found(NamedTuple):
    """What the op of a failed check found: the last answer, and the values of variables."""

    answer: Optional[int]
    values: Values


def words_of_check(application: Application, run: Run) -> Optional[str]:
    """In words why the run's check failed; None if that isn't found."""
    verdict: Any = run.head.verdict
    index, op = verdict.numbers[0], application.op(verdict.task, verdict.numbers[0])
    if op is None:
        return None
    events = [event_of(it) for it in run.lines()]
    if verdict.task in application.tasks:
        found = found_by_task(application, events, verdict.task)
    else:
        found = found_by_handler(application, events, verdict.task, index, run.head.steps - 1)
    why = None if found is None else why_it_fails(op, found)
    return None if why is None else f'{verdict.text}: "{op.text}", {why}'


def why_it_fails(op: Op, found: Found) -> Optional[str]:
    """What is wrong for this op with what it found; None if nothing is."""
    answer, name = "none" if found.answer is None else found.answer, op.words[-1]
    known = found.values.get(name, ())
    if op.word == CHECKS:
        beside = f", and {name} is {known[0]}" if len(known) == 1 and name != "none" else ""
        return None if holds(op.words[1:], found.answer, found.values) else f"the answer is {answer}{beside}"
    if not op.uses_answer:
        return None
    if found.answer is None:
        return "the last answer is none"
    return f"{name} is 0" if op.word in DIVIDES and 0 in known else None


def fails(op: Op, found: Found) -> bool:
    return why_it_fails(op, found) is not None


def found_by_task(application: Application, events: List[Event], name: str) -> Found:
    """What the task found in the run's last step, in which no base interrupt comes."""
    answers = [it.answer for it in events if it.kind is Kind.CALL and it.name == name]
    history = History(application, events, lambda at: at)
    return Found(answers[-1] if answers else None, history.before(len(events)))


def found_by_handler(application: Application, events: List[Event], name: str, index: int, last_step: int) -> Any:
    """What the handler found in the run's last step. It may have come several times there: each call of it begins with the op of its
    first line, as each begins with no answer; one of them may have no line."""
    history = History(application, events, lambda at: at)
    own = [at for at, it in enumerate(events) if it.kind is Kind.ISR and it.name == name and it.step == last_step]
    calls: List[List[int]] = [[]]
    for at in own:
        if events[at].op == events[own[0]].op and calls[-1]:
            calls.append([])
        calls[-1].append(at)
    first = next((at for at, it in enumerate(events) if it.step == last_step), len(events))
    whole: List[List[int]] = [*calls, []]
    for call in whole:
        before = history.before(call[0] - 1) if call else values_within(history, first, len(events))
        found = first_failure(application, name, {events[at].op: events[at].answer for at in call}, before)
        if found is not None and found[0] == index:
            return found[1]
    return None


def values_within(history: History, first: int, last: int) -> Values:
    """The values that variables have before one of these events."""
    found: Dict[str, List[int]] = {}
    for at in range(first, last + 1):
        for name, values in history.before(at - 1).items():
            found.setdefault(name, []).extend(values)
    return {name: tuple(dict.fromkeys(it)) for name, it in found.items()}


def first_failure(application: Application, name: str, answers: Dict[Any, Any], values: Values) -> Optional[Tuple[int, Found]]:
    """Looks at a call of the handler whose ops have these answers. Returns the index of the first op that is a failed check, and what that op
    found; None if no check fails, or if the ops aren't those of the answers."""
    walker = Walker(application.handlers[name])
    walker.values = values
    while not walker.has_ended:
        op, found = walker.op, Found(walker.answer, walker.values)
        if (op.word == CHECKS or op.uses_answer) and fails(op, found) and walker.at not in answers:
            return walker.at, found
        if op.is_silent:
            if walker.go_past() is not None:
                return None
        elif walker.at in answers:
            at, answer = walker.at, answers[walker.at]
            stored = stored_by(application, name, at, op.word) if op.word == STORES else None
            walker.values = {**walker.values, **({stored: (answer,)} if stored else {})}
            walker.called(answer)
        else:
            return None
    return None
