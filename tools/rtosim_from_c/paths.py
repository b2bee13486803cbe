"""A way through a function: the ops that were written on it, and what is known at its end."""
from dataclasses import dataclass, field, replace
from typing import Dict, Iterable, List, Optional

from .answers import Answers, only, NONE, NOTHING
from .integers import UNSIGNED
from .items import Item
from .refusals import Lost, Place
from .values import Known, Stamp, after_an_answer, either, lost, meeting


@dataclass(frozen=True)
class State:
    """Which last answers are possible, and what each local is then. `stamp` is the number of the last `stamp`, `sections` how many
    critical sections are open; -1 if that isn't known."""

    answers: Answers = only(NONE)
    locals: Dict[str, Known] = field(default_factory=dict)
    stamp: int = 0
    sections: int = 0

    def with_local(self, name: str, value: Known) -> "State":
        return State(self.answers, {**self.locals, name: value}, self.stamp, self.sections)

    def among(self, known: Answers) -> "State":
        return State(self.answers & known, self.locals, self.stamp, self.sections)

    def answered(self, answers: Answers, by: str, at: Place) -> "State":
        """After a call at this place that returns one of these; what is never reached stays so."""
        if not self.answers:
            return self
        kept = {name: after_an_answer(it, self.answers, name, by, at) for name, it in self.locals.items()}
        return State(answers, kept, self.stamp, self.sections)

    def stamped(self, number: int) -> "State":
        """After the `stamp` of this number; one of the turn before isn't the last any more."""
        earlier = {name: earlier_time(name) for name, it in self.locals.items() if it == Stamp(number)}
        return replace(self, stamp=number, locals={**self.locals, **earlier})

    def in_sections(self, more: int) -> "State":
        """With one critical section more, or one less."""
        return self if self.sections < 0 else replace(self, sections=max(0, self.sections + more))

    def without(self, name: str) -> "State":
        return State(self.answers, {key: it for key, it in self.locals.items() if key != name}, self.stamp, self.sections)


def merged(states: Iterable[State]) -> Optional[State]:
    """What is known when these ways come together; None if there is none."""
    found: Optional[State] = None
    for it in states:
        found = it if found is None else merged_two(found, it)
    return found


def merged_two(first: State, second: State) -> State:
    names = [name for name in first.locals if name in second.locals]
    stamp, of = max(first.stamp, second.stamp), meeting(first.answers, second.answers)
    locals_ = {
        name: Stamp(stamp) if is_last_stamp(first, name) and is_last_stamp(second, name) else
        either(first.locals[name], second.locals[name], of, name) for name in names
    }
    for name, it in locals_.items():
        if isinstance(it, Stamp) and is_last_stamp(first, name) != is_last_stamp(second, name):
            locals_[name] = earlier_time(name)
    sections = first.sections if first.sections == second.sections else -1
    return State(of.all, locals_, stamp, sections)


def earlier_time(name: str) -> Known:
    why = f"`{name.split('@')[0]}` may be an earlier time than the last one, and a task measures from its last time only"
    return lost(UNSIGNED, Lost(why, instead="one time that is measured from, until it is read"))


def is_last_stamp(state: State, name: str) -> bool:
    """Whether a local has the time of the last `stamp`."""
    return state.locals[name] == Stamp(state.stamp)


def is_same(first: State, second: State) -> bool:
    """Whether the same is known in both."""
    known_of = lambda it: (it.answers, it.stamp, it.sections, it.locals.keys())
    if known_of(first) != known_of(second):
        return False
    among = lambda state, it: it.among(state.answers) if hasattr(it, "among") else it
    return all(among(first, it) == among(second, second.locals[name]) for name, it in first.locals.items())


class Path:
    """The ops so far and the state after them. It is over when it has no answers any more: what comes then is never reached."""

    def __init__(self, state: State, items: Optional[List[Item]] = None) -> None:
        self.state = state
        self.items: List[Item] = [] if items is None else items

    @property
    def is_over(self) -> bool:
        return not self.state.answers

    def end(self) -> None:
        self.state = self.state.among(NOTHING)

    def fork(self, known: Answers) -> "Path":
        """A way on from here for these answers, whose ops are apart."""
        return Path(self.state.among(known))
