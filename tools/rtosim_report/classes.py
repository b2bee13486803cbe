"""Groups rows: those that fail by their cause, those that pass by their outcome.

Two rows have the same outcome if their verdicts are the same, and what they report from their first handler on, except for the numbers of
steps and ticks. The rows that are the base run except for the handlers' own lines, and in which no call fails, are a class of their own."""
from __future__ import annotations

import enum
import hashlib
import re
from dataclasses import dataclass, field
from typing import Any, Dict, List, Optional, Tuple

from . import differences
from .application import Application
from .base_run import is_base_exactly, tail_of_row
from .causes import Causes, failed_beyond, failed_in_text
from .endings import Endings
from .faults import BadReport
from .injections import from_arrival
from .reading import Run
from .report import Head, Line, Point, Verdict

# An outcome that takes more bytes is known by a digest.
LONGEST_KEY = 200
AS_BASE, BY_CAUSE, BY_HEAD = "as the base run", "by cause", "by head"
# What differs is shown with the number of a step if the base run isn't known to its end.
STEP_OF_BASE = re.compile(r"before step [0-9]+")


class By(enum.Enum):
    """What makes two rows the same."""

    DEFAULT = "default"
    CAUSE = "cause"
    OUTCOME = "outcome"
    EXACT = "exact"
    VERDICT = "verdict"


@dataclass
class OutcomeClass:
    """Rows of one outcome, counted. Of the rows only the head of the first one is kept, what differs in it, and what it says at its end."""

    first: Head
    is_base: bool
    what_differs: str
    name: str = ""
    is_by_cause: bool = False
    failed: str = ""
    ending: List[str] = field(default_factory=list)
    is_by_head: bool = False
    number: int = 0
    rows: int = 0
    not_reached: int = 0
    fewest_steps: int = 1 << 62
    most_steps: int = 0
    fewest_ticks: int = 1 << 62
    most_ticks: int = 0
    handlers: Dict[str, int] = field(default_factory=dict)

    @property
    def verdict(self) -> Verdict:
        return self.first.verdict

    @property
    def point(self) -> Point:
        return self.first.point

    def add(self, head: Head) -> None:
        self.rows += 1
        self.not_reached += not head.is_reached
        if not self.fewest_steps <= head.steps <= self.most_steps:
            self.fewest_steps = min(self.fewest_steps, head.steps)
            self.most_steps = max(self.most_steps, head.steps)
        if not self.fewest_ticks <= head.ticks <= self.most_ticks:
            self.fewest_ticks = min(self.fewest_ticks, head.ticks)
            self.most_ticks = max(self.most_ticks, head.ticks)
        for handler in handlers_of(head):
            self.handlers[handler] = self.handlers.get(handler, 0) + 1


def handlers_of(head: Head) -> Tuple[str, ...]:
    """The handlers that a row's point injects, each once."""
    point = head.point
    return (point[0].handler,) if len(point) == 1 else tuple(dict.fromkeys(it.handler for it in point))


def handlers_words(head: Head) -> str:
    """The end of the name of a class that fails."""
    return f" [{' '.join(sorted(handlers_of(head)))}]"


class Classifier:
    """Puts rows into classes, one after another; its memory is that of the classes and the base run."""

    def __init__(self, base: Any, by: By = By.OUTCOME, application: Optional[Application] = None,
                 endings: Optional[Endings] = None) -> None:
        self.base, self.by = base, by
        self.causes, self.endings = Causes(application, base), endings or Endings(application)
        self.classes: Dict[object, OutcomeClass] = {}

    def add(self, run: Run, is_made: bool = False) -> Any:
        """The class of the row, which may be new. A base run of a report isn't a row. `is_made` says that the program has just made it."""
        if run.head.row is None:
            run.checked_lines()
            return None
        known = self.quick_class(run) if is_made and self.by is not By.VERDICT else None
        if known is not None:
            known.add(run.head)
            return known
        if None in self.classes and self.base.head is not None and is_base_exactly(run, self.base):
            known = self.classes[None]
            known.add(run.head)
            return known
        tail, position = tail_of_row(run, self.base)
        if not run.head.is_reached:
            self.check_unreached(run, tail, position)
        failed = failed_beyond(run, tail, self.base, position)
        key = self.key_of(run, tail, position, failed)
        found = self.classes.get(key)
        if found is None:
            found = self.classes[key] = self.new_class(run, tail, position, key, failed)
        found.add(run.head)
        return found

    def add_head(self, run: Run) -> OutcomeClass:
        """The class of a row whose head alone is known. All that pass are one class; those that fail are one if they have the same end and the same
        handlers."""
        head = run.head
        key: Tuple[Any, ...]
        if self.by is By.VERDICT:
            key = BY_CAUSE, head.verdict.text
        else:
            key = (BY_HEAD, "pass") if head.verdict.passes else (BY_HEAD, head.verdict.text, tuple(sorted(handlers_of(head))))
        found = self.classes.get(key)
        if found is None:
            is_named = self.by is By.VERDICT or head.verdict.passes
            name = head.verdict.text if is_named else self.causes.end_of_head(head.verdict) + handlers_words(head)
            found = self.classes[key] = OutcomeClass(head, False, "", name, True, is_by_head=True)
        found.add(head)
        return found

    def quick_class(self, run: Run) -> Optional[OutcomeClass]:
        """The class of a row that the program has made, if it is a class by cause that is there already. Only the calls that failed are looked for
        in its lines. None if it isn't found this way."""
        head, base = run.head, self.base
        if base.head is None or not head.is_reached or not self.is_by_cause(head.verdict) or head.verdict == base.head.verdict:
            return None
        start = base.place(head.point.first_step)[1]
        if run.text[:start] != base.text[:start]:
            return None
        failed = failed_in_text(run, base, start)
        return self.classes.get(self.key_by_cause(run, failed))

    def check(self, run: Run) -> None:
        """Looks at the lines of a row that is classed by its head: they begin as the base run does, and are its own if it isn't reached."""
        tail, position = tail_of_row(run, self.base)
        if not run.head.is_reached:
            self.check_unreached(run, tail, position)

    def check_unreached(self, run: Run, tail: List[Line], position: int) -> None:
        if self.base and not differences.equals_exactly(run, tail, position, self.base):
            raise BadReport(run.line_number, "the base run, since the point is not reached", run.head.text().encode())

    def is_by_cause(self, verdict: Verdict) -> bool:
        return self.by is By.CAUSE or self.by is By.DEFAULT and not verdict.passes

    def key_of(self, run: Run, tail: List[Line], position: int, failed: Tuple[bytes, ...]) -> Any:
        """What rows of one class have in common: None of the base run's, otherwise what it is and what is alike."""
        if self.by is By.VERDICT:
            return BY_CAUSE, run.head.verdict.text
        exact = self.by is By.EXACT
        is_as_base = not run.head.is_reached or differences.is_as_base(run, tail, position, self.base, exact)
        if is_as_base and not failed:
            return None
        if self.is_by_cause(run.head.verdict):
            return self.key_by_cause(run, failed)
        if is_as_base:
            return AS_BASE, failed
        tail = from_arrival(tail, run.head.point) if run.head.is_reached else tail
        seen = [b" ".join(it[1:]) for it in tail] if exact else [what for _, _, what in tail]
        end = f"{run.head.verdict.text} {run.head.ticks}" if exact else run.head.verdict.text
        outcome = b"\n".join(seen)
        if len(outcome) > LONGEST_KEY:
            outcome = hashlib.blake2b(outcome, digest_size=16).digest()
        return end, outcome

    def key_by_cause(self, run: Run, failed: Tuple[bytes, ...]) -> Any:
        return BY_CAUSE, self.causes.key_of(run, failed), () if run.head.verdict.passes else tuple(sorted(handlers_of(run.head)))

    def new_class(self, run: Run, tail: List[Line], position: int, key: Any, failed: Tuple[bytes, ...]) -> OutcomeClass:
        words = differences.difference(run, tail, position, self.base, self.by is By.EXACT).words
        is_by_cause = key is not None and key[0] == BY_CAUSE
        failed_words = "".join("; " + self.causes.failed_words(it) for it in failed)
        if self.by is By.VERDICT:
            name = run.head.verdict.text
        elif is_by_cause:
            name = self.causes.end_of(run) + failed_words
            if not run.head.verdict.passes:
                name += handlers_words(run.head)
        elif key is None or key[0] == AS_BASE:
            name = self.name_as_base(run) + failed_words
        else:
            name = lasting_words(run.head.verdict, words)
        return OutcomeClass(run.head, key is None, words, name, is_by_cause, failed_words, self.endings.lines_of(run, self.base, failed))

    def name_as_base(self, run: Run) -> str:
        return AS_BASE if run.head.verdict.passes else f"{AS_BASE}: {self.causes.end_of(run)}"

    def in_order(self) -> List[OutcomeClass]:
        """Those that fail, then those that pass, each in the order of their first rows; the class of the base run last."""
        found = sorted(self.classes.values(), key=lambda it: (it.is_base, it.verdict.passes, it.first.row))
        for number, it in enumerate(found, 1):
            it.number = number
        name_apart(found)
        return found


def lasting_words(verdict: Verdict, words: str) -> str:
    """A name of an outcome, by what differs first."""
    return verdict.text if not words or STEP_OF_BASE.search(words) else f"{verdict.text}: {words}"


def name_apart(classes: List[OutcomeClass]) -> None:
    """If several classes have one name, the second and later ones get a number."""
    seen: Dict[str, int] = {}
    for it in classes:
        seen[it.name] = nth = seen.get(it.name, 0) + 1
        if nth > 1:
            it.name = f"{it.name} ({nth})"
