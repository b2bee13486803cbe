"""Test cases for a build server, in the format that JUnit's reports made common: a class of rows each, or a row each."""
from __future__ import annotations

import os
import time
from dataclasses import dataclass
from typing import Any, Iterable, List, Optional
from xml.sax.saxutils import escape, quoteattr

from .classes import OutcomeClass
from .emptiness import Emptiness
from .escaping import plain
from .faults import counted
from .known import Failure, Known
from .output import Text as Output
from .report import Head, Verdict
from .table import Given, command_of, words_of

EMPTY = Verdict("nothing is tested", "empty")


@dataclass(frozen=True)
class Suite:
    """What the cases are of, and the names of failures that are known."""

    name: str
    given: Given
    known: Known = Known()


@dataclass(frozen=True)
class Counts:
    cases: int
    failures: int
    skipped: int = 0


@dataclass(frozen=True)
class LoneRun:
    """The base run of a report without rows, what it says at its end, and its name if it fails."""

    head: Head
    ending: List[str]
    name: str

    def case(self) -> Case:
        passes = self.head.verdict.passes
        return Case(Failure("the base run" if passes else self.name), self.head.verdict, "\n".join([self.head.text(), *self.ending]))


@dataclass(frozen=True)
class Case:
    """A test case: its name with the number of its rows, how it ends, and what there is to say of that."""

    failure: Failure
    verdict: Verdict
    text: str

    @property
    def fails(self) -> bool:
        return not self.verdict.passes

    def is_skipped(self, suite: Suite) -> bool:
        return self.fails and suite.known.accepts(self.failure)


def attribute(text: str) -> str:
    return quoteattr(plain(text))


def timestamp() -> str:
    """Now, or what SOURCE_DATE_EPOCH says, so that the same report gives the same bytes."""
    seconds = os.environ.get("SOURCE_DATE_EPOCH", "")
    return time.strftime("%Y-%m-%dT%H:%M:%S", time.gmtime(int(seconds) if seconds.isdigit() else None))


def write_start(output: Output, suite: Suite, counts: Counts) -> None:
    numbers = f'tests="{counts.cases}" failures="{counts.failures}" errors="0"'
    output.line('<?xml version="1.0" encoding="UTF-8"?>')
    output.line(f'<testsuites name="rtosim" {numbers} time="0">')
    output.line(
        f'<testsuite id="0" package="rtosim" name={attribute(suite.name)} {numbers} skipped="{counts.skipped}" time="0"'
        f' timestamp="{timestamp()}" hostname="localhost">'
    )
    output.line("<properties/>")


def write_end(output: Output) -> None:
    output.line("<system-out/>")
    output.line("<system-err/>")
    output.line("</testsuite>")
    output.line("</testsuites>")


def write_case(output: Output, suite: Suite, case: Case) -> None:
    name, verdict = case.failure.name, case.verdict
    start = f"<testcase classname={attribute('rtosim.' + class_name(suite.name))} name={attribute(name)} time=\"0\""
    if verdict.passes:
        output.line(start + "/>")
        return
    output.line(start + ">")
    if case.is_skipped(suite):
        output.line(f"<skipped message={attribute('a failure that is known: ' + name)}/>")
    else:
        message = f"message={attribute(name + ': ' + verdict.text)} type={attribute(verdict.kind)}"
        output.line(f"<failure {message}>{escape(plain_lines(case.text))}</failure>")
    output.line("</testcase>")


def plain_lines(text: str) -> str:
    return "\n".join(map(plain, text.split("\n")))


def class_name(name: str) -> str:
    """The name of a file without its folder and ending, fit for a dotted name."""
    return os.path.splitext(os.path.basename(name))[0].replace(".", "_") or "report"


def write_classes(output: Output, suite: Suite, classes: List[OutcomeClass], lone_run: Optional[LoneRun] = None,
                  empty: Optional[Emptiness] = None) -> None:
    """A case for each class. A report without rows has one for its base run. One more says why nothing is tested, if nothing is."""
    cases = [Case(Failure(it.name, it.rows), it.verdict, class_text(it, suite)) for it in classes]
    if not classes and lone_run is not None:
        cases.append(lone_run.case())
    cases += case_of_nothing(empty)
    skipped = sum(it.is_skipped(suite) for it in cases)
    write_start(output, suite, Counts(len(cases), sum(it.fails for it in cases) - skipped, skipped))
    for it in cases:
        write_case(output, suite, it)
    write_end(output)


def case_of_nothing(empty: Optional[Emptiness]) -> List[Case]:
    """The case that says why nothing is tested, if nothing is."""
    return [] if empty is None else [Case(Failure(empty.name), EMPTY, empty.line())]


def class_text(it: OutcomeClass, suite: Suite) -> str:
    handlers = " ".join(it.handlers)
    lines = [f"{counted(it.rows, 'row')} of {handlers}; the first:", it.first.text(), *words_of(it), command_of(it.first, suite.given)]
    return "\n".join(lines)


def counts_of(classes: List[OutcomeClass], empty: Optional[Emptiness] = None) -> Counts:
    """The counts of single rows, and of the case that says why nothing is tested."""
    more = len(case_of_nothing(empty))
    return Counts(sum(it.rows for it in classes) + more, sum(it.rows for it in classes if not it.verdict.passes) + more)


def write_rows(output: Output, suite: Suite, runs: Iterable[Any], classes: List[OutcomeClass], empty: Optional[Emptiness] = None) -> None:
    """A case for each row, and one that says why nothing is tested, if nothing is."""
    write_start(output, suite, counts_of(classes, empty))
    for run in runs:
        head = run.head
        if head.row is not None:
            command = command_of(head, suite.given)
            name = f"row {head.row} at {head.point.text()}"
            write_case(output, suite, Case(Failure(name), head.verdict, f"{head.text()}\n{command}"))
    for it in case_of_nothing(empty):
        write_case(output, suite, it)
    write_end(output)
