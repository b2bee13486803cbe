"""What was asked for, and the report that it is asked of: one that is named, or one that the program makes of an application."""
from __future__ import annotations

import argparse
import sys
from typing import Any, Callable, Iterator, List, Optional, Tuple

from .application import Application, read_application
from .base_run import BaseRun, find_base, given_base, tail_of_row
from .classes import By, Classifier, OutcomeClass
from .differences import difference
from .emptiness import Emptiness, emptiness_of, failing_left_out
from .end_state import EndState, state_of
from .endings import Endings
from .escaping import plain
from .faults import Fault, WordsFault, counted
from .known import Failure, failures_of
from .lanes import Timeline
from .made import MadeReport, Plan
from .reading import Reader, Run, Tally, ViewReader, lone_run_of
from .report import Head
from .source import Source, file_source, standard_input, state_source
from .source_map import SourceMap, read_map
from .table import Given
from .words import takes_points, words_of_point

# So many rows' states are asked for.
MOST_ASKED = 100
BASE_RUN = "the base run"
HEADS_ALONE = "the report has heads alone (--heads): this needs whole rows"
HEADS_ONLY = Plan(False, False)


def say(text: str) -> None:
    print(f"rtosim-report: {text}", file=sys.stderr)


class Job:
    """What was asked for, and the report."""

    def __init__(self, words: argparse.Namespace, has_texts: bool = True) -> None:
        self.words = words
        self.application = words.application
        is_made = self.application is not None and words.report is None
        self.made: Any = MadeReport(self.application, words.workers, words.whole) if is_made else None
        self.source: Any = None if is_made else self.open_source()
        self.texts = self.read_texts() if self.application is not None and has_texts else None
        self.source_map = self.read_source_map()
        self.base: Any = None
        # The head of the base run of a report without rows, what it says at its end, and the name of its failure.
        self.lone_run: Any = None
        self.ending: List[str] = []
        self.lone_name = ""
        # Whether rows are classed by their heads, though there may be more of them.
        self.wants_heads = False
        # What the total line counts, how many rows that fail it counts and the report doesn't have, and what there is to say of rows that
        # aren't looked at whole.
        self.total, self.left_out = Tally(), 0
        self.notes: List[str] = []
        self.asked = 0 if is_made and words.asks_for_states else MOST_ASKED
        self.endings = Endings(self.texts, self.ask_for_state, self.source_map)

    @property
    def given(self) -> Given:
        return Given(self.application, self.words.report, self.words.base, self.takes_points, self.has_heads_alone)

    @property
    def has_heads_alone(self) -> bool:
        """Whether it is a report that is named and has heads alone."""
        return self.made is None and self.source.has_heads_alone()

    @property
    def takes_points(self) -> bool:
        """Whether there is a program that runs a point of several injections, which is asked if there are such rows."""
        return self.made is not None and self.made.has_several and takes_points()

    @property
    def name(self) -> str:
        """What the words name."""
        return self.words.report or self.application or "standard input"

    def is_too_large(self) -> bool:
        """Whether the rows that fail are too large for the program to make them whole."""
        return self.made is not None and not self.made.plan(False, self.made.survey(True)).failing

    def open_source(self) -> Source:
        if self.words.report in (None, "-"):
            return standard_input(self.words.partial)
        return file_source(self.words.report, self.words.partial)

    def read_texts(self) -> Application:
        """The application. What the program ignores of it is named on standard error."""
        found = read_application(self.application)
        for it in found.ignored:
            say(f"{plain(self.application)}: {plain(it)}")
        return found

    def read_source_map(self) -> Optional[SourceMap]:
        """The lines of C of the ops. If the application is known, they must be those of its ops."""
        if self.words.source is None:
            return None
        found = read_map(self.words.source)
        if self.texts is not None:
            found.check(self.texts, self.application)
        return found

    # -- what is judged

    @property
    def is_of_a_run(self) -> bool:
        """Whether the report is that of `rtosim run`, and of no campaign."""
        return self.lone_run is not None and self.made is None

    def failures(self, classes: List[OutcomeClass]) -> List[Failure]:
        """What fails: classes, and the base run of a report without rows."""
        if self.lone_run is None or self.lone_run.verdict.passes:
            return failures_of(classes)
        return [Failure(self.lone_name), *failures_of(classes)]

    def emptiness(self) -> Optional[Emptiness]:
        """Why nothing is tested, if that is so."""
        return emptiness_of(self.total, self.is_of_a_run, self.left_out)

    def faulty_emptiness(self) -> Optional[Emptiness]:
        """Why nothing is tested, if that may not be."""
        found = self.emptiness()
        return None if found is not None and found.may_be and self.words.allow_empty else found

    def is_empty(self) -> bool:
        """Whether nothing is tested, which is named on standard error, and may not be."""
        found = self.faulty_emptiness()
        if found is not None:
            say(found.line())
        return found is not None

    # -- the report

    def runs(self) -> Iterator[Run]:
        """The runs of a report that is named. When the last one is taken, all of the report has been read."""
        reader = self.source.reader()
        yield from self.read(reader)
        if reader.is_cut_off:
            say(f"the report is cut off: {counted(reader.tally.rows, 'whole row')}")
        self.total = reader.total or reader.tally
        self.left_out = failing_left_out(self.total, reader.tally)

    def read(self, reader: Reader) -> Iterator[Run]:
        try:
            yield from reader
        finally:
            if reader.progress is not None:
                reader.progress.end()
        if isinstance(reader, ViewReader) and reader.total is not None and reader.contradiction():
            raise Fault(reader.contradiction())

    def heads(self) -> Iterator[Run]:
        """The heads of all rows, of a report that was read before or that the program makes."""
        if self.made:
            yield from self.made.campaign("--heads")
        else:
            yield from self.read(self.source.reader())

    def whole_runs(self) -> Iterator[Run]:
        """The runs, whole and in order; of an application without points its base run; of a report of heads these."""
        if self.made is None:
            yield from self.runs()
            return
        survey = self.made.survey(True)
        self.total = survey.total
        need = self.made.need_of_all(survey)
        if need is not None:
            say(need)
        if not survey.total.rows:
            yield self.made.base().run()
        yield from self.made.whole(None, survey)

    def ask_for_state(self, head: Head) -> Optional[EndState]:
        """The state at the end of a row, as the program writes it. If it writes none once, it isn't asked again."""
        words = None if self.asked >= MOST_ASKED else words_of_point(head.point, self.takes_points)
        if words is None:
            return None
        self.asked += 1
        source = state_source(self.application, words)
        run = None if source is None else lone_run_of(source.reader())
        if run is None or run.head.end_text() != head.end_text() or not run.state:
            self.asked = MOST_ASKED
            return None
        return state_of(run.state)

    def find_base(self) -> BaseRun:
        if self.words.base is not None:
            self.base = given_base(file_source(self.words.base).reader())
        elif self.made:
            self.base = self.made.base()
        else:
            self.base = None if self.has_heads_alone else find_base(self.source)
        return self.base

    # -- classes

    def classify(self, see: Optional[Callable[..., Any]] = None) -> List[OutcomeClass]:
        """All rows that are looked at in classes. Each row and its class are shown to `see`."""
        classifier = Classifier(self.find_base(), self.words.by, self.texts, self.endings)
        if self.made:
            self.classify_made(classifier, see)
        else:
            self.classify_named(classifier, see)
        return self.with_endings(classifier.in_order())

    @property
    def wants_passing(self) -> bool:
        """Whether rows that pass are looked at whole."""
        return self.words.whole or not (self.words.folds or getattr(self.words, "failing", False))

    def classify_named(self, classifier: Classifier, see: Optional[Callable[..., Any]]) -> None:
        heads_alone = self.wants_heads or self.words.by is By.VERDICT
        for run in self.runs():
            if run.head.row is None:
                run.checked_lines()
                self.take_lone_run(run, classifier)
                continue
            if self.has_heads_alone:
                found = classifier.add_head(run)
            elif heads_alone or run.head.verdict.passes and not self.wants_passing:
                classifier.check(run)
                found = classifier.add_head(run)
            else:
                found = classifier.add(run)
            if see:
                see(run, found)
        if self.total.rows and self.has_heads_alone and self.words.by is not By.VERDICT:
            self.notes.append("the report has heads alone (--heads), so rows are classed by these")

    def classify_made(self, classifier: Classifier, see: Optional[Callable[..., Any]]) -> None:
        by_heads = self.words.by is By.VERDICT
        is_complete = by_heads or see is not None or self.wants_passing
        survey = self.made.survey(is_complete)
        self.total = survey.total
        if not survey.total.rows:
            self.take_lone_run(self.base.run(), classifier)
            return
        plan = HEADS_ONLY if by_heads or self.wants_heads else self.made.plan(self.wants_passing, survey)
        if not by_heads and not self.wants_heads:
            for it in self.made.needs(plan, survey, self.wants_passing):
                say(it)
        for run in self.made.runs(plan, survey) if is_complete else self.failing_runs(plan):
            is_whole = plan.reads(run.head.verdict.passes)
            found = classifier.add(run, True) if is_whole else classifier.add_head(run)
            if see:
                see(run, found)

    def failing_runs(self, plan: Plan) -> Iterator[Run]:
        """The rows that fail, whole or as heads."""
        if plan.failing:
            return self.made.whole(False, self.made.surveyed)
        return self.made.campaign("--only", "failing", "--heads")

    def take_lone_run(self, run: Run, classifier: Classifier) -> None:
        """The base run is all that there is."""
        self.lone_run = run.head
        self.ending, self.lone_name = self.endings.lines_of(run), f"{BASE_RUN}: {classifier.causes.end_of(run)}"

    def with_endings(self, classes: List[OutcomeClass]) -> List[OutcomeClass]:
        """The classes. Of those that were made of heads and fail the first row is looked at: what differs in it, and what it says at its end."""
        for it in classes:
            if self.made and it.is_by_head and not it.verdict.passes and self.words.by is not By.VERDICT and not it.ending:
                run = self.made.row(it.first.row)
                it.what_differs = difference(run, *tail_of_row(run, self.base), self.base).words
                it.ending = self.endings.lines_of(run, self.base)
        return classes

    # -- one run

    def wanted_run(self, row: Optional[int]) -> Tuple[Optional[Run], BaseRun]:
        """The run of this row, or none for the base run; and the base run beside it. A report that is named is checked as a whole."""
        base = self.find_base()
        if self.made:
            return (None if row is None else self.made.row(row)), base
        if row is not None and self.has_heads_alone:
            raise Fault(HEADS_ALONE)
        wanted, rows = None, 0
        for run in self.runs():
            if run.head.row is None:
                run.checked_lines()
                continue
            rows += 1
            tail_of_row(run, base)
            if run.head.row == row:
                wanted = run
        if row is not None and wanted is None:
            of_all = "" if rows == self.total.rows else f", of {self.total.rows:,}"
            raise WordsFault(f"there is no row {row}: the report has {counted(rows, 'row')}{of_all}")
        return wanted, base

    def timeline(self) -> Timeline:
        from . import timeline

        run, base = self.wanted_run(self.words.row)
        if run is not None:
            found = timeline.of_row(run, base, self.texts)
            return self.with_words(found, run)
        if base is None or base.head is None:
            raise WordsFault("the report does not have the base run: --row N, --base or --application")
        found = timeline.of_base(base, self.texts)
        return self.with_words(found, base.run())

    def with_words(self, found: Timeline, run: Run) -> Timeline:
        """The timeline of a run with what that says at its end, and with the lines of C of its calls."""
        found.ending, found.source_map = self.endings.lines_of(run, self.base), self.source_map
        return found
