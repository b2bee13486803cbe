"""What `rtosim explore` finds: its report, and what happens in the runs of the least placements."""
from __future__ import annotations

import os
import re
import subprocess
from dataclasses import dataclass
from typing import List, NamedTuple, Optional

from . import grammar
from .base_run import given_base
from .classes import By, Classifier, OutcomeClass
from .escaping import plain, shell_word
from .faults import BadReport, Fault, ProgramFault, counted
from .job import Job
from .output import Text as Output, output_file
from .reading import Run, lone_run_of
from .report import Head, Injection, Point, Verdict
from .source import PROGRAM, STATUSES_OF_REPORTS, lone_reader, state_source
from .table import aligned, share_of
from .words import words_of_point

END = re.compile(
    rb"(" + grammar.VERDICT + rb"): ([1-9][0-9]*) placements?, least is (none|" + grammar.INJECTION + rb"(?: " + grammar.INJECTION + rb"){0,2})"
    rb" in (" + grammar.NUMBER + rb") steps, (" + grammar.TICKS + rb") ticks"
)
TOTAL = re.compile(rb"total ([1-9][0-9]*)")
AN_END = "`VERDICT: N placements, least is POINT in S steps, E ticks`"
HEADINGS = ["end", "placements", "share", "verdict", "least placement", "steps", "ticks"]
RIGHT = frozenset({0, 1, 2, 5, 6})


class End(NamedTuple):
    """A way in which placements end: how many, and the head of the run of the least one. Of the base run there is no point."""

    placements: int
    head: Head

    @property
    def fails(self) -> bool:
        return not self.head.verdict.passes


@dataclass
class Explained:
    """An end, and what is known of the run of its least placement: the run, its class, and the picture of it."""

    end: End
    run: Optional[Run] = None
    found: Optional[OutcomeClass] = None
    picture: Optional[str] = None


def end_of_line(line: bytes, number: int) -> End:
    """The end that a line of the report is about."""
    match = END.fullmatch(line)
    if match is None:
        raise BadReport(number, AN_END, line)
    verdict, placements, least, steps, ticks = (it.decode("ascii") for it in match.groups())
    words = [] if least == "none" else least.split(" ")
    point = Point(Injection(int(step), handler) for step, handler in zip(words[::2], words[1::2])) if words else None
    head = Head(None if point is None else 0, point, True, Verdict(verdict, verdict.split(" ")[0]), int(steps), int(ticks))
    return End(int(placements), head)


def ends_of(text: bytes) -> List[End]:
    """The ends that a report is about."""
    *lines, last = text.split(b"\n")[:-1] or [b""]
    ends = [end_of_line(it, number) for number, it in enumerate(lines, 1)]
    total = TOTAL.fullmatch(last)
    if total is None or int(total[1]) != sum(it.placements for it in ends):
        raise BadReport(len(lines) + 1, "`total N`, the sum of the lines before it", last)
    return ends


def explored(application: str, words: List[str]) -> List[End]:
    """What the program finds."""
    try:
        ran = subprocess.run([PROGRAM, "explore", application, *words], stdin=subprocess.DEVNULL, stdout=subprocess.PIPE, check=False)
    except OSError as why:
        raise Fault(f"cannot run {plain(PROGRAM)}: {why.strerror}") from None
    if ran.returncode not in STATUSES_OF_REPORTS:
        raise ProgramFault(ran.returncode if ran.returncode > 0 else 70, shell_word(application))
    return ends_of(ran.stdout)


class Explanation:
    """The ends, each that fails with the run of its least placement beside the base run."""

    def __init__(self, job: Job, words: List[str]) -> None:
        self.job, self.application = job, job.application
        self.ends = explored(self.application, words)
        self.base = given_base(lone_reader("run", self.application))
        job.base = self.base

    def run_of(self, end: End) -> Run:
        """The run of the least placement, with the state at its end."""
        if end.head.point is None:
            return self.base.run()
        source = state_source(self.application, words_of_point(end.head.point, True) or [])
        run = None if source is None else lone_run_of(source.reader())
        if run is None or run.head.end_text() != end.head.end_text():
            raise Fault(f"the run of {end.head.point.text()} isn't that of `explore`: {end.head.end_text()}")
        return run

    def explained(self, end: End, folder: Optional[str]) -> Explained:
        """What happens in the run of the least placement of an end that fails."""
        if not end.fails:
            return Explained(end)
        run = self.run_of(end)
        found = None if end.head.point is None else Classifier(self.base, By.CAUSE, self.job.texts, self.job.endings).add(run)
        return Explained(end, run, found, None if folder is None else self.draw(run, end, folder))

    def draw(self, run: Run, end: End, folder: str) -> str:
        """Draws the run, and returns the name of the file."""
        from . import timeline, timeline_picture

        is_base = end.head.point is None
        built = timeline.of_base(self.base, self.job.texts) if is_base else timeline.of_row(run, self.base, self.job.texts)
        least = "none" if is_base else end.head.point.text().replace(" ", "_")
        path = os.path.join(folder, f"{least}.svg")
        with output_file(path) as output:
            timeline_picture.write(output, self.job.with_words(built, run))
        return path

    def lines_of(self, it: Explained) -> List[str]:
        """The cause, what differs from the base run first, what the run says at its end, and the command that shows it."""
        if it.run is None:
            return []
        name = [] if it.found is None else [it.found.name]
        differs = [it.found.what_differs] if it.found is not None and it.found.what_differs else []
        ending = self.job.endings.lines_of(it.run, self.base) if it.found is None else it.found.ending
        words = " ".join(map(shell_word, words_of_point(it.end.head.point, True) or []))
        command = f"rtosim run {shell_word(self.application)} {words}".rstrip()
        return [*name, *differs, *ending, command, *([it.picture] if it.picture else [])]


def cells(number: int, end: End, total: int) -> List[str]:
    head = end.head
    least = "none" if head.point is None else head.point.text()
    return [str(number), f"{end.placements:,}", share_of(end.placements, total), head.verdict.text, least, f"{head.steps:,}", f"{head.ticks:,}"]


def write_ends(output: Output, explanation: Explanation, folder: Optional[str]) -> None:
    """The table of the ends, each with the lines of its least placement below it."""
    ends = explanation.ends
    total, failing = sum(it.placements for it in ends), sum(it.placements for it in ends if it.fails)
    how = f"{failing:,} fail" if failing else "all pass"
    output.line(f"{counted(total, 'placement')} in {counted(len(ends), 'end')}: {how}; the base run: {explanation.base.head.end_text()}")
    output.line()
    heading, *lines = aligned([HEADINGS, *(cells(number, it, total) for number, it in enumerate(ends, 1))], RIGHT)
    output.line(heading)
    for end, line in zip(ends, lines):
        output.line(line)
        for words in explanation.lines_of(explanation.explained(end, folder)):
            output.line(f"     {words}")
