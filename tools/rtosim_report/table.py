"""The table of classes, for people."""
from __future__ import annotations

from typing import AbstractSet, Iterator, List, NamedTuple, Optional, Sequence

from .base_run import BaseRun
from .classes import OutcomeClass
from .escaping import shell_word
from .faults import counted
from .output import Text as Output
from .reading import Tally
from .report import Head
from .words import words_of_point

AS_BASE = "as the base run, but for the handler's own lines"
NOT_REACHED = "not reached: the base run itself"
BASE_FAILS = "the base run fails so too, without an injection"


class Given(NamedTuple):
    """What the words name: the application's file, the report, and that of the base run; and whether the report has heads alone."""

    application: Optional[str] = None
    report: Optional[str] = None
    base: Optional[str] = None
    takes_points: bool = False
    has_heads_alone: bool = False


def command_of(head: Head, given: Given) -> str:
    """The command that shows what happens at a row's point, or the words of it that are known; of several injections, if the program
    has no words for them, the entry that makes a campaign of them."""
    found = words_of_point(head.point, given.takes_points)
    if found is None:
        return f'points = ["{head.point.text()}"]'
    words = " ".join(map(shell_word, found))
    if given.application is not None:
        return f"rtosim run {shell_word(given.application)} {words}"
    if given.report is None or given.report == "-" or given.has_heads_alone:
        return words
    base = f" --base {shell_word(given.base)}" if given.base else ""
    return f"rtosim-report show {head.row} {shell_word(given.report)}{base}"


def what_differs(it: OutcomeClass) -> str:
    """What the rows of a class have that the base run has not."""
    if it.is_base and it.not_reached == it.rows:
        return NOT_REACHED
    if it.is_base or not it.what_differs:
        return AS_BASE + (f" ({it.not_reached:,} of them not reached)" if it.not_reached else "") + it.failed
    return it.what_differs + it.failed


def words_of(it: OutcomeClass) -> List[str]:
    """The cause, if it says more than the verdict, what differs in the first row, and what that says at its end."""
    lines = [it.name] if it.is_by_cause and it.name != it.verdict.text else []
    if it.is_by_head:
        return [*lines, *([it.what_differs] if it.what_differs else []), *it.ending]
    return [*lines, what_differs(it) if not lines else (it.what_differs or AS_BASE), *it.ending]


def span(fewest: int, most: int) -> str:
    return f"{fewest:,}" if fewest == most else f"{fewest:,} to {most:,}"


def cells(it: OutcomeClass, rows: int) -> List[str]:
    return [
        str(it.number),
        f"{it.rows:,}",
        share_of(it.rows, rows),
        it.verdict.text,
        it.point.text(),
        span(it.fewest_steps, it.most_steps),
        span(it.fewest_ticks, it.most_ticks),
        " ".join(it.handlers),
    ]


def share_of(part: int, whole: int) -> str:
    """In percent; the smallest that is shown is not zero."""
    share = 100 * part / whole
    return f"{share:.1f}%" if share >= 0.05 else "<0.1%"


HEADINGS = ["class", "rows", "share", "verdict", "first point", "steps", "ticks", "handlers"]
RIGHT = {0, 1, 2, 5, 6}


def aligned(table: List[List[str]], right: AbstractSet[int] = frozenset(RIGHT)) -> Iterator[str]:
    """The lines of a table. The columns of these indices are aligned at their ends."""
    widths = [max(map(len, column)) for column in zip(*table)]
    for row in table:
        parts = (it.rjust(w) if at in right else it.ljust(w) for at, (it, w) in enumerate(zip(row, widths)))
        yield "  ".join(parts).rstrip()


def base_words(base: BaseRun, rows: int = 0) -> str:
    if base is None:
        return "the base run is not known" if rows else "no row, and no base run"
    if base.head is None:
        return f"the base run is known before step {base.known_until} alone ({base.origin.value})"
    origin = "" if base.origin.value == "given" else f" ({base.origin.value})"
    return f"the base run: {base.head.end_text()}{origin}"


def of_base(it: OutcomeClass, base: BaseRun) -> List[str]:
    """That the base run fails in the same check, or by the same misuse, as the rows of a class. Stuck runs may wait for different things."""
    if base is None or base.head is None or it.verdict.kind not in ("check", "misuse"):
        return []
    return [BASE_FAILS] if it.verdict.text == base.head.verdict.text else []


def write_classes(output: Output, classes: List[OutcomeClass], base: BaseRun, total: Tally, given: Given, failing: bool = False,
                  notes: Sequence[str] = ()) -> None:
    """The table, with the lines of each class below its own; only of failing classes, if that is asked for. Notes on the whole follow, such as
    what a lone run says at its end."""
    shown = [it for it in classes if not (failing and it.verdict.passes)]
    passing = total.by_kind["pass"]
    if failing and total.rows:
        rows = counted(total.rows, "row") + (f", {total.not_reached:,} of them not reached" if total.not_reached else "")
        output.line(f"{rows}: {passing:,} pass, {total.rows - passing:,} fail in {counted(len(shown), 'class')}; {base_words(base, total.rows)}")
    else:
        output.line(f"{counted(total.rows, 'row')} in {counted(len(classes), 'class')}; {base_words(base, total.rows)}")
    for note in notes:
        output.line(f"  {note}")
    if not shown:
        return
    heading, *lines = aligned([HEADINGS, *(cells(it, total.rows) for it in shown)])
    output.line()
    output.line(heading)
    for it, line in zip(shown, lines):
        output.line(line)
        for words in [*words_of(it), *of_base(it, base), command_of(it.first, given)]:
            output.line(f"       {words}")
