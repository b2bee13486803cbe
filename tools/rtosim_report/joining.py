"""Makes the report of a campaign of those of its shards.

Each part is read twice: first all are checked, then they are copied. So nothing is written before they are known to be of one campaign.
One row at a time is in memory, and of all parts together the rows that say most of the base run."""
from __future__ import annotations

import contextlib
import itertools
import os
import re
from typing import Any, Iterable, Iterator, List, NamedTuple, Optional, Union

from .escaping import plain
from .faults import BadReport, CutOff, Fault, WordsFault, counted
from .output import Progress, Text as Output
from .reading import Run, Tally, ViewReader
from .source import Source, file_source

BLOCK = 1 << 20
STEP_OF_LINE = re.compile(rb"^([0-9]+) ", re.MULTILINE)
ANOTHER_BASE = "its rows begin otherwise than those of the parts before it: it is of another application, or made with other words"


class BadPart(Fault):
    """A part that can't be joined with the others."""

    def __init__(self, name: str, why: Union[BadReport, str]) -> None:
        super().__init__(f"{plain(name)}: {why}")


@contextlib.contextmanager
def named(name: str) -> Iterator[None]:
    """Around what reads a part: its faults are reported with its name."""
    try:
        yield
    except CutOff as fault:
        raise BadPart(name, f"it is cut off at line {fault.line_number}") from None
    except BadReport as fault:
        raise BadPart(name, fault) from None


def lines_before(run: Run, step: int) -> bytes:
    """The bytes of a run's lines before this step."""
    for line in STEP_OF_LINE.finditer(run.text):
        if int(line[1]) >= step:
            return run.text[: line.start()]
    return run.text


class Bases:
    """What rows say of the base run: the one that isn't reached says all of it, and the one whose first injection is the latest says
    it up to there."""

    def __init__(self) -> None:
        self.whole: Optional[Run] = None
        self.latest: Optional[Run] = None

    def add(self, run: Run) -> None:
        if not run.head.is_reached:
            self.whole = self.whole or run
        elif self.latest is None or run.head.point.first_step > self.latest.head.point.first_step:
            self.latest = run

    def differ(self, other: Bases, has_lines: bool) -> bool:
        """Whether both can't be of one base run."""
        there = [it for it in (self.whole, self.latest, other.whole, other.latest) if it is not None]
        return any(differ(one, two, has_lines) for one, two in itertools.combinations(there, 2))


def known_until(run: Run) -> int:
    """Up to which step a row says the base run."""
    return run.head.point.first_step if run.head.is_reached else run.head.steps


def differ(one: Run, two: Run, has_lines: bool) -> bool:
    """Whether two rows can't have one base run."""
    wholes = [it for it in (one, two) if not it.head.is_reached]
    if len(wholes) == 2:
        return one.head.end_text() != two.head.end_text() or one.text != two.text
    step = min(known_until(one), known_until(two))
    # (a point at a step that the base run hasn't isn't reached)
    if wholes and step == wholes[0].head.steps:
        return True
    return has_lines and lines_before(one, step) != lines_before(two, step)


class View(NamedTuple):
    """Which rows a campaign's words leave, as far as a part shows it: the ends of those that are written, those of the ones that are left
    out, and whether rows are whole or heads alone."""

    written: frozenset
    left_out: frozenset
    has_lines: bool
    has_heads_alone: bool

    def together(self, other: View) -> View:
        both = (self.has_lines or other.has_lines, self.has_heads_alone or other.has_heads_alone)
        return View(self.written | other.written, self.left_out | other.left_out, *both)

    def contradiction(self) -> Optional[str]:
        """Why no words of a campaign leave this; None if some do."""
        if self.has_lines and self.has_heads_alone:
            return "some rows are heads alone (--heads) and others whole"
        both = sorted(self.written & self.left_out)
        return f"rows that end with `{both[0]}` are there and left out (--only)" if both else None


class Part:
    """The report of a shard: what its total line counts, and what its rows show."""

    def __init__(self, name: str) -> None:
        self.name = name
        self.first: Any = None
        self.last: Any = None
        self.bases = Bases()
        source = file_source(name)
        reader = ViewReader(source.stream, progress=Progress(source.size))
        source.stream.seek(0)
        with named(name):
            self.view = self.see_rows(reader)
        self.size, self.rows_end = source.size, source.size - len(self.total.text()) - 1
        # What can be opened again isn't kept open: there may be more parts than files that a process may open.
        self.source: Optional[Source] = source
        if os.path.isfile(name):
            source.stream.close()
            self.source = None

    def see_rows(self, reader: ViewReader) -> View:
        """Reads all rows and the total line, and returns the view."""
        has_lines = has_heads_alone = False
        try:
            for run in reader:
                if run.head.row is None:
                    break
                self.first = run.head.row if self.first is None else self.first
                self.last = run.head.row
                self.bases.add(run)
                has_lines = has_lines or bool(run.text)
                has_heads_alone = has_heads_alone or not run.text and run.head.verdict.passes and run.head.steps > 0
        finally:
            if reader.progress is not None:
                reader.progress.end()
        self.total: Any = reader.total
        if self.total is None:
            raise BadPart(self.name, "it is the report of a run, and not of a shard of a campaign")
        why = reader.contradiction()
        if why:
            raise BadPart(self.name, why)
        return self.view_of(reader.tally, has_lines, has_heads_alone)

    def view_of(self, written: Tally, has_lines: bool, has_heads_alone: bool) -> View:
        """The view of these rows. Those of one end are all written, or none of them is."""
        there = frozenset(kind for kind, count in written.by_kind.items() if count)
        lacking = frozenset(kind for kind, count in self.total.by_kind.items() if count and kind not in there)
        return View(there, lacking, has_lines, has_heads_alone)

    def copy_rows(self, output: Output) -> None:
        """Writes all but the total line."""
        source = self.source or file_source(self.name)
        source.stream.seek(0)
        left = self.rows_end
        while left:
            block = source.stream.read(min(left, BLOCK))
            if not block or source.size != self.size:
                raise BadPart(self.name, "it was changed while it was read")
            output.write_bytes(block)
            left -= len(block)
        source.stream.close()


def check_of_one_campaign(parts: Iterable[Any]) -> Iterator[Part]:
    """Reads all parts, and yields each without what it says of the base run, which is compared with that of those before."""
    bases, view = Bases(), View(frozenset(), frozenset(), False, False)
    for part in parts:
        view = view.together(part.view)
        why = view.contradiction()
        if why:
            raise BadPart(part.name, f"it isn't of the same words as the parts before it: {why}")
        if bases.differ(part.bases, view.has_lines):
            raise BadPart(part.name, ANOTHER_BASE)
        for run in (part.bases.whole, part.bases.latest):
            if run is not None:
                bases.add(run)
        part.bases = None
        yield part


def check_order(parts: List[Part]) -> int:
    """The rows of each part follow those of the one before it."""
    begin = 0
    for at, part in enumerate(parts):
        end = begin + part.total.rows
        if part.first is not None and not begin <= part.first <= part.last < end:
            row = part.first if part.first < begin or part.first >= end else part.last
            raise BadPart(part.name, f"it has row {row}, where {rows_of(begin, end)} are next: {why_not_next(parts, at, begin)}")
        begin = end
    return begin


def rows_of(begin: int, end: int) -> str:
    return f"rows {begin} to {end - 1}" if begin < end else "none"


def why_not_next(parts: List[Part], at: int, begin: int) -> str:
    """Why a part isn't the next one."""
    first = parts[at].first
    before = next((it for it in parts[:at] if it.first is not None and it.first <= first <= it.last), None)
    if before is not None:
        return f"{plain(before.name)} has such rows already"
    if first < begin or any(it.first is not None and begin <= it.first < first for it in parts[at + 1 :]):
        return "the parts aren't in the order of their shards"
    return "a shard is missing"


def check_division(parts: List[Part], rows: int) -> None:
    """Each part has as many rows as that shard of the campaign."""
    begin = 0
    for number, part in enumerate(parts, 1):
        end = number * rows // len(parts)
        if begin + part.total.rows != end:
            found, wanted = rows_of(begin, begin + part.total.rows), rows_of(begin, end)
            whole = f"shard {number} of {len(parts)} of {counted(rows, 'row')}"
            raise BadPart(part.name, f"it has {found}, and {whole} has {wanted}: a shard is missing, or one is of another number of shards")
        begin = end


def join(names: List[str], shards: Optional[int], output: Output) -> None:
    """Writes the report of the campaign whose shards these are."""
    if shards is not None and shards != len(names):
        why = "a shard is missing" if len(names) < shards else "there are too many"
        raise WordsFault(f"{counted(len(names), 'part')} of {counted(shards, 'shard')}: {why}")
    parts = list(check_of_one_campaign(map(Part, names)))
    check_division(parts, check_order(parts))
    whole = Tally()
    for part in parts:
        part.copy_rows(output)
        whole.add_counts(part.total)
    output.line(whole.text())
