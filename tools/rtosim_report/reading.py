"""Reads a report run by run, so that one run at a time is in memory, and says at which line a text is no report."""
from __future__ import annotations

import functools
import re
from typing import Any, Iterable, Iterator, List, Match, NamedTuple, NoReturn, Optional, Tuple

from . import end_state, grammar
from .faults import BadReport, CutOff, Fault, counted
from .output import Progress
from .report import Head, Injection, Line, Point, Verdict

BLOCK = 1 << 20
NEXT_ROW, TOTAL_LINE = b"\nrow ", b"\ntotal "
# What a line may look like if only its beginning is there.
CUT_LINE = re.compile(rb"[0-9brt][\x20-\x7e]{0,160}")
AFTER_A_HEAD = f"an event ({grammar.AN_EVENT}), the next row's head line or the total line"


class Run(NamedTuple):
    """One run of a report: its head, the bytes of its event lines, and the number of its head line in the text; and after a lone run the lines
    of the state at its end, if it was asked for."""

    head: Head
    text: bytes
    line_number: int
    state: bytes = b""

    def lines(self, start: int = 0) -> List[Line]:
        """The event lines from this byte on, checked."""
        text = self.text[start:] if start else self.text
        found = grammar.EVENT_LINES.findall(text)
        if len(found) != text.count(b"\n"):
            self.find_bad_line()
        self.check_order(found)
        return found

    def find_bad_line(self) -> NoReturn:
        for index, line in enumerate(self.text.split(b"\n")[:-1]):
            if not grammar.EVENT_LINE.fullmatch(line):
                raise BadReport(self.line_number + 1 + index, AFTER_A_HEAD, line)
        raise AssertionError("a bad line is there")

    def check_order(self, lines: List[Line]) -> None:
        """Steps rise, and are those of the run."""
        steps = [int(step) for step, _, _ in lines]
        if not steps or steps[-1] < self.head.steps and steps == sorted(steps):
            return
        last, first = 0, self.text.count(b"\n") - len(lines)
        for index, step in enumerate(steps):
            if not last <= step < self.head.steps:
                at = self.line_number + 1 + first + index
                raise BadReport(at, f"a step from {last} to {self.head.steps - 1}", b" ".join(lines[index]))
            last = step

    def check_end(self, last_line: Optional[Line]) -> None:
        """In its last step a run that passes goes from a task that ends to idle, to the daemon, or to a task that serves forever: without that line
        some lines are missing."""
        if not self.head.verdict.passes or self.head.steps == 0:
            return
        if last_line is None or not last_line[2].startswith(b"run ") or int(last_line[0]) != self.head.steps - 1:
            at = self.line_number + self.text.count(b"\n")
            wanted = f"`{self.head.steps - 1} T run -` or another change of the processor as the last line of a run that passes"
            raise BadReport(at + 1, wanted, None if last_line is None else b" ".join(last_line))

    def checked_lines(self) -> List[Line]:
        lines = self.lines()
        self.check_end(lines[-1] if lines else None)
        return lines


class Tally:
    """Counts rows as the total line does."""

    def __init__(self) -> None:
        self.rows = 0
        self.not_reached = 0
        self.by_kind = dict.fromkeys(grammar.VERDICT_KINDS, 0)

    def add(self, head: Head) -> None:
        self.rows += 1
        self.not_reached += not head.is_reached
        self.by_kind[head.verdict.kind] += 1

    def add_counts(self, other: Tally) -> None:
        self.rows += other.rows
        self.not_reached += other.not_reached
        for kind, count in other.by_kind.items():
            self.by_kind[kind] += count

    def text(self) -> str:
        kinds = ", ".join(f"{kind} {count}" for kind, count in self.by_kind.items())
        return f"total {self.rows}: {kinds}, not reached {self.not_reached}"


def tally_of(line: bytes) -> Optional[Tally]:
    """What a total line counts; None if it is no total line, or if its ends aren't as many as its rows."""
    match = grammar.TOTAL.fullmatch(line)
    if match is None:
        return None
    found = Tally()
    found.rows, *ends, found.not_reached = map(int, match.groups())
    found.by_kind.update(zip(grammar.VERDICT_KINDS, ends))
    return found if sum(ends) == found.rows >= found.not_reached else None


class Reader:
    """The runs of a report in order. After the last one it knows whether the report was whole.

    Heads, their numbers and the total line are checked here; the event lines of a run when they are asked for."""

    def __init__(self, stream: Any, partial: bool = False, progress: Optional[Progress] = None, first: int = 0) -> None:
        self.stream, self.partial, self.progress, self.first = stream, partial, progress, first
        self.tally = Tally()
        # What the total line counts.
        self.total: Optional[Tally] = None
        self.is_cut_off = False
        self.line_number = 1
        self.bytes_read = 0

    def __iter__(self) -> Iterator[Run]:
        kept = self.read()
        if not kept:
            raise CutOff(1, grammar.A_FIRST_LINE, None)
        if kept.startswith(b"base: "):
            yield self.lone_run(kept)
            return
        if not kept.startswith((b"row ", b"total ")):
            raise BadReport(1, grammar.A_FIRST_LINE, first_line(kept))
        kept = b"\n" + kept
        while True:
            rows, kept = whole_rows(kept)
            for row in rows:
                yield self.row_of(row + b"\n")
            more = self.read()
            if not more:
                break
            self.refuse_long_line(kept, more)
            kept += more
        yield from self.last_part(kept[1:])

    def read(self) -> bytes:
        block = self.stream.read(BLOCK)
        self.bytes_read += len(block)
        if self.progress:
            self.progress.show(self.bytes_read, self.tally.rows)
        return block

    def refuse_long_line(self, kept: bytes, more: bytes) -> None:
        """A line longer than a block isn't gathered."""
        if len(more) == BLOCK and b"\n" not in more:
            at = self.line_number + kept.count(b"\n")
            raise BadReport(at, AFTER_A_HEAD, kept[kept.rfind(b"\n") + 1 :] + more[:80])

    def is_next(self, row: Any) -> bool:
        """Whether a row of this number may follow."""
        return row == self.first + self.tally.rows

    def next_row(self) -> str:
        """The row that may follow, in words."""
        return grammar.a_row(self.first + self.tally.rows)

    def row_of(self, text: bytes) -> Run:
        """The row whose head, without its first word, and lines this is."""
        match = grammar.ROW_HEAD.match(text)
        head = None if match is None else row_head(match)
        tally = self.tally
        if match is None or head is None or not self.is_next(head.row):
            raise BadReport(self.line_number, self.next_row(), b"row " + first_line(text))
        body = text[match.end() :]
        run = Run(head, body, self.line_number)
        tally.add(head)
        self.line_number += 1 + body.count(b"\n")
        return run

    def lone_run(self, kept: bytes) -> Run:
        """The one run that follows a head of the base run."""
        text = self.rest(kept)
        line, _, body = text.partition(b"\n")
        head = base_head(line)
        if head is None and (b"\n" in text or not CUT_LINE.fullmatch(text)):
            raise BadReport(1, grammar.A_FIRST_LINE, line)
        if not text.endswith(b"\n"):
            raise CutOff(1 + text.count(b"\n"), "a line feed at the line's end", None)
        assert head is not None
        return with_state(Run(head, body, 1))

    def rest(self, kept: bytes) -> bytes:
        parts = [kept]
        while True:
            more = self.read()
            if not more:
                return b"".join(parts)
            self.refuse_long_line(parts[-1], more)
            parts.append(more)

    def last_part(self, text: bytes) -> Iterator[Run]:
        """The last row, if there is one, and the total line."""
        at = 0 if text.startswith(b"total ") else text.find(TOTAL_LINE) + 1
        row, total = text[:at], text[at:]
        if total.startswith(b"total "):
            if row:
                yield self.row_of(row[4:])
            self.check_total(total)
        elif self.tally.rows == 0 and text.endswith(b"\n"):
            yield with_state(self.row_of(text[4:]))
        else:
            self.cut_off(text)

    def cut_off(self, row: bytes) -> None:
        """A report without its total line. Its last row may lack lines too, so it isn't taken."""
        *lines, cut_line = row.split(b"\n")
        if cut_line and not CUT_LINE.fullmatch(cut_line):
            raise BadReport(self.line_number + row.count(b"\n"), AFTER_A_HEAD, cut_line)
        if lines:
            match = grammar.ROW_HEAD.match(lines[0], 4)
            head = None if match is None else row_head(match)
            if head is None or not self.is_next(head.row):
                raise BadReport(self.line_number, self.next_row(), lines[0])
            Run(head, b"".join(it + b"\n" for it in lines[1:]), self.line_number).lines()
        self.is_cut_off = True
        if not self.partial:
            at = self.line_number + row.count(b"\n")
            raise CutOff(at, "the next line, up to the total line", self.tally.rows)

    def check_total(self, total: bytes) -> None:
        line, feed, after = total.partition(b"\n")
        if after:
            raise BadReport(self.line_number + 1, "nothing after the total line", first_line(after))
        if not feed and CUT_LINE.fullmatch(line):
            self.is_cut_off = True
            if not self.partial:
                raise CutOff(self.line_number, grammar.A_TOTAL, self.tally.rows)
        elif line.decode("ascii", "replace") != self.tally.text():
            raise BadReport(self.line_number, f"`{self.tally.text()}`, as the rows are", line)
        else:
            self.total = self.tally


class ViewReader(Reader):
    """The rows of a report from which some are left out (`--only`), or of a shard: their numbers rise, and the total line counts all."""

    def __init__(self, stream: Any, partial: bool = False, progress: Optional[Progress] = None) -> None:
        super().__init__(stream, partial, progress)
        self.last_row: Optional[int] = -1

    def row_of(self, text: bytes) -> Run:
        run = super().row_of(text)
        self.last_row = run.head.row
        return run

    def is_next(self, row: Any) -> bool:
        return row > self.last_row

    def next_row(self) -> str:
        return f"`row N at STEP HANDLER: VERDICT in N steps, E ticks` with a number above {self.last_row}"

    def check_total(self, total: bytes) -> None:
        line, feed, after = total.partition(b"\n")
        self.total = tally_of(line) if feed and not after else None
        if self.total is None:
            super().check_total(total)

    def contradiction(self) -> Optional[str]:
        """Why the rows aren't those of a view, which has all rows of an end or none; None if they may be."""
        total = self.total
        if total is None:
            return None
        for kind, count in total.by_kind.items():
            if self.tally.by_kind[kind] not in (0, count):
                return f"it has {counted(self.tally.by_kind[kind], 'row')} that end with `{kind}`, and its total line counts {count}"
        is_whole = self.tally.by_kind == total.by_kind
        if is_whole and self.tally.not_reached != total.not_reached:
            return f"it has {counted(self.tally.not_reached, 'row')} that are not reached, and its total line counts {total.not_reached}"
        return None


def lone_run_of(reader: Iterable[Run]) -> Optional[Run]:
    """The one run whose report a text is; None if it is a report of something else."""
    try:
        runs = list(reader)
    except Fault:
        return None
    return runs[0] if len(runs) == 1 else None


def with_state(run: Run) -> Run:
    """A lone run, with the lines of its state apart from those of the run."""
    body, state = end_state.parted(run.text, run.line_number + 1)
    return run._replace(text=body, state=state)


def whole_rows(kept: bytes) -> Tuple[List[bytes], bytes]:
    """The rows whose end is there, without their first word and their last line feed; and what follows them."""
    if not kept.startswith(NEXT_ROW):
        return [], kept
    _, *rows, last = kept.split(NEXT_ROW)
    return rows, NEXT_ROW + last


def first_line(text: bytes) -> bytes:
    return text.partition(b"\n")[0]


@functools.lru_cache(maxsize=1 << 12)
def verdict_of(words: bytes) -> Verdict:
    text = words.decode()
    return Verdict(text, text.split(" ", 1)[0])


def base_head(line: bytes) -> Optional[Head]:
    match = grammar.BASE_HEAD.fullmatch(line)
    if match is None:
        return None
    verdict, steps, ticks = match.groups()
    return Head(None, None, True, verdict_of(verdict), int(steps), int(ticks))


@functools.lru_cache(maxsize=1 << 6)
def name_of(handler: bytes) -> str:
    return handler.decode()


@functools.lru_cache(maxsize=1 << 14)
def end_of_head(words: bytes) -> Optional[Tuple[bool, Verdict, int, int]]:
    """Whether the point is reached, the verdict, the steps and the ticks; None if the words are no end of a head."""
    match = grammar.END_OF_ROW_HEAD.fullmatch(words)
    if match is None:
        return None
    missed, verdict, steps, ticks = match.groups()
    return missed is None, verdict_of(verdict), int(steps), int(ticks)


def row_head(match: Match[bytes]) -> Optional[Head]:
    """The head of a row; None if its words are no end of a head, or if the steps of its injections fall."""
    row, step, handler, more, words = match.groups()
    end = end_of_head(words)
    if end is None:
        return None
    point = Point((Injection(int(step), name_of(handler)),))
    if more:
        point = Point((*point, *further_injections(more)))
        if any(later.step < it.step for it, later in zip(point, point[1:])):
            return None
    is_reached, verdict, steps, ticks = end
    return Head(int(row), point, is_reached, verdict, steps, ticks)


def further_injections(words: bytes) -> List[Injection]:
    """The injections after the first one."""
    parts = words.split()
    return [Injection(int(step), name_of(handler)) for step, handler in zip(parts[::2], parts[1::2])]


def parts_of_rows(stream: Any) -> Iterator[bytes]:
    """The texts of the rows, each without its first word, unchecked: for a quick look. A last row that may be cut off, since no
    line of totals follows, is left out, unless it is the only one."""
    kept, is_alone = b"\n", True
    while True:
        more = stream.read(BLOCK)
        rows, kept = whole_rows(kept + more)
        yield from rows
        is_alone = is_alone and not rows
        if not more:
            break
    row, total, _ = kept.partition(TOTAL_LINE)
    if row.startswith(NEXT_ROW) and (total or is_alone and row.endswith(b"\n")):
        yield row[len(NEXT_ROW) :].rstrip(b"\n")


def run_of_part(part: bytes) -> Optional[Run]:
    """The run of such a text; None if it has none. The number of its line isn't known."""
    match = grammar.ROW_HEAD.match(part + b"\n")
    head = None if match is None else row_head(match)
    if match is None or head is None:
        return None
    return with_state(Run(head, part[match.end() :] + b"\n" * (match.end() <= len(part)), 0))
