"""The base run beside which rows are seen: given by its own report, by a row that isn't reached, or presumed.

A campaign's report need not have the base run. Then each row has it up to its step, and what the rows agree on, except for their handlers'
lines, is taken for the rest. If they agree on nothing, it is known up to the last of these steps."""
from __future__ import annotations

import bisect
import enum
import hashlib
from dataclasses import dataclass, field
from itertools import islice
from typing import Any, Dict, List, Optional, Tuple, Union

from .causes import failed_calls, has_failed
from .faults import BadReport, Fault, WordsFault
from .grammar import EVENT_LINES
from .injections import own_stretches, own_words, without
from .reading import Reader, Run, run_of_part
from .report import Injection, Line, TICK
from .source import Source

# So many rows are looked at to presume the base run.
ENOUGH = 20_000
# A head line has no more bytes.
HEAD_BYTES = 200


class Origin(enum.Enum):
    """How the base run is known."""

    GIVEN = "given"
    TOLD = "in the report"
    PRESUMED = "presumed: what most rows have but for their handlers' lines; --base or --application gives it"
    PART = "--base or --application gives the rest"


@dataclass
class BaseRun:
    """The lines of the base run, with the places of their steps. It has no head if only a part of it is known."""

    head: Any
    lines: List[Line]
    origin: Origin
    known_until: int
    text: bytes = b""
    state: bytes = b""
    steps: List[int] = field(default_factory=list)
    offsets: List[int] = field(default_factory=list)
    places: Dict[int, Tuple[int, int]] = field(default_factory=dict)
    # The handlers' calls that failed, and the numbers of their lines.
    failed: List[bytes] = field(default_factory=list)
    failed_at: List[int] = field(default_factory=list)

    def __post_init__(self) -> None:
        self.failed_at = [at for at, (_, _, what) in enumerate(self.lines) if what.startswith(b"isr ") and has_failed(what)]
        self.failed = [self.lines[at][2] for at in self.failed_at]
        self.steps = [int(it[0]) for it in self.lines]
        texts = texts_of(self.lines)
        self.text = b"".join(texts)
        self.offsets = [0]
        for it in texts:
            self.offsets.append(self.offsets[-1] + len(it))

    def run(self) -> Run:
        """Itself as a run of a report, whose place there isn't known."""
        return Run(self.head, self.text, 0, self.state)

    def failed_from(self, position: int) -> List[bytes]:
        """The handlers' calls that failed from this line on."""
        return self.failed[bisect.bisect_left(self.failed_at, position) :]

    def position(self, step: int) -> int:
        """How many lines come before this step."""
        return bisect.bisect_left(self.steps, step)

    def place(self, step: int) -> Tuple[int, int]:
        """How many lines, and how many bytes, come before this step."""
        found = self.places.get(step)
        if found is None:
            position = self.position(step)
            found = self.places[step] = position, self.offsets[position]
        return found


def texts_of(lines: List[Line]) -> List[bytes]:
    return [b" ".join(it) + b"\n" for it in lines]


def base_of(run: Run, origin: Origin) -> BaseRun:
    return BaseRun(run.head, run.checked_lines(), origin, run.head.steps, state=run.state)


def given_base(reader: Union[List[Run], Reader], origin: Origin = Origin.GIVEN) -> BaseRun:
    """The base run of a report of its own."""
    for run in reader:
        if run.head.is_base():
            return base_of(run, origin)
    raise WordsFault("the report that --base names does not have the base run")


@dataclass
class Scan:
    """What a look at the heads finds: a row that is the base run, the row of the latest point, and all steps of points."""

    base: bytes = b""
    latest: bytes = b""
    last_step: int = -1
    seen: bytearray = field(default_factory=bytearray)

    def add(self, part: bytes) -> None:
        """Looks at the text of a row. It isn't checked here."""
        end = part.find(b": ")
        words = part[: max(0, end)].split(b" ", 3)
        if len(words) < 4 or not words[2].isdigit() or len(words[2]) > 7:
            return
        if part.startswith(b"not reached, ", end + 2):
            self.base = self.base or part
            return
        step = int(words[2])
        if step >= self.last_step:
            self.latest = part
            self.seen.extend(bytes(step - self.last_step))
            self.last_step = step
        self.seen[step] = 1


def find_base(source: Source) -> BaseRun:
    """The base run as far as the report has it, or None of a report without rows. A report with a fault, which may be found
    in the rows that are looked at here, is checked from its beginning, so that its first fault is reported."""
    try:
        return seek_base(source)
    except Fault:
        for run in source.reader():
            run.checked_lines()
        raise


def seek_base(source: Source) -> Any:
    first = source.beginning(6)
    if first.startswith(b"base: "):
        return given_base(source.reader(), Origin.TOLD)
    scan = Scan()
    for part in source.parts():
        scan.add(part)
        if scan.base:
            return base_of(checked_run(scan.base), Origin.TOLD)
    if not scan.latest:
        return None
    latest = checked_run(scan.latest)
    lines = [it for it in latest.checked_lines() if int(it[0]) < scan.last_step]
    known = BaseRun(None, lines, Origin.PART, scan.last_step)
    lacks_rows = source.numbering() != (0, False)
    return known if lacks_rows else presumed_base(source, known, all(scan.seen)) or known


def checked_run(part: bytes) -> Run:
    run = run_of_part(part)
    if run is None:
        raise BadReport(0, "a row", part)
    return run


def own_bytes(text: bytes, injection: Injection) -> int:
    """How many bytes at the beginning are lines of the injected handler."""
    own, at = own_words(injection.handler), 0
    when = [str(injection.step).encode(), *text[:40].split(b" ", 2)[1:2]]
    while True:
        end = text.find(b"\n", at)
        words = text[at:end].split(b" ", 2)
        if end < 0 or len(words) < 3 or words[:2] != when or not words[2].startswith(own):
            return at
        at = end + 1


@dataclass
class Candidate:
    """A run that some rows have except for their handlers' lines: how many, and the first of them among the parts of the report."""

    part: int
    rows: int = 0


def without_own(run: Run, start: int) -> bytes:
    """The row's text except for the lines of its handlers, the first of which comes at this byte."""
    point, text = run.head.point, run.text
    own = own_bytes(text[start : start + 4096], point[0]) if point.is_single else 0
    if own:
        return text[:start] + text[start + own :]
    tail = run.lines(start)
    return text[:start] + b"".join(texts_of(without(tail, own_stretches(tail, point))))


def beyond_known(run: Run, known: BaseRun) -> Optional[bytes]:
    """What the row has beyond what is known, except for its handlers' lines; None if it doesn't have what is known."""
    start = known.place(run.head.point.first_step)[1]
    text = without_own(run, start) if run.text[:start] == known.text[:start] else b""
    if not text.startswith(known.text):
        return None
    beyond = text[len(known.text) :]
    is_known = beyond and int(beyond[: beyond.find(b" ")] or b"0") < known.known_until
    return None if is_known else beyond


def injects_tick(run: Run) -> bool:
    """Whether a tick is injected in a row, which shifts the times of all that follows. A handler of this name has lines."""
    if not any(it.handler == TICK for it in run.head.point):
        return False
    has_task = b" run tick\n" in run.text or b" call tick " in run.text
    has_handler = b" isr tick " in run.text or b" mark tick " in run.text and not has_task
    return not has_handler


def presumed_base(source: Source, known: BaseRun, is_covered: bool) -> Optional[BaseRun]:
    """The run that most rows have except for their handlers' lines, if it begins with what is known. If there is a point for each step, the
    base run ends after the last of them. Otherwise one row alone is not enough."""
    last_step = known.known_until
    length = b" in %d steps, " % (last_step + 1)
    candidates: Dict[bytes, Candidate] = {}
    looked_at = 0
    for at, part in enumerate(source.parts()):
        if is_covered and length not in part[:HEAD_BYTES]:
            continue
        run = run_of_part(part)
        if run is None or run.head.steps <= last_step or injects_tick(run):
            continue
        looked_at += 1
        if looked_at > ENOUGH:
            break
        beyond = beyond_known(run, known)
        if beyond is not None:
            key = hashlib.blake2b(run.head.end_text().encode() + b"\n" + beyond, digest_size=16).digest()
            candidates.setdefault(key, Candidate(at)).rows += 1
    best = max(candidates.values(), key=lambda it: it.rows, default=None)
    if best is None or best.rows < 2 and not is_covered:
        return None
    run = checked_run(next(islice(source.parts(), best.part, None)))
    text = without_own(run, known.place(run.head.point.first_step)[1])
    head = run.head._replace(row=None, point=None, is_reached=True)
    return BaseRun(head, run._replace(text=text).lines(), Origin.PRESUMED, head.steps)


def is_base_exactly(run: Run, base: BaseRun) -> bool:
    """A quick look whether the row is the base run, with all numbers, except for the handler's own lines, in which no call fails."""
    head, text = run.head, run.text
    more = len(text) - len(base.text)
    if more < 0 or not head.is_reached or head[3:] != base.head[3:] or not head.point.is_single:
        return False
    start = base.place(head.point.first_step)[1]
    if text[start + more :] != base.text[start:] or text[:start] != base.text[:start]:
        return False
    own = text[start : start + more]
    lines = EVENT_LINES.findall(own)
    return own_bytes(own, head.point[0]) == more and len(lines) == own.count(b"\n") and not failed_calls(lines)


def tail_of_row(run: Run, base: BaseRun) -> Tuple[List[Line], int]:
    """The row's lines from its injection on, and how many of the base run come before it. The lines before it are the same
    in both, so those of a row that isn't reached are all the base run's."""
    step = run.head.point.first_step if run.head.is_reached else run.head.steps
    if base is None or step > base.known_until:
        lines = run.checked_lines()
        position = bisect.bisect_left([int(it[0]) for it in lines], step)
        return lines[position:], position
    position, size = base.place(step)
    tail = run.lines(size) if run.text[:size] == base.text[:size] else None
    if tail is None or tail and int(tail[0][0]) < step:
        run.checked_lines()
        raise BadReport(run.line_number, f"a row that begins as the base run does, up to step {step}", run.head.text().encode())
    if tail or not position:
        run.check_end(tail[-1] if tail else None)
    return tail, position
