"""The report of an application, which the program makes. It is asked for the least that is needed: heads first, then the rows that are read
whole, in pieces. What it writes is read as it comes, and nothing of it is kept on disk."""
import bisect
from array import array
from typing import Dict, Iterator, List, NamedTuple, Optional, Sequence, Tuple

from .base_run import BaseRun, given_base
from .faults import WordsFault, counted
from .reading import Run, Tally
from .report import Head
from .source import ProgramReader, lone_reader, program_reader

# So many bytes of rows the program makes at once, which it keeps until all of them are made.
PIECE = 48 << 20
# So many bytes of rows are read whole: of rows that fail, little of which is examined, and of rows that pass, which are read line by line.
MOST_OF_FAILING, MOST_OF_PASSING = 1 << 30, 128 << 20
# How many bytes are read in a second, and from how many on it is said beforehand.
BYTES_A_SECOND = {True: 8 << 20, False: 60 << 20}
WORTH_A_WORD = 64 << 20
ONLY = {True: "pass", False: "failing"}
PASSING, FAILING = True, False


class Survey:
    """What the heads of a campaign show: how many rows there are, and the numbers and the steps of those that were looked at, with those
    that pass or without."""

    def __init__(self, has_passing: bool = True) -> None:
        self.has_passing = has_passing
        self.total = Tally()
        self.rows: Dict[bool, array] = {PASSING: array("L"), FAILING: array("L")}
        self.steps: Dict[bool, array] = {PASSING: array("L"), FAILING: array("L")}

    def add(self, head: Head) -> None:
        self.rows[head.verdict.passes].append(head.row)
        self.steps[head.verdict.passes].append(head.steps)

    def size(self, passes: bool, base: BaseRun) -> int:
        """About how many bytes the rows have that pass, or that fail."""
        return int(sum(self.steps[passes]) * bytes_of_a_step(base)) + 80 * len(self.rows[passes])


def bytes_of_a_step(base: BaseRun) -> float:
    return (len(base.text) + 1) / max(1, base.head.steps if base.head else 0)


class Plan(NamedTuple):
    """Which rows are read whole: those that pass, those that fail."""

    passing: bool
    failing: bool

    def reads(self, passes: bool) -> bool:
        return self.passing if passes else self.failing


class MadeReport:
    """The campaign of an application, and its base run."""

    def __init__(self, application: str, workers: Optional[str] = None, reads_all: bool = False) -> None:
        self.application, self.reads_all = application, reads_all
        self.more = [] if workers is None else ["--workers", workers]
        self.known_base: Optional[BaseRun] = None
        # Whether a row of several injections was seen.
        self.has_several = False
        self.surveyed: Optional[Survey] = None

    def campaign(self, *words: str) -> ProgramReader:
        return program_reader("campaign", self.application, *self.more, *words)

    def base(self) -> BaseRun:
        if self.known_base is None:
            self.known_base = given_base(lone_reader("run", self.application))
        return self.known_base

    def survey(self, with_passing: bool) -> Survey:
        """The heads, or those of rows that fail alone. It is made once."""
        if self.surveyed is not None and (self.surveyed.has_passing or not with_passing):
            return self.surveyed
        found = Survey(with_passing)
        reader = self.campaign(*([] if with_passing else ["--only", "failing"]), "--heads")
        for run in reader:
            found.add(run.head)
            self.has_several = self.has_several or is_of_several(run.head)
        found.total = reader.total or reader.tally
        self.surveyed = found
        return found

    def plan(self, wants_passing: bool, survey: Survey) -> Plan:
        """What is read whole: what is wanted, unless it is too large."""
        passing = survey.size(PASSING, self.base()) if wants_passing else 0
        is_small = self.reads_all or passing <= MOST_OF_PASSING
        failing = survey.size(FAILING, self.base())
        return Plan(wants_passing and is_small, self.reads_all or failing <= MOST_OF_FAILING)

    def needs(self, plan: Plan, survey: Survey, wants_passing: bool) -> List[str]:
        """What is read, and what isn't since it is too large, if that is much."""
        sizes = {it: survey.size(it, self.base()) for it in (PASSING, FAILING)}
        found = []
        for passes, word in ((FAILING, "fail"), *([(PASSING, "pass")] if wants_passing else [])):
            if survey.rows[passes] and sizes[passes] > WORTH_A_WORD:
                seconds = counted(max(1, sizes[passes] // BYTES_A_SECOND[passes]), "second")
                rows = f"{counted(len(survey.rows[passes]), 'row')} that {word}: some {amount(sizes[passes])}"
                how = f"read in some {seconds}" if plan.reads(passes) else f"classed by their heads; --whole reads them, in some {seconds}"
                found.append(f"{rows}, {how}")
        return found

    def need_of_all(self, survey: Survey) -> Optional[str]:
        """What it takes to read all rows whole, if that is much."""
        size = sum(survey.size(it, self.base()) for it in (PASSING, FAILING))
        if size <= WORTH_A_WORD:
            return None
        return f"{counted(survey.total.rows, 'row')}: some {amount(size)}, read in some {counted(size // BYTES_A_SECOND[PASSING] + 1, 'second')}"

    def whole(self, passes: Optional[bool], survey: Survey) -> Iterator[Run]:
        """The rows that pass, those that fail, or all, whole and in order."""
        kinds = [passes] if passes is not None else [PASSING, FAILING]
        only = [] if passes is None else ["--only", ONLY[passes]]
        if not any(survey.rows[it] for it in kinds):
            return
        for shard in self.pieces(kinds, survey):
            yield from self.campaign(*only, *shard)

    def pieces(self, kinds: Sequence[bool], survey: Survey) -> List[List[str]]:
        """The words for the shards that have such rows, each with few enough bytes."""
        rows = survey.total.rows
        size = bytes_of_a_step(self.base())
        sizes = sorted((row, steps * size + 80) for it in kinds for row, steps in zip(survey.rows[it], survey.steps[it]))
        shards = 1
        while True:
            filled = filled_shards(sizes, shards, rows)
            if max(filled.values()) <= PIECE or shards >= rows:
                return [["--shard", f"{it}/{shards}"] if shards > 1 else [] for it in sorted(filled)]
            shards = min(2 * shards, rows)

    def runs(self, plan: Plan, survey: Survey) -> Iterator[Run]:
        """All rows in order, whole or as heads."""
        if plan.passing and plan.failing:
            yield from self.whole(None, survey)
            return
        whole = {it: self.whole(it, survey) for it in (PASSING, FAILING)}
        for run in self.campaign("--heads"):
            passes = run.head.verdict.passes
            yield next(whole[passes]) if plan.reads(passes) else run

    def row(self, number: int) -> Run:
        """One row, whole."""
        total = (self.surveyed or self.survey(False)).total
        if not 0 <= number < total.rows:
            raise WordsFault(f"there is no row {number}: the report has {counted(total.rows, 'row')}")
        found = list(self.campaign("--shard", f"{number + 1}/{total.rows}"))[0]
        self.has_several = self.has_several or is_of_several(found.head)
        return found


def is_of_several(head: Head) -> bool:
    """Whether a row's point has several injections."""
    return head.point is not None and not head.point.is_single


def filled_shards(sizes: Sequence[Tuple[int, float]], shards: int, rows: int) -> Dict[int, float]:
    """How many bytes each shard has that has any, by its number from 1."""
    ends = [number * rows // shards for number in range(1, shards + 1)] if shards < rows else range(1, rows + 1)
    found: Dict[int, float] = {}
    for row, size in sizes:
        number = bisect.bisect_right(ends, row) + 1
        found[number] = found.get(number, 0) + size
    return found


def amount(size: float) -> str:
    """A number of bytes for people."""
    return f"{size / 1e9:,.1f} GB" if size >= 1e9 else f"{max(1, size // 1_000_000):,} MB"
