"""Failures that are known: a file of their names, a line each, with the number of rows that each may have. A line that begins with `#` is
none."""
import re
import sys
from typing import Any, Dict, Iterable, List, NamedTuple, Optional

from .escaping import plain
from .faults import Fault, counted

ROWS_OF_A_NAME = re.compile(r"([0-9][0-9,]*) rows?: (.*)")


class Failure(NamedTuple):
    """A class that fails: its name, and how many rows it has. The base run of a file without points has none."""

    name: str
    rows: Optional[int] = None

    def line(self) -> str:
        """As a file of known failures has it."""
        return self.name if self.rows is None else f"{counted(self.rows, 'row')}: {self.name}"


def failures_of(classes: Iterable[Any]) -> List[Failure]:
    """Those of the classes that fail."""
    return [Failure(it.name, it.rows) for it in classes if not it.verdict.passes]


class Known:
    """The names of a file, each with the most rows that it may have; None is any number."""

    def __init__(self, lines: Iterable[str] = ()) -> None:
        self.most: Dict[str, Optional[int]] = {}
        for line in lines:
            numbered = ROWS_OF_A_NAME.fullmatch(line)
            name = numbered[2] if numbered else line
            self.most[name] = int(numbered[1].replace(",", "")) if numbered else None

    def why_not(self, failure: Failure) -> Optional[str]:
        """Why a failure isn't accepted; None if it is."""
        if failure.name not in self.most:
            return failure.line()
        most = self.most[failure.name]
        if most is None or failure.rows is None or failure.rows <= most:
            return None
        return f"{failure.line()} (accepted are {most:,})"

    def accepts(self, failure: Failure) -> bool:
        return self.why_not(failure) is None

    def fewer(self, failures: Iterable[Failure]) -> int:
        """How many names are of fewer rows than they may have."""
        rows_and_most = ((it.rows, self.most.get(it.name)) for it in failures)
        return sum(rows is not None and most is not None and rows < most for rows, most in rows_and_most)


def read_names(file: str) -> Known:
    try:
        with open(file, encoding="utf-8") as it:
            lines = [line.strip() for line in it]
    except OSError as why:
        raise Fault(f"cannot read {plain(file)}: {why.strerror}") from None
    except UnicodeDecodeError as why:
        line = why.object.count(b"\n", 0, why.start) + 1
        raise Fault(f"{plain(file)}: line {line}: expected a name in UTF-8") from None
    return Known(it for it in lines if it and not it.startswith("#"))


def judged(failing: List[Failure], known: Known) -> int:
    """The status: 1 if something fails that isn't accepted. Each of these failures is named. So is the number of accepted names of which nothing
    fails, or fewer rows do."""
    reasons = [why for why in map(known.why_not, failing) if why is not None]
    for why in reasons:
        print(f"rtosim-report: not accepted: {plain(why)}", file=sys.stderr)
    gone = len(known.most.keys() - {it.name for it in failing})
    if gone:
        print(f"rtosim-report: {counted(gone, 'accepted name')} of nothing that fails", file=sys.stderr)
    fewer = known.fewer(failing)
    if fewer:
        print(f"rtosim-report: {counted(fewer, 'accepted name')} of fewer rows than accepted", file=sys.stderr)
    return 1 if reasons else 0
