"""What ends a command early: each fault has its status and what it says."""
from typing import Optional

from .escaping import plain

STATUS_WORDS = 2
STATUS_REPORT = 3
STATUS_OUTPUT = 5
# As a shell shows a program that SIGPIPE ended.
STATUS_READER_LEFT = 141
SHOWN_BYTES = 60


class Fault(Exception):
    """A reason to end, printed in one line on standard error."""

    status = STATUS_REPORT


class WordsFault(Fault):
    """What the command line asks for isn't there."""

    status = STATUS_WORDS


class OutputFault(Fault):
    """The output can't be written."""

    status = STATUS_OUTPUT


class ProgramFault(Fault):
    """The program that should make the report failed, and has said why; of a file that it refuses there is more to say."""

    def __init__(self, status: int, file: str) -> None:
        super().__init__(f"rtosim-check {file} explains it" if status == STATUS_REPORT else "")
        self.status = status


class BadReport(Fault):
    """A text that is no report: a line of it, what was expected there, and what is there."""

    def __init__(self, line_number: int, expected: str, found: Optional[bytes]) -> None:
        super().__init__(f"line {line_number}: expected {expected}, found {quoted(found)}")
        self.line_number = line_number


class CutOff(Fault):
    """A report that ends too early."""

    def __init__(self, line_number: int, expected: str, rows: Optional[int]) -> None:
        note = "" if rows is None else f" ({counted(rows, 'whole row')}; --partial takes them)"
        super().__init__(f"line {line_number}: the report is cut off: expected {expected}, found its end{note}")
        self.line_number = line_number


def counted(number: int, noun: str) -> str:
    """As `1 row`, `2,000 rows`."""
    return f"{number:,} {noun}" + ("" if number == 1 else "es" if noun.endswith("ss") else "s")


def quoted(found: Optional[bytes]) -> str:
    """The beginning of a line, fit for a terminal."""
    if found is None:
        return "the end"
    text = found[:SHOWN_BYTES].decode("utf-8", "backslashreplace")
    return f"`{plain(text)}`" + (" .." if len(found) > SHOWN_BYTES else "")
