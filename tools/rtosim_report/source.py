"""What a report is read from: a file, standard input, or the program. It can be read again and again, from its beginning.

What can't be read twice, such as a pipe, is copied to a file without a name in the folder for temporary files."""
from __future__ import annotations

import io
import os
import re
import subprocess
import sys
import tempfile
from typing import Any, Iterator, List, Optional, Sequence, Tuple

from . import temporary
from .escaping import plain, shell_word
from .faults import Fault, ProgramFault
from .output import Progress
from .reading import NEXT_ROW, Reader, Run, ViewReader, parts_of_rows, tally_of

ROOT = os.path.dirname(os.path.dirname(os.path.dirname(os.path.realpath(__file__))))
PROGRAM = os.path.join(ROOT, "bin", "rtosim")
# Of the program's statuses: all passes, or something doesn't; a report was written in both cases.
STATUSES_OF_REPORTS = (0, 1)
BLOCK = 1 << 17
# A line of totals, and a head, have no more bytes.
LONGEST_TOTAL = 200
# The end of the head of a run that has steps.
HAS_STEPS = re.compile(rb" in [1-9][0-9]* steps, ")
FIRST_ROW = re.compile(rb"row ([0-9]{1,7}) at ")


class Source:
    """A report that can be read several times."""

    def __init__(self, stream: Any, partial: bool = False) -> None:
        self.stream, self.partial = stream, partial
        self.size = stream.seek(0, os.SEEK_END)
        self.known: Optional[Tuple[int, bool]] = None
        self.is_of_heads = False

    def reader(self) -> Reader:
        """A reader of all runs: of a report whose total line counts more rows than it has, one of a view of it."""
        first, lacks_rows = self.numbering()
        self.stream.seek(0)
        if lacks_rows:
            return ViewReader(self.stream, self.partial, Progress(self.size))
        return Reader(self.stream, self.partial, Progress(self.size), first)

    def numbering(self) -> Tuple[int, bool]:
        """The number of the first row, and whether rows are left out; of what isn't a whole report these are 0 and False."""
        if self.known is None:
            self.known = 0, False
            self.stream.seek(max(0, self.size - LONGEST_TOTAL))
            total = tally_of(self.stream.read().rstrip(b"\n").rpartition(b"\n")[2])
            first = FIRST_ROW.match(self.beginning(LONGEST_TOTAL))
            if total is not None and (first or not total.rows):
                rows = self.count_rows()
                self.known = (int(first[1]) if first and rows == total.rows else 0), rows < total.rows
            elif total is not None and total.rows and self.beginning(6) == b"total ":
                self.known = 0, True
        return self.known

    def has_heads_alone(self) -> bool:
        """Whether no row has a line, though one has steps. A run without a call and a change of the processor is none that anyone injects
        handlers into."""
        self.numbering()
        return self.is_of_heads

    def count_rows(self) -> int:
        """How many lines begin as the head of a row does."""
        self.stream.seek(0)
        rows, lines, kept, has_steps = 0, 0, b"\n", False
        while True:
            block = self.stream.read(BLOCK)
            if not block:
                break
            rows += (kept + block).count(NEXT_ROW)
            lines += block.count(b"\n")
            has_steps = has_steps or lines <= rows + 1 and HAS_STEPS.search(block) is not None
            kept = block[-len(NEXT_ROW) + 1 :]
        self.is_of_heads = has_steps and lines == rows + 1
        return rows

    def parts(self) -> Iterator[bytes]:
        """The texts of the rows, unchecked."""
        self.stream.seek(0)
        return parts_of_rows(self.stream)

    def beginning(self, size: int) -> bytes:
        self.stream.seek(0)
        return self.stream.read(size)


def file_source(name: str, partial: bool = False) -> Source:
    try:
        return Source(seekable(open(name, "rb")), partial)
    except OSError as why:
        raise Fault(f"cannot read {plain(name)}: {why.strerror}") from None


def standard_input(partial: bool = False) -> Source:
    try:
        return Source(seekable(sys.stdin.buffer), partial)
    except (OSError, AttributeError) as why:
        raise Fault(f"cannot read standard input: {getattr(why, 'strerror', None) or 'it is closed'}") from None


def seekable(stream: Any) -> Any:
    """The stream, or a copy of it that can be read again, in the folder for temporary files."""
    try:
        if stream.seekable() and stream.tell() == 0:
            return stream
    except OSError:
        pass
    with temporary.room():
        copy = tempfile.TemporaryFile()
    while True:
        block = stream.read(BLOCK)
        if not block:
            return copy
        with temporary.room():
            copy.write(block)
            copy.flush()


class ProgramStream:
    """What the program writes when it is called with these words, as it comes. Its end is that of a report, or a fault."""

    def __init__(self, words: Sequence[str]) -> None:
        self.file = words[1]
        try:
            self.started = subprocess.Popen([PROGRAM, *words], stdin=subprocess.DEVNULL, stdout=subprocess.PIPE)
            self.stdout: Any = self.started.stdout
        except OSError as why:
            raise Fault(f"cannot run {plain(PROGRAM)}: {why.strerror}") from None

    def read(self, size: int) -> bytes:
        block = self.stdout.read(size)
        if not block:
            status = self.started.wait()
            if status not in STATUSES_OF_REPORTS:
                raise ProgramFault(status if status > 0 else 70, shell_word(self.file))
        return block

    def close(self) -> None:
        """Ends the program, if it hasn't ended."""
        if self.started.poll() is None:
            self.started.kill()
            self.started.wait()
        self.stdout.close()


class ProgramReader(ViewReader):
    """The rows that the program writes. It is read once."""

    def __init__(self, words: Sequence[str]) -> None:
        super().__init__(ProgramStream(words))

    def __iter__(self) -> Iterator[Run]:
        try:
            yield from super().__iter__()
        finally:
            self.stream.close()


def program_reader(*words: str) -> ProgramReader:
    return ProgramReader(words)


def lone_reader(*words: str) -> List[Run]:
    """The one run that the program writes; all of it is read."""
    return list(ProgramReader(words))


def state_source(application: str, words: Sequence[str]) -> Optional[Source]:
    """The run of the point that these words name, with the state at its end; None if the program writes none. It has made a report before, so
    what it says of words that it doesn't know is kept from standard error."""
    try:
        streams: Any = {"stdout": subprocess.PIPE, "stderr": subprocess.DEVNULL}
        ran = subprocess.run([PROGRAM, "run", application, *words, "--state"], check=False, **streams)
    except OSError:
        return None
    return Source(io.BytesIO(ran.stdout)) if ran.returncode in STATUSES_OF_REPORTS and ran.stdout else None
