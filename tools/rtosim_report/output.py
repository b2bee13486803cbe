"""What is written: all of it or nothing, and progress on a terminal meanwhile."""
from __future__ import annotations

import contextlib
import os
import shutil
import sys
import tempfile
import time
from typing import Any, ContextManager, Iterator, Optional

from . import temporary
from .escaping import plain
from .faults import OutputFault

IN_MEMORY = 1 << 24


class ReaderLeft(Exception):
    """Nobody reads standard output any more."""


@contextlib.contextmanager
def standard_output() -> Iterator[Text]:
    """A file of texts that goes to standard output when all of it is there."""
    with tempfile.SpooledTemporaryFile(IN_MEMORY) as kept:
        yield Text(kept, True)
        with temporary.room():
            kept.seek(0)
        try:
            shutil.copyfileobj(kept, sys.stdout.buffer, 1 << 18)
            sys.stdout.buffer.flush()
        except BrokenPipeError:
            raise ReaderLeft() from None
        except (OSError, AttributeError) as why:
            raise OutputFault(f"cannot write: {getattr(why, 'strerror', None) or 'standard output is closed'}") from None


@contextlib.contextmanager
def direct_output() -> Iterator[Text]:
    """Standard output itself, for what is known to be right before its first byte is written."""
    try:
        yield Text(sys.stdout.buffer)
        sys.stdout.buffer.flush()
    except BrokenPipeError:
        raise ReaderLeft() from None
    except (OSError, AttributeError) as why:
        raise OutputFault(f"cannot write: {getattr(why, 'strerror', None) or 'standard output is closed'}") from None


def output_file(name: str) -> ContextManager[Text]:
    """A file of texts that goes to the file of this name when all of it is there."""
    return output_device(name) if os.path.exists(name) and not os.path.isfile(name) else output_beside(name)


@contextlib.contextmanager
def output_device(name: str) -> Iterator[Text]:
    """For what is there and is no regular file, as a device or a pipe: it is written to, and stays what it is."""
    with tempfile.SpooledTemporaryFile(IN_MEMORY) as kept:
        yield Text(kept, True)
        with temporary.room():
            kept.seek(0)
        try:
            with open(name, "wb") as file:
                shutil.copyfileobj(kept, file, 1 << 18)
        except OSError as why:
            raise OutputFault(f"cannot write {plain(name)}: {why.strerror}") from None


@contextlib.contextmanager
def output_beside(name: str) -> Iterator[Text]:
    """For a regular file, or a name that nothing has yet: it is written beside and renamed."""
    folder = os.path.dirname(os.path.abspath(name))
    beside: Optional[str] = None
    try:
        handle, beside = tempfile.mkstemp(prefix=".rtosim-report-", dir=folder)
        with os.fdopen(handle, "wb") as file:
            yield Text(file)
        os.chmod(beside, 0o666 & ~current_mask())
        os.replace(beside, name)
        beside = None
    except OSError as why:
        raise OutputFault(f"cannot write {plain(name)}: {why.strerror}") from None
    finally:
        if beside is not None:
            with contextlib.suppress(OSError):
                os.unlink(beside)


def current_mask() -> int:
    mask = os.umask(0)
    os.umask(mask)
    return mask


class Text:
    """Texts are gathered and written as UTF-8; bytes of a file's name that are no UTF-8 are spelled out."""

    def __init__(self, file: Any, is_temporary: bool = False) -> None:
        self.file, self.is_temporary = file, is_temporary

    def write(self, text: str) -> None:
        self.write_bytes(text.encode("utf-8", "backslashreplace"))

    def write_bytes(self, text: bytes) -> None:
        try:
            self.file.write(text)
        except OSError as why:
            if not self.is_temporary:
                raise
            raise temporary.fault(why.strerror) from None

    def line(self, text: str = "") -> None:
        self.write(text + "\n")


class Progress:
    """Shows on standard error how much of a report is read, if that is a terminal and it takes longer than a second."""

    def __init__(self, size: int) -> None:
        self.size, self.start, self.shown = size, time.monotonic(), 0.0
        self.is_wanted = sys.stderr is not None and sys.stderr.isatty()

    def show(self, bytes_read: int, rows: int) -> None:
        now = time.monotonic()
        if not self.is_wanted or now - self.start < 1 or now - self.shown < 0.1:
            return
        self.shown = now
        share = 100 * bytes_read // max(1, self.size)
        sys.stderr.write(f"\r\x1b[Krtosim-report: {share}%, {rows:,} rows")
        sys.stderr.flush()

    def end(self) -> None:
        if self.shown:
            sys.stderr.write("\r\x1b[K")
            sys.stderr.flush()
            self.shown = 0.0
