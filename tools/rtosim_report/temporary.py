"""The folder for temporary files: if it has no room, that is the fault that is reported."""
import contextlib
import os
import tempfile
from typing import Iterator

from .escaping import plain
from .faults import OutputFault


def fault(why: object) -> OutputFault:
    """The fault of the folder, by its name."""
    try:
        folder = tempfile.gettempdir()
    except OSError:
        folder = os.environ.get("TMPDIR", "")
    return OutputFault(f"no room in the folder for temporary files, {plain(folder)}: {why}; TMPDIR names another")


@contextlib.contextmanager
def room() -> Iterator[None]:
    """Around what is written there."""
    try:
        yield
    except OSError as why:
        raise fault(why.strerror) from None
