"""How the commands in Python end."""
import os
import sys
from typing import Callable, NoReturn

from .faults import STATUS_OUTPUT, STATUS_READER_LEFT


def launch(main: Callable[[], int]) -> NoReturn:
    """Ends with the status that a command returns. If its output can't be written, Python doesn't try again as it ends."""
    # (a command says itself what is ignored of a file)
    os.environ["RTOSIM_WARNINGS"] = "no"
    status = main()
    try:
        sys.stdout.flush()
    except (OSError, AttributeError):
        pass
    if status in (STATUS_OUTPUT, STATUS_READER_LEFT):
        os._exit(status)
    sys.exit(status)
