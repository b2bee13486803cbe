"""The words of the command line, and the status."""
from __future__ import annotations

import argparse
import os
import sys
from typing import Any, Optional, Sequence

from rtosim_report.escaping import plain
from rtosim_report.faults import STATUS_OUTPUT, STATUS_READER_LEFT, Fault
from rtosim_report.output import ReaderLeft, standard_output
from rtosim_report.source import PROGRAM

from .checking import check
from .findings import Checked, FAULT, WARNING
from .program import Program
from .writing import FORMATS

DESCRIPTION = "Checks application files for rtosim: the program's fault, its place and what was meant, and what the program ignores."
STATUS_FOUND, STATUS_NOT_CHECKED = 1, 3


def parsed(words: Optional[Sequence[str]]) -> argparse.Namespace:
    parser = argparse.ArgumentParser(prog="rtosim-check", description=DESCRIPTION)
    parser.add_argument("files", nargs="+", metavar="FILE", help="an application file")
    parser.add_argument("--strict", action="store_true", help="end with 1 if there are warnings")
    parser.add_argument("--format", choices=FORMATS, default="text", help="what is written (text)")
    parser.add_argument("--color", choices=("auto", "always", "never"), default="auto", help="colours: on a terminal (auto)")
    parser.add_argument("--program", default=PROGRAM, metavar="PATH", help="another program than bin/rtosim")
    return parser.parse_intermixed_args(words)


def wants_colours(choice: str) -> bool:
    if choice != "auto":
        return choice == "always"
    is_terminal = sys.stdout is not None and sys.stdout.isatty()
    return is_terminal and not os.environ.get("NO_COLOR") and os.environ.get("TERM") != "dumb"


def status_of(checked: Checked, is_strict: bool) -> int:
    if not checked.could_be_checked:
        return STATUS_NOT_CHECKED
    return STATUS_FOUND if checked.count(FAULT) or is_strict and checked.count(WARNING) else 0


def check_all(found: argparse.Namespace) -> int:
    """Checks the files, writes what is found, and returns the status."""
    program, status = Program(found.program), 0
    program.is_there()
    with standard_output() as output:
        writer: Any = FORMATS[found.format](wants_colours(found.color))
        for name in found.files:
            checked = check(name, program)
            writer.write(output, checked)
            status = max(status, status_of(checked, found.strict))
        writer.end(output)
    return status


def main(words: Optional[Sequence[str]] = None) -> int:
    """Does what the words ask for, and returns the status."""
    try:
        return check_all(parsed(words))
    except ReaderLeft:
        return STATUS_READER_LEFT
    except Fault as fault:
        print(f"rtosim-check: {plain(str(fault))}", file=sys.stderr)
        return fault.status
    except OSError as why:
        print(f"rtosim-check: cannot go on: {plain(str(why))}", file=sys.stderr)
        return STATUS_OUTPUT
    except KeyboardInterrupt:
        return 130
