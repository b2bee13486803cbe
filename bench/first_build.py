#!/usr/bin/env python3
"""Times first calls of bin/rtosim in fresh clones of a checkout, as it is committed: the whole program is proved and built.

Prints for each run when the first line of the answer came, when the call ended and how many processor minutes it took; and last the
median and the longest. With --load, so many processes compute beside it, and with --processors it gets so many processors alone. The words
of the call are `campaign examples/lost_wake_up.toml`, and before them --preview-first, or --proved, as for a script.

A run takes 11 to 33 minutes, 3 GB of memory and 1 GB below --folder."""
from __future__ import annotations

import argparse
import contextlib
import os
import resource
import statistics
import subprocess
import sys
import tempfile
import time
from typing import Iterator, List, NamedTuple, Optional, Sequence

HERE = os.path.dirname(os.path.abspath(__file__))
sys.dont_write_bytecode = True
sys.path.insert(0, HERE)
from programs import parser_of

CALL = ("campaign", "examples/lost_wake_up.toml")
# Of the answer: all passes, or some row doesn't.
STATUSES = (0, 1)
COMPUTES = "while True: pass"


class Call(NamedTuple):
    """The seconds to the first line and to the end, and the processor time in seconds."""

    first: float
    whole: float
    processors: float

    def text(self) -> str:
        return f"first line after {self.first:.0f} s, end after {self.whole / 60:.1f} min, {self.processors / 60:.0f} processor minutes"


def clone(checkout: str, folder: str) -> str:
    """A clone of the checkout that shares nothing with it."""
    words = ["git", "clone", "--quiet", "--no-hardlinks", checkout, folder]
    if subprocess.run(words, stdin=subprocess.DEVNULL, check=False).returncode:
        raise SystemExit(f"{checkout} can't be cloned")
    return folder


@contextlib.contextmanager
def load(number: int) -> Iterator[None]:
    """So many processes that compute."""
    started = [subprocess.Popen([sys.executable, "-c", COMPUTES]) for _ in range(number)]
    try:
        yield
    finally:
        for it in started:
            it.kill()


def processor_seconds() -> float:
    """The processor time of what was started and has ended."""
    used = resource.getrusage(resource.RUSAGE_CHILDREN)
    return used.ru_utime + used.ru_stime


def called(folder: str, words: Sequence[str]) -> Call:
    """Calls the program in this clone."""
    before, begin = processor_seconds(), time.perf_counter()
    with subprocess.Popen([f"{folder}/bin/rtosim", *words], cwd=folder, stdin=subprocess.DEVNULL, stdout=subprocess.PIPE) as started:
        assert started.stdout is not None
        line = started.stdout.readline()
        first = time.perf_counter() - begin
        started.stdout.read()
    if not line or started.returncode not in STATUSES:
        raise SystemExit(f"the call ended with status {started.returncode}, so there is nothing to time")
    return Call(first, time.perf_counter() - begin, processor_seconds() - before)


def count(text: str) -> int:
    """A number of runs or of processors."""
    if not text.isdigit() or int(text) == 0:
        raise argparse.ArgumentTypeError(f"{text} is no number from 1 on")
    return int(text)


def options_of(words: Optional[Sequence[str]]) -> argparse.Namespace:
    parser = parser_of(__doc__)
    parser.add_argument("--runs", type=count, default=1, metavar="N", help="how many builds, each in a clone of its own (1)")
    parser.add_argument("--load", type=int, default=0, metavar="N", help="how many processes compute beside it (0)")
    parser.add_argument("--processors", type=count, metavar="N", help="let it use only so many processors")
    parser.add_argument("--preview-first", action="store_true", help="print an answer before the proof")
    parser.add_argument("--folder", metavar="FOLDER", help="where the clones are made (the folder for temporary files)")
    parser.add_argument("checkout", nargs="?", default=os.path.dirname(HERE), metavar="CHECKOUT", help="the checkout (this one)")
    return parser.parse_args(words)


def main(words: Optional[Sequence[str]] = None) -> None:
    options = options_of(words)
    if options.processors is not None:
        os.sched_setaffinity(0, sorted(os.sched_getaffinity(0))[: options.processors])
    taken: List[Call] = []
    for number in range(1, options.runs + 1):
        with tempfile.TemporaryDirectory(dir=options.folder) as folder:
            place = clone(os.path.abspath(options.checkout), os.path.abspath(f"{folder}/clone"))
            with load(options.load):
                taken.append(called(place, ["--preview-first" if options.preview_first else "--proved", *CALL]))
        print(f"run {number}: {taken[-1].text()}", flush=True)
    numbers = list(zip(*taken))
    print(f"median: {Call(*(statistics.median(it) for it in numbers)).text()}")
    print(f"longest: {Call(*(max(it) for it in numbers)).text()}")


if __name__ == "__main__":
    main()
