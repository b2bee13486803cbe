"""What the benchmarks share: the programs that they time, the words for these, and a run that is timed."""
from __future__ import annotations

import argparse
import ctypes
import os
import subprocess
import time
from typing import List, NamedTuple, Optional, Sequence

HERE = os.path.dirname(os.path.abspath(__file__))
PROGRAM = os.path.join(HERE, "..", "crates", "rtosim", "out", "rtosim")
PR_SET_CHILD_SUBREAPER = 36


class Taken(NamedTuple):
    """The wall time and the processor time of a run in seconds, and its peak memory in MiB."""

    wall: float
    processors: float
    peak: float


def parser_of(text: Optional[str]) -> argparse.ArgumentParser:
    """A parser of a script's words, whose help is the script's own text."""
    return argparse.ArgumentParser(description=text, formatter_class=argparse.RawDescriptionHelpFormatter)


def add_programs(parser: argparse.ArgumentParser) -> None:
    """The words for the program that is timed, and for another one beside it."""
    parser.add_argument("program", nargs="?", default=PROGRAM, metavar="PROGRAM", help="the program (crates/rtosim/out/rtosim)")
    parser.add_argument("other", nargs="?", metavar="OTHER", help="another program, to compare")


def programs_of(options: argparse.Namespace) -> List[str]:
    """The one or two programs that are named. One that can't be run is refused."""
    programs = [it for it in (options.program, options.other) if it is not None]
    for it in programs:
        if not os.access(it, os.X_OK) or os.path.isdir(it):
            raise SystemExit(f"{os.path.relpath(it)} is no program; bin/rtosim builds one")
    return programs


def prepare() -> None:
    """Has programs started as bin/rtosim starts them, with large pages, and lets `timed` wait for what a shell has started."""
    os.environ["GLIBC_TUNABLES"] = "glibc.malloc.hugetlb=1:glibc.malloc.arena_max=8:glibc.malloc.top_pad=4194304"
    ctypes.CDLL(None).prctl(PR_SET_CHILD_SUBREAPER, 1, 0, 0, 0)


def takes(program: str, path: str) -> bool:
    """Whether the program takes this file, which an older one may refuse."""
    return subprocess.run([program, "run", path], stdout=subprocess.DEVNULL, stderr=subprocess.DEVNULL, check=False).returncode < 3


def timed(words: Sequence[str]) -> Taken:
    """One run, its output going to /dev/null.

    The system counts for a process what it was before it became the program too. So a shell, which is small, starts the program and
    ends, and the program is then a child of this process."""
    begin = time.perf_counter()
    subprocess.run(["sh", "-c", '"$@" >/dev/null &', "sh", *words], check=False)
    usage = os.wait4(-1, 0)[2]
    return Taken(time.perf_counter() - begin, usage.ru_utime + usage.ru_stime, usage.ru_maxrss / 1024)


def write(path: str, text: str) -> None:
    with open(path, "w", encoding="utf-8") as file:
        file.write(text)
