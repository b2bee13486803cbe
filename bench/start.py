#!/usr/bin/env python3
"""Times a start of bin/rtosim that finds the program to be the one that the sources make.

Prints the best and the median wall time of twenty starts for --version, and what the program takes alone."""
from __future__ import annotations

import os
import statistics
import subprocess
import sys
import time
from typing import Optional, Sequence

sys.dont_write_bytecode = True
sys.path.insert(0, os.path.dirname(os.path.abspath(__file__)))
from programs import parser_of

ROOT = os.path.dirname(os.path.dirname(os.path.realpath(__file__)))
STARTS = 20


def seconds_of(program: str) -> float:
    """The wall time of one start."""
    before = time.perf_counter()
    subprocess.run([program, "--version"], stdout=subprocess.DEVNULL, check=True)
    return time.perf_counter() - before


def main(words: Optional[Sequence[str]] = None) -> None:
    parser_of(__doc__).parse_args(words)
    for name in ("bin/rtosim", "crates/rtosim/out/rtosim"):
        program = f"{ROOT}/{name}"
        seconds_of(program)
        taken = [1000 * seconds_of(program) for _ in range(STARTS)]
        print(f"{name:<26} best {min(taken):6.1f} ms  median {statistics.median(taken):6.1f} ms")


if __name__ == "__main__":
    main()
