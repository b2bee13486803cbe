#!/usr/bin/env python3
"""Times the built program on the files beside this script, its output going to /dev/null.

Prints for each file the best and the median wall time of fifteen runs, the steps a second of the best, and the peak
memory. The program is crates/rtosim/out/rtosim, as bin/rtosim builds it, or PROGRAM; large pages are asked for, as bin/rtosim
does. With OTHER, the runs of the two take turns; each file that both take has PROGRAM's times as multiples of OTHER's, and the last line the
geometric means of these. With --instructions, each file has the instructions a step too, as valgrind counts them over the whole
program: they are the same on each run, where times of a busy machine aren't. Times of two builds may differ by 3 % merely by where
their code comes to lie: some processors decode jumps at multiples of 32 bytes anew each time."""
from __future__ import annotations

import math
import os
import re
import statistics
import subprocess
import sys
import time
from typing import List, Optional, Sequence, Tuple

HERE = os.path.dirname(os.path.abspath(__file__))
sys.dont_write_bytecode = True
sys.path.insert(0, HERE)
from programs import add_programs, parser_of, prepare, programs_of, takes, timed

RUNS = 15


def steps_of(program: str, path: str) -> int:
    """The number of steps in the head line."""
    head = subprocess.run([program, "run", path], stdout=subprocess.PIPE, check=False).stdout.split(b"\n", 1)[0]
    found = re.search(rb" in (\d+) steps", head)
    return int(found[1]) if found else 0


def seconds_of(program: str, path: str) -> float:
    """The wall time of one run."""
    begin = time.perf_counter()
    subprocess.run([program, "run", path], stdout=subprocess.DEVNULL, check=False)
    return time.perf_counter() - begin


def instructions_of(program: str, path: str) -> int:
    """The instructions of one run, by valgrind."""
    tool = ["valgrind", "--tool=callgrind", "--callgrind-out-file=/dev/null", program, "run", path]
    found = re.search(r"Collected : (\d+)", subprocess.run(tool, stdout=subprocess.DEVNULL, stderr=subprocess.PIPE, text=True, check=False).stderr)
    if found is None:
        raise SystemExit("valgrind has counted nothing")
    return int(found[1])


def times_of(programs: Sequence[str], path: str) -> List[Tuple[float, float]]:
    """For each program the best and the median time of its runs, which take turns."""
    turns = [[seconds_of(it, path) for it in programs] for _ in range(RUNS)]
    return [(min(it), statistics.median(it)) for it in zip(*turns)]


def line_of(program: str, path: str, best: float, median: float, with_instructions: bool) -> str:
    """What is reported of a program's runs on one file."""
    steps = steps_of(program, path)
    line = f"best {best:.3f} s, median {median:.3f} s, {steps / best:,.0f} steps a second, peak {timed([program, 'run', path]).peak:.1f} MiB"
    if with_instructions:
        line += f", {instructions_of(program, path) / steps:.0f} instructions a step"
    return f"{line} ({os.path.relpath(program)})"


def main(words: Optional[Sequence[str]] = None) -> None:
    parser = parser_of(__doc__)
    parser.add_argument("--instructions", action="store_true", help="count the instructions a step, by valgrind")
    add_programs(parser)
    options = parser.parse_args(words)
    programs = programs_of(options)
    prepare()
    ratios = []
    for name in sorted(it for it in os.listdir(HERE) if it.endswith(".toml")):
        path = os.path.join(HERE, name)
        takers = [it for it in programs if takes(it, path)]
        times = times_of(takers, path)
        for program, (best, median) in zip(takers, times):
            print(f"{name}: {line_of(program, path, best, median, options.instructions)}", flush=True)
        if len(times) == 2:
            ratios.append([ours / theirs for ours, theirs in zip(*times)])
            print(f"{name}: best {ratios[-1][0]:.3f}, median {ratios[-1][1]:.3f} times the other's")
    if ratios:
        best, median = (math.exp(statistics.fmean(map(math.log, it))) for it in zip(*ratios))
        print(f"geometric means: best {best:.3f}, median {median:.3f} times the other's")


if __name__ == "__main__":
    main()
