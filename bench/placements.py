#!/usr/bin/env python3
"""Times `explore`, its output going to /dev/null.

Prints for each case the number of placements, the least processor time of some runs and the peak memory, and what of OTHER's these are. The
runs of the two take turns. The program is crates/rtosim/out/rtosim, or PROGRAM; large pages are asked for, as bin/rtosim does.

A case is a name, the number of injections and the limit of steps, as in `uart 2 10000`. The names: `uart`, a driver with a timeout and a
retry and two handlers; `branches`, the file beside this script; `examples`, each file of examples/ that has a handler, one after another;
those of long_campaigns.py. In `stamped` each injection leaves its tick for good, so that hardly any states merge."""
from __future__ import annotations

import argparse
import os
import re
import subprocess
import sys
import tempfile
from typing import List, Optional, Sequence, Tuple

HERE = os.path.dirname(os.path.abspath(__file__))
sys.dont_write_bytecode = True
sys.path.insert(0, HERE)
from long_campaigns import CASES
from programs import add_programs, parser_of, prepare, programs_of, timed, write

EXAMPLES = os.path.join(HERE, "..", "examples")
UART = os.path.join(HERE, "..", "tests", "runs", "placements", "two_handlers_for_ten_thousand_steps.toml")
WHAT = (
    "examples 3 0, uart 1 1000000, uart 2 10000, uart 3 10000, timeouts 2 100000, inheritance 2 100000, inheritance 3 10000, "
    "delays 2 100000, woken 2 100000, branches 1 1000000, stamped 1 10000, stamped 2 2000"
)


def text_of(path: str) -> str:
    with open(path, encoding="utf-8") as file:
        return file.read()


def with_steps(text: str, steps: int) -> str:
    """The application with this limit of steps."""
    return f"[limits]\nsteps = {steps}\n" + re.sub(r"\[limits\]\n(\w+ = \d+\n)*", "", text)


def examples() -> List[str]:
    """The texts of the examples that have a handler."""
    texts = [text_of(os.path.join(EXAMPLES, it)) for it in sorted(os.listdir(EXAMPLES)) if it.endswith(".toml")]
    return [it for it in texts if "[[handler]]" in it]


def texts_of(name: str, steps: int) -> List[str]:
    """The texts of the applications of a case."""
    if name == "examples":
        return examples()
    paths = {"uart": UART, "branches": os.path.join(HERE, "branches.toml")}
    return [with_steps(text_of(paths[name]) if name in paths else CASES[name], steps)]


def placements_of(words: Sequence[str]) -> int:
    """The number in the last line."""
    lines = subprocess.run(words, stdout=subprocess.PIPE, check=False).stdout.splitlines()
    return int(lines[-1].split()[1]) if lines else 0


def taken_by(calls: Sequence[Sequence[str]]) -> Tuple[float, float]:
    """The processor time of these calls one after another, and their peak memory."""
    taken = [timed(words) for words in calls]
    return sum(it.processors for it in taken), max(it.peak for it in taken)


def measure(case: str, folder: str, runs: int, programs: Sequence[str]) -> None:
    """Explores the applications of a case by each program, and prints what that took."""
    name, injections, steps = case.split()
    paths = []
    for number, text in enumerate(texts_of(name, int(steps))):
        paths.append(os.path.join(folder, f"{name}{number}.toml"))
        write(paths[-1], text)
    calls = [[[program, "explore", path, "--injections", injections] for path in paths] for program in programs]
    turns = [[taken_by(it) for it in calls] for _ in range(runs)]
    best = [min(it) for it in zip(*turns)]
    placements = sum(placements_of(words) for words in calls[0])
    line = f"{name} {injections} {steps}: {placements:.3g} placements, {best[0][0]:.3f} s, {best[0][1]:.1f} MiB"
    if len(best) == 2:
        line += f"; the other {best[1][0]:.3f} s, {best[1][1]:.1f} MiB, so {best[0][0] / best[1][0]:.2f}"
    print(line, flush=True)


def cases(text: str) -> List[str]:
    """Cases that commas separate: each a name, the number of injections and the limit of steps."""
    found = [it.strip() for it in text.split(",")]
    names = ("uart", "branches", "examples", *CASES)
    for it in found:
        if not re.fullmatch(r"\w+ [0-3] [0-9]+", it) or it.split()[0] not in names:
            raise argparse.ArgumentTypeError(f'"{it}" is no case, such as "uart 2 10000"; the names are {", ".join(names)}')
    return found


def options_of(words: Optional[Sequence[str]]) -> argparse.Namespace:
    parser = parser_of(__doc__)
    parser.add_argument("--only", type=cases, default=cases(WHAT), metavar="CASE,..", help="these cases (the usual ones)")
    parser.add_argument("--runs", type=int, default=3, metavar="N", help="how many runs each number is the best of (3)")
    add_programs(parser)
    return parser.parse_args(words)


def main(words: Optional[Sequence[str]] = None) -> None:
    options = options_of(words)
    programs = programs_of(options)
    prepare()
    with tempfile.TemporaryDirectory() as folder:
        for case in options.only:
            measure(case, folder, options.runs, programs)


if __name__ == "__main__":
    main()
