#!/usr/bin/env python3
"""Times campaigns over each step of long runs, of which only some text is written, their output going to /dev/null.

Prints for each case and number of steps the best wall time of some runs, the processor time of that run and the peak memory, and what
of it that of OTHER is. The program is crates/rtosim/out/rtosim, or PROGRAM.

The cases: `timeouts`, a driver receives with a timeout of one tick while a task works, and the handler sends; `full_queue`, two tasks
play ping-pong, and the handler fills a queue that nobody reads; `woken`, the handler wakes a task above them that works for three ticks;
`marked`, the handler only marks; `counted`, it counts a semaphore up for good; `overwritten`, it changes a variable over which a task
writes in each turn; `added`, it counts on in the variable in which a task counts, so rows meet each other and never the base run;
`inheritance`, three tasks share a mutex at fixed times, and the handler wakes one that waits for it and gives up; `delays`, the same with
delays; `timer`, the handler raises itself again for the tenth tick from now, so rows meet those of the same phase; `slow_timer`, for the
hundredth; `apart`, it comes at most once in two ticks, and a task receives what it sent; `stamped`, each row keeps the tick of its
injection for good, so no row comes to the kernel of another."""
from __future__ import annotations

import argparse
import os
import sys
import tempfile
from typing import List, Optional, Sequence

sys.dont_write_bytecode = True
sys.path.insert(0, os.path.dirname(os.path.abspath(__file__)))
from campaigns import array, task, turns
from programs import Taken, add_programs, parser_of, prepare, programs_of, timed, write

PING_PONG = (
    '[[queue]]\nname = "a"\nlength = 1\n[[queue]]\nname = "b"\nlength = 1\n',
    task("ping", 1, turns("send a 1 forever", "receive b forever", "work 1")) + task("pong", 1, turns("receive a forever", "send b 2 forever")),
)


def handler(*ops: str) -> str:
    return f'[[handler]]\nname = "h"\nops = {array(ops)}\n'


def ping_pong(objects: str, isr: str, *tasks: str) -> str:
    """Two tasks that play ping-pong over two queues, and what a handler does beside them."""
    queues, players = PING_PONG
    return queues + objects + handler(isr) + players + "".join(tasks)


def shared_mutex(rest: str) -> str:
    """Three tasks that share a mutex, between rests of this kind."""
    return (
        '[[binary]]\nname = "s"\n[[mutex]]\nname = "m"\n'
        + handler("give s")
        + task("low", 1, turns(f"{rest} 11", "lock m forever", "work 3", "unlock m"))
        + task("middle", 2, turns(f"{rest} 7", "lock m forever", "work 1", "unlock m"))
        + task("high", 3, turns("take s forever", "lock m 1", "if 1", "unlock m", "end"))
    )


CASES = {
    "timeouts": '[[queue]]\nname = "q"\nlength = 1\n' + handler("send q 9")
    + task("driver", 2, turns("receive q 1")) + task("worker", 1, turns("work 3")),
    "full_queue": ping_pong('[[queue]]\nname = "c"\nlength = 256\n', "send c 7"),
    "woken": ping_pong('[[binary]]\nname = "s"\n', "give s", task("woken", 2, turns("take s forever", "work 3"))),
    "marked": ping_pong("", "mark 1"),
    "counted": ping_pong('[[counting]]\nname = "s"\nmax = 65535\n', "give s"),
    "overwritten": '[[variable]]\nname = "count"\n[[variable]]\nname = "copy"\n' + handler("load copy", "add 9", "store copy answer")
    + task("counter", 1, turns("load count", "add 1", "store count answer", "store copy answer", "work 1")),
    "added": '[[variable]]\nname = "count"\n' + handler("load count", "add 1", "store count answer")
    + task("counter", 1, turns("load count", "add 1", "store count answer", "work 1")),
    "inheritance": shared_mutex("delay_until"),
    "delays": shared_mutex("delay"),
    "timer": handler("raise h 10") + task("worker", 1, ["raise h 10", *turns("work 1000")]),
    "slow_timer": handler("raise h 100") + task("worker", 1, ["raise h 100", *turns("work 1000")]),
    "apart": '[[queue]]\nname = "q"\nlength = 1\n' + handler("send q 9") + "apart = 2\n"
    + task("driver", 2, turns("receive q forever")) + task("worker", 1, turns("work 3")),
    "stamped": ping_pong('[[binary]]\nname = "s"\n', "give s", task("stamped", 2, ["take s forever", "stamp", *turns("take s forever", "since")])),
}


def best_of(runs: int, words: Sequence[str]) -> Taken:
    return min(timed(words) for _ in range(runs))


def measure(name: str, steps: int, path: str, options: argparse.Namespace, programs: Sequence[str]) -> None:
    """Runs a campaign by each program, and prints what that took."""
    words = ["campaign", path, *options.view.split(), "--workers", str(options.workers)]
    taken = [best_of(options.runs, [program, *(words if at == 0 else words[:-2])]) for at, program in enumerate(programs)]
    best = taken[0]
    line = f"{name}, {steps} steps: best {best.wall:.3f} s, processors {best.processors:.3f} s, peak {best.peak:.1f} MiB"
    if len(taken) == 2:
        other = taken[1]
        line += f"; the other {other.wall:.3f} s, {other.peak:.1f} MiB, so {best.wall / other.wall:.2f}"
    print(line, flush=True)


def numbers(text: str) -> List[int]:
    """Numbers that commas separate."""
    return [int(it) for it in text.split(",")]


def cases(text: str) -> List[str]:
    """Names of cases that commas separate."""
    unknown = [it for it in text.split(",") if it not in CASES]
    if unknown:
        raise argparse.ArgumentTypeError(f"there is no case {', '.join(unknown)}; the cases are {', '.join(CASES)}")
    return text.split(",")


def options_of(words: Optional[Sequence[str]]) -> argparse.Namespace:
    parser = parser_of(__doc__)
    parser.add_argument("--steps", type=numbers, default=[10000, 100000], metavar="N,..", help="the limits of steps (10000,100000)")
    parser.add_argument("--view", default="--heads", metavar="WORDS", help="the words for what is written, as --view=--heads (that)")
    parser.add_argument("--workers", type=int, default=1, metavar="N", help="how many workers PROGRAM has (1)")
    parser.add_argument("--runs", type=int, default=3, metavar="N", help="how many runs each number is the best of (3)")
    parser.add_argument("--only", type=cases, default=list(CASES), metavar="CASE,..", help="these cases (all)")
    add_programs(parser)
    return parser.parse_args(words)


def main(words: Optional[Sequence[str]] = None) -> None:
    options = options_of(words)
    programs = programs_of(options)
    prepare()
    with tempfile.TemporaryDirectory() as folder:
        for name in options.only:
            for steps in options.steps:
                path = os.path.join(folder, f"{name}.toml")
                write(path, f'[limits]\nsteps = {steps}\n{CASES[name]}[campaign]\npoints = ["all h"]\n')
                measure(name, steps, path, options, programs)


if __name__ == "__main__":
    main()
