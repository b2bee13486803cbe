#!/usr/bin/env python3
"""Times campaigns of the built program with 1, 2 and 4 workers, their output going to /dev/null.

Prints for each campaign and number of workers the best and the median wall time of nine runs, the processor time of the
best, and the peak memory. The runs take turns. The program is crates/rtosim/out/rtosim, or PROGRAM; large pages are asked for,
as bin/rtosim does. With OTHER, the same of that program with one worker, where it takes the file.

The campaigns: `dense`, 5,000 rows of tasks that call a queue and a mutex in nearly each step, each row to the step limit
of 5,000; `computing`, the same with more `work` between the calls, and 2,000 rows of 2,000 steps; `commands`, 3,000 rows of tasks
that wait for bits, which a handler has the daemon set and clear; `asleep`, 3,000 rows of tasks that sleep and wait for minutes and
hours in a tickless application, which a handler wakes at any time; `masked`, 5,000 rows of a driver that looks in a critical section in
each turn, so that the handlers of many rows are pending first; `counter`, 5,000 rows of a task that counts in each turn and stores the
count in another variable too, which a handler writes before; `notified`, 5,000 rows of a task that takes its notifications, which a
task and a handler send; `million`, 1,000,000 single points of a short application, each of which ends after some ten steps."""
from __future__ import annotations

import os
import random
import statistics
import sys
import tempfile
from typing import Iterable, List, Optional, Sequence

sys.dont_write_bytecode = True
sys.path.insert(0, os.path.dirname(os.path.abspath(__file__)))
from programs import add_programs, parser_of, prepare, programs_of, takes, timed, write

WORKERS = (1, 2, 4)
RUNS = 9


def array(words: Iterable[str]) -> str:
    return "[" + ", ".join(f'"{it}"' for it in words) + "]"


def task(name: str, priority: int, script: Iterable[str]) -> str:
    return f'[[task]]\nname = "{name}"\npriority = {priority}\nscript = {array(script)}\n'


def turns(*ops: str) -> List[str]:
    """A million turns of these ops."""
    return ["repeat 1000", "repeat 1000", *ops, "end", "end"]


def producer_and_consumer(steps: int, work: int) -> str:
    """A producer, a consumer and a third task, with a mutex between them, and a handler before each step."""
    return (
        f"[limits]\nsteps = {steps}\n"
        '[[queue]]\nname = "q"\nlength = 4\n[[mutex]]\nname = "m"\n'
        '[[handler]]\nname = "h"\nops = ["send q 9", "receive q"]\n'
        + task("producer", 1, turns(f"work {work}", "send q 7 50", "lock m forever", "work 5", "unlock m"))
        + task("consumer", 3, turns("receive q 40", "lock m forever", f"work {work // 2}", "unlock m"))
        + task("third", 2, turns(f"delay {work}", "lock m forever", "work 2", "unlock m"))
        + '[campaign]\npoints = ["all h"]\n'
    )


def sensor_and_daemon(steps: int) -> str:
    """A task that waits for bits, one that computes below the daemon, and commands to the daemon before each step."""
    return (
        f"[limits]\nsteps = {steps}\n"
        '[[group]]\nname = "g"\n[[handler]]\nname = "h"\nops = ["set g 1", "clear g 2"]\n'
        + task("sensor", 3, turns("wait g 3 any clear 4"))
        + task("filter", 1, turns("work 2", "set g 2"))
        + '[daemon]\nname = "d"\npriority = 2\nlength = 4\n'
        + '[campaign]\npoints = ["all h"]\n'
    )


def asleep(steps: int) -> str:
    """Tasks that sleep and wait for long, and an alarm before each step. From where it wakes a task a row has other steps than its
    neighbours."""
    return (
        f"tickless = true\n[limits]\nsteps = {steps}\nticks = 281474976710656\n"
        '[[queue]]\nname = "q"\nlength = 1\n[[handler]]\nname = "h"\nops = ["send q 9"]\n'
        + task("alarm", 2, turns("receive q 3600000", "work 2"))
        + task("minutes", 1, turns("delay_until 60000", "work 2"))
        + '[campaign]\npoints = ["all h"]\n'
    )


def masked(steps: int) -> str:
    """A driver that looks in a critical section in each turn, a task that sends to it, and a handler before each step."""
    return (
        f"[limits]\nsteps = {steps}\n"
        '[[queue]]\nname = "q"\nlength = 4\n[[handler]]\nname = "h"\nops = ["send q 9"]\n'
        + task("driver", 2, turns("enter_critical", "waiting q", "spaces q", "exit_critical", "receive q 5"))
        + task("sender", 1, turns("work 1", "enter_critical", "stamp", "exit_critical", "send q 7 0"))
        + '[campaign]\npoints = ["all h"]\n'
    )


def counter(steps: int) -> str:
    """A task that counts, stores the count once more and compares the two, and a handler before each step that changes the copy. The task
    writes over it in its next turn."""
    return (
        f"[limits]\nsteps = {steps}\n"
        '[[variable]]\nname = "count"\n[[variable]]\nname = "copy"\n'
        '[[handler]]\nname = "h"\nops = ["load copy", "add 9", "store copy answer"]\n'
        + task("counter", 1, turns("load count", "add 1", "store count answer", "store copy answer", "load copy", "if count", "time", "else",
                                   "since", "end"))
        + '[campaign]\npoints = ["all h"]\n'
    )


def notified(steps: int) -> str:
    """A task that takes its notifications, a task that notifies it at each tick, and a handler before each step that does too."""
    return (
        f"[limits]\nsteps = {steps}\n"
        '[[handler]]\nname = "h"\nops = ["notify driver increment"]\n'
        + task("driver", 2, turns("notify_take clear forever", "notify_wait 0 4294967295 2"))
        + task("ticker", 1, turns("work 1", "notify driver increment"))
        + '[campaign]\npoints = ["all h"]\n'
    )


def million_points() -> str:
    """A million points over an application that ends after some ten steps."""
    dice = random.Random(5)
    points = (f"{dice.randrange(11)} {dice.choice('hk')}" for _ in range(1000000))
    return (
        '[[queue]]\nname = "q"\nlength = 1\n'
        '[[handler]]\nname = "h"\nops = ["send q 7", "receive q"]\n[[handler]]\nname = "k"\nops = ["send q 3"]\n'
        + task("a", 1, ["receive q 1", "send q 1 0", "receive q 0", "work 2"])
        + f"[campaign]\npoints = {array(points)}\n"
    )


def measure(name: str, path: str, programs: Sequence[str]) -> None:
    """Runs a campaign with each number of workers, and prints what that took."""
    calls = {f"{it} workers": [programs[0], "campaign", path, "--workers", str(it)] for it in WORKERS}
    if len(programs) == 2 and takes(programs[1], path):
        calls[os.path.relpath(programs[1])] = [programs[1], "campaign", path]
    runs = [[timed(words) for words in calls.values()] for _ in range(RUNS)]
    for call, taken in zip(calls, zip(*runs)):
        best, peak = min(taken), max(it.peak for it in taken)
        median = statistics.median(it.wall for it in taken)
        times = f"best {best.wall:.3f} s, median {median:.3f} s, processors {best.processors:.3f} s"
        print(f"{name}, {call}: {times}, peak {peak:.1f} MiB", flush=True)


def main(words: Optional[Sequence[str]] = None) -> None:
    parser = parser_of(__doc__)
    add_programs(parser)
    programs = programs_of(parser.parse_args(words))
    prepare()
    texts = {"dense": producer_and_consumer(5000, 2), "computing": producer_and_consumer(2000, 200),
             "commands": sensor_and_daemon(3000), "asleep": asleep(3000), "masked": masked(5000), "counter": counter(5000),
             "notified": notified(5000), "million": million_points()}
    with tempfile.TemporaryDirectory() as folder:
        for name, text in texts.items():
            path = os.path.join(folder, f"{name}.toml")
            write(path, text)
            measure(name, path, programs)


if __name__ == "__main__":
    main()
