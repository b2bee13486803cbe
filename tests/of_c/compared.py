"""Compares random programs: their C, compiled against a stub of the calls, and their scripts, run by a machine for one task, or by rtosim."""
import os
import re
import subprocess
from concurrent.futures import ProcessPoolExecutor
from typing import Callable, Dict, List, Optional, Tuple

from machine import Machine
from programs import Programs
from rtosim_from_c.families import PROGRAM
from rtosim_from_c.refusals import Refusal
from rtosim_from_c.source import HEADERS, Lines
from rtosim_from_c.translating import Application, Script, Translation, read_unit
from rtosim_from_c.unit import Task, Unit
from rtosim_from_c.writing import application_text

HERE = os.path.dirname(os.path.realpath(__file__))
TASKS = 30
# What a script writes lines of, and C has no call for.
SILENT = ("load", "store", "add", "sub", "mul", "div", "mod", "and", "or", "xor", "time", "since")
# How C ends where its script may go on, or ends by a limit.
ENOUGH = "enough"
FLAGS = ["-w", "-fwrapv", "-funsigned-char", "-O0", "-fno-builtin", "-I", HEADERS]


def traces_of_c(name: str) -> Dict[str, List[str]]:
    """What each task of the file writes when its C is run."""
    with open(name) as file:
        text = re.sub(r"/\* rtosim: (\w+) (\d+) \*/", r"rtosim_\1(\2);", file.read())
    with open(f"{name}.compiled.c", "w") as file:
        file.write(text)
    subprocess.run(["cc", *FLAGS, "-o", f"{name}.program", f"{name}.compiled.c", f"{HERE}/stub.c"], check=True)
    out = subprocess.run([f"./{name}.program"], stdout=subprocess.PIPE, timeout=60, check=True).stdout.decode()
    parts = (it.split("\n", 1) for it in out.split("== ")[1:])
    return {name: lines.splitlines() for name, lines in parts}


def script_of(unit: Unit, task: Task) -> Optional[Script]:
    """The script of a task that is alone; None if it is refused."""
    unit.with_large_items.clear()
    while True:
        known = unit.learned()
        try:
            script = Translation(unit, PROGRAM, task).script()
        except Refusal:
            script = None
        if unit.learned() == known:
            return script


def trace_of_machine(unit: Unit, script: Script) -> List[str]:
    return Machine(unit.objects, [it.text for it in script.lines], unit.variables).run()


class ProgramTrace:
    """What rtosim writes of a task that is alone, in the words of the C."""

    def __init__(self, program: str):
        self.program = program

    def __call__(self, unit: Unit, script: Script) -> List[str]:
        text = application_text(Application(unit, [script]), "random.c") + "\n[limits]\nsteps = 20000\n"
        name = f"random_{os.getpid()}.toml"
        with open(name, "w") as file:
            file.write(text)
        ran = subprocess.run([self.program, "run", name], stdout=subprocess.PIPE, timeout=60)
        assert ran.returncode in (0, 1), (ran, text)
        head, *lines = ran.stdout.decode().splitlines()
        found = [in_words_of_c(it.split()) for it in lines]
        end = head.split()[1]
        return [*(it for it in found if it), ENOUGH if end == "steps" else end]


def in_words_of_c(words: List[str]) -> str:
    """A line of a run as C writes it; nothing where it writes none."""
    if words[2] == "mark":
        return f"{words[1]} mark {words[4]}"
    return f"{words[1]} {words[5]} = {words[7]}" if words[2] == "call" and words[5] not in SILENT else ""


def is_alike(found: List[str], wanted: List[str]) -> bool:
    """Whether a script has done what its C does, as far as both went."""
    if ENOUGH in (found[-1], wanted[-1]):
        count = min(len(found), len(wanted)) - 1
        return found[:count] == wanted[:count]
    return found == wanted


def compare_file(seed: int, trace: Callable[[Unit, Script], List[str]] = trace_of_machine) -> Tuple[int, int]:
    """How many tasks of a random file are the same in C and as scripts, and how many are refused."""
    name = f"random_{seed}.c"
    with open(name, "w") as file:
        file.write(Programs(seed).file(TASKS))
    wanted, unit = traces_of_c(name), read_unit(name, Lines())
    same = refused = 0
    for task in unit.tasks:
        script = script_of(unit, task)
        if script is None:
            refused += 1
            continue
        found = trace(unit, script)
        assert is_alike(found, wanted[task.name]), f"seed {seed}, {task.name}: {found[:20]}, and in C {wanted[task.name][:20]}"
        same += 1
    return same, refused


def compare_programs(count: int, first: int = 0, trace: Callable[[Unit, Script], List[str]] = trace_of_machine) -> None:
    """Compares so many programs that aren't refused."""
    same = refused = 0
    seed, workers = first, max(1, min(4, os.cpu_count() or 1))
    with ProcessPoolExecutor(workers) as pool:
        while same < count:
            for more, others in pool.map(compare_file, range(seed, seed + workers), [trace] * workers):
                same, refused = same + more, refused + others
            seed += workers
    print(f"   ({same:,} programs are the same, {refused:,} are refused)")
    assert refused < same, (same, refused)
