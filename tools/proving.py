"""What the tools know of the repository's crates, and of the machine, and how they run rt."""
from __future__ import annotations

import importlib.util
import os
import re
import shutil
import signal
import subprocess
import threading
from typing import Any, Callable, Dict, Iterable, List, Set

ROOT = os.path.dirname(os.path.dirname(os.path.realpath(__file__)))
MEMORY_OF_A_JOB = 1_500_000_000
MEMORY_OF_A_CRATE = 3_000_000_000
# Has rattle's allocator (mimalloc) keep what is freed until its process ends, in place of giving it back only to ask for it anew.
KEEPS_MEMORY = {"MIMALLOC_PURGE_DELAY": "-1"}


def sources() -> str:
    """The digest of the sources, as bin/built prints it."""
    return subprocess.run([f"{ROOT}/bin/built", "sources"], stdout=subprocess.PIPE, text=True, check=False).stdout.strip()


def crates(root: str = ROOT) -> Dict[str, List[str]]:
    """The crates by name, each with the names of those that it builds on, lowest first."""
    found = {}
    with open(f"{root}/crates.txt", encoding="utf-8") as file:
        for line in file:
            head, _, libraries = line.partition("#")[0].partition(":")
            if head.strip():
                found[head.split()[0]] = libraries.split()
    return {name: [it for it in libraries if it in found] for name, libraries in found.items()}


def below(name: str, stand_on: Dict[str, List[str]]) -> List[str]:
    """All crates that the crate builds on, lowest first."""
    found = {}
    for it in stand_on[name]:
        found.update(dict.fromkeys([*below(it, stand_on), it]))
    return [*found]


def copy(here: str, there: str) -> None:
    """Copies a file or a folder with all in it, if there is one, and links as links, which rt refuses."""
    if os.path.isdir(here) and not os.path.islink(here):
        shutil.copytree(here, there, symlinks=True)
    elif os.path.lexists(here):
        shutil.copy(here, there, follow_symlinks=False)


def copy_crates(parts: Dict[str, List[str]], folder: str, root: str = ROOT) -> None:
    """Makes the folder a repository of some crates alone: of each those parts, files or folders, that are at its name, where it has
    them."""
    os.makedirs(f"{folder}/crates")
    with open(f"{root}/crates.txt", encoding="utf-8") as file, open(f"{folder}/crates.txt", "w", encoding="utf-8") as to:
        to.writelines(it for it in file if re.split(r"\W", it, maxsplit=1)[0] in parts)
    copy(f"{root}/HANDLES", f"{folder}/HANDLES")
    for name in parts:
        os.mkdir(f"{folder}/crates/{name}")
        for part in parts[name]:
            copy(f"{root}/crates/{name}/{part}", f"{folder}/crates/{name}/{part}")


def are_left_by_ci(names: Iterable[str], root: str = ROOT) -> bool:
    """Whether the libraries of these crates are those that `rt ci` has built: they have no stamp, by which rt takes a library."""
    folders = [f"{root}/crates/{it}/out/rlib" for it in names]
    return all(os.path.isdir(f"{at}/{it}.rlib") and not os.path.exists(f"{at}/stamp") for at, it in zip(folders, names))


def rtlib() -> Any:
    """What rt knows of crates, and of how rattle is called for them."""
    place = f"{os.path.dirname(os.path.realpath(shutil.which('rt') or 'rt'))}/rtlib.py"
    spec = importlib.util.spec_from_file_location("rtlib", place)
    assert spec and spec.loader
    module = importlib.util.module_from_spec(spec)
    spec.loader.exec_module(module)
    return module


def adopt_libraries(folder: str) -> None:
    """Has rt take the libraries below the crate of this folder as they are, though it is `rt ci` that has built them. They hold
    statements and no proofs, and fit one another alone, so rt doesn't take them if others may come among them."""
    kit = rtlib()
    for crate in kit.Crate(folder, kit.root_above(folder), {}).below():
        with open(f"{crate.folder}/out/rlib/stamp", "w", encoding="utf-8") as file:
            file.write(crate.stamp())


def processors() -> int:
    return len(os.sched_getaffinity(0))


def room_for_jobs(memory: int = MEMORY_OF_A_JOB) -> int:
    """How many jobs, of this much memory each, there are processors and memory for, one at least."""
    with open("/proc/meminfo", encoding="ascii") as file:
        free = 1024 * int(re.findall(r"MemAvailable:\s+(\d+)", file.read())[0])
    return max(1, min(processors(), free // memory))


class Checks:
    """The runs of rt that go on now, each in a session of its own, so that all can be ended."""

    def __init__(self) -> None:
        self.running: Set[subprocess.Popen] = set()
        self.is_over, self.lock = False, threading.Lock()

    def run(self, words: List[str], folder: str, hear: Callable[[str], object]) -> int:
        """Runs rt, calls hear with each line that it says as it comes, and returns its status."""
        how: Any = {"stdin": subprocess.DEVNULL, "stdout": subprocess.PIPE, "stderr": subprocess.STDOUT, "start_new_session": True}
        with self.lock:
            if self.is_over:
                return 1
            rt = subprocess.Popen(["rt", *words], cwd=folder, encoding="utf-8", errors="surrogateescape", **how)
            self.running.add(rt)
        for line in rt.stdout or ():
            hear(line.rstrip("\n"))
        status = rt.wait()
        with self.lock:
            self.running.discard(rt)
        return status

    def end(self) -> None:
        """Ends each of them with all that it started, and lets none begin."""
        with self.lock:
            self.is_over = True
            for number in (signal.SIGTERM, signal.SIGKILL):
                for rt in self.running:
                    try:
                        os.killpg(rt.pid, number)
                        rt.wait(timeout=2)
                    except (ProcessLookupError, subprocess.TimeoutExpired):
                        pass
