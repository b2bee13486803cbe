"""Has a signal that ends a command end what the command has started too: rt, and all that rt has started."""
from __future__ import annotations

import contextlib
import os
import signal
import subprocess
from typing import Any, Callable, Dict, List, NoReturn, TypeVar

# What is started, and what comes of the work on it.
Popen = subprocess.Popen
Result = TypeVar("Result")
ENDING = (signal.SIGTERM, signal.SIGINT, signal.SIGHUP, signal.SIGQUIT)


class Ended(BaseException):
    """A signal has come that ends this command. It isn't a failure of the code that it reaches, so nothing must catch it as one."""


def end(process: Popen) -> None:
    """Ends a process that was started in a session of its own, which then ends all that it started."""
    for number in (signal.SIGTERM, signal.SIGKILL):
        try:
            os.killpg(process.pid, number)
            process.wait(timeout=2)
        except (ProcessLookupError, subprocess.TimeoutExpired):
            pass


def children() -> Dict[int, List[int]]:
    """The processes that each process has started."""
    found: Dict[int, List[int]] = {}
    for it in filter(str.isdigit, os.listdir("/proc")):
        with contextlib.suppress(OSError), open(f"/proc/{it}/stat", "rb") as file:
            found.setdefault(int(file.read().rpartition(b")")[2].split()[1]), []).append(int(it))
    return found


def kill_all(pid: int) -> None:
    """Kills a process and all that it started, if they are in the group of others. It is stopped first, so that it starts no more."""
    with contextlib.suppress(ProcessLookupError):
        os.kill(pid, signal.SIGSTOP)
    started, found = children(), [pid]
    for it in found:
        found += started.get(it, [])
    for it in found:
        with contextlib.suppress(ProcessLookupError):
            os.kill(it, signal.SIGKILL)


def run(words: List[str], work: Callable[[Popen], Result], **how: Any) -> Result:
    """Starts a process by these words in a session of its own, and returns what the work on it returns. A signal that comes meanwhile
    ends the process first."""
    # No signal may come between the start of the process and the lines that end it.
    mask = signal.pthread_sigmask(signal.SIG_BLOCK, ENDING)
    unmask = lambda: signal.pthread_sigmask(signal.SIG_SETMASK, mask)
    process = subprocess.Popen(words, preexec_fn=unmask, start_new_session=True, **how)
    try:
        unmask()
        return work(process)
    except Ended:
        end(process)
        raise


def on_signal(number: int, _: object) -> NoReturn:
    for it in ENDING:
        signal.signal(it, signal.SIG_IGN)
    raise Ended(number)


def heeding_signals(work: Callable[..., Result], *words: Any) -> Result:
    """Returns what the work returns. A signal that comes meanwhile ends this process, once the work has ended what it started."""
    for it in ENDING:
        if signal.getsignal(it) is not signal.SIG_IGN:
            signal.signal(it, on_signal)
    try:
        return work(*words)
    except Ended as ended:
        number = ended.args[0]
        signal.signal(number, signal.SIG_DFL)
        os.kill(os.getpid(), number)
        raise
