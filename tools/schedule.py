"""By how many jobs each crate of a build from nothing is proved, and when.

A build takes no less than the longest chain of crates, in which each waits for the one before. The crate for which that chain waits is
the first one. It gets half of the jobs at least, whatever else is being proved, and all that are free if that is more; but no more than
it has lines for, and the program gets one. Every other crate gets one job, and gives way to the first one (`nice`). If the first one
works with fewer jobs than it could use and processors become free later, it is begun anew with more, if that saves a minute."""
from __future__ import annotations

from typing import Any, Dict, Iterable, List, Optional, Set, Tuple

# rt's own class of crates, and the works of tools/from_nothing.
Crate = Any
Work = Any
# A crate of fewer lines for each job is proved no sooner by more.
LINES_OF_A_JOB = 400
# How many seconds must be saved if a crate is begun anew.
LEAST_SAVED = 60


def lines_behind(crates: List[Crate]) -> Dict[str, int]:
    """The lines of each crate and of the longest chain of crates above it."""
    behind: Dict[str, int] = {}
    for crate in reversed(crates):
        above = [behind[it.name] for it in crates if crate in it.deps]
        behind[crate.name] = crate.count(rb"\n") + max(above, default=0)
    return behind


def most_jobs(crate: Crate, at_once: int) -> int:
    """The most jobs that prove a crate sooner than one less. Most of the program's time passes before its functions are proved, or after
    that, and what is left is a chain."""
    return 1 if crate.is_program else min(at_once, 1 + crate.count(rb"\n") // LINES_OF_A_JOB)


class Schedule:
    """Which crates are built, running and left. `running` has works: each has its crate, its jobs, whether the crate was the first one when
    it began, its age in seconds, and whether it is given up."""

    def __init__(self, crates: List[Crate], at_once: int, built: Iterable[Crate] = ()) -> None:
        self.at_once, self.behind = at_once, lines_behind(crates)
        self.built: Set[Crate] = set(built)
        self.running: List[Work] = []
        self.left = sorted((it for it in crates if it not in self.built), key=lambda it: -self.behind[it.name])
        # How many seconds of jobs the crates took that were the first one, and their lines.
        self.seconds, self.lines = 0.0, 0

    def ready(self) -> List[Crate]:
        return [it for it in self.left if all(dep in self.built for dep in it.deps)]

    def first(self) -> Crate:
        """The crate for which the longest chain waits."""
        return max([*(it.crate for it in self.running), *self.ready()], key=lambda it: self.behind[it.name])

    def free(self) -> int:
        return self.at_once - sum(it.jobs for it in self.running)

    def beginning(self) -> List[Tuple[Crate, int]]:
        """The crates that begin now, each with its jobs. No more crates work at a time than at_once says, and half as many jobs more, since
        there is memory for that."""
        begin = self.ready()[: self.at_once - len(self.running)]
        if not begin:
            return []
        first, least, free = self.first(), (self.at_once + 1) // 2, self.free() - len(begin) + 1
        of_first = [(it, min(most_jobs(it, self.at_once), max(least, free))) for it in begin if it is first]
        room = self.free() + self.at_once // 2 - sum(jobs for _, jobs in of_first)
        return of_first + [(it, 1) for it in begin if it is not first][: max(0, room)]

    def begin(self, work: Work) -> None:
        if work.crate in self.left:
            self.left.remove(work.crate)
        self.running.append(work)

    def end(self, work: Work, is_built: bool) -> None:
        self.running.remove(work)
        if is_built:
            self.built.add(work.crate)
        if is_built and work.is_first:
            self.seconds += work.jobs * work.age()
            self.lines += work.crate.count(rb"\n")

    def anew(self) -> Optional[Tuple[Work, int]]:
        """The first crate's work and the jobs by which to begin it anew; None if that saves less than a minute."""
        work = next((it for it in self.running if it.crate is self.first()), None)
        if not work or self.ready() or work.is_given_up:
            return None
        jobs = min(most_jobs(work.crate, self.at_once), work.jobs + self.free())
        left = self.expected(work.crate, work.jobs) - work.age()
        return (work, jobs) if left - self.expected(work.crate, jobs) >= LEAST_SAVED else None

    def expected(self, crate: Crate, jobs: int) -> float:
        """How many seconds a crate takes by so many jobs, by what others took for their lines."""
        return self.seconds / max(1, self.lines) * crate.count(rb"\n") / jobs
