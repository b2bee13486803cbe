"""Why a row ends as it does, in words that last: without points, steps and numbers of rows, and with the application's texts in place of
the numbers of ops.

Of a stuck run, a report alone shows the last call of each task. With the application it is known what each task does next."""
from __future__ import annotations

import functools
import re
from collections import Counter
from typing import List, Optional, TYPE_CHECKING, Tuple, Union

from .application import Application
from .reading import Run
from .report import Line, Verdict
from .whereabouts import Whereabouts

if TYPE_CHECKING:
    from .base_run import BaseRun

LAST_CALLS = re.compile(rb" call ([^ ]+) ([0-9]+ [a-z_]+) = ")
# A handler's call that wasn't possible: no room, also for a command or a notification, no item, nobody to resume.
FAILED = rb"isr [A-Za-z0-9_]+ [0-9]+ (?:(?:send|send_front|give|notify|resume|set|clear) = 0|(?:receive|peek) = none)"
FAILED_CALL, FAILED_LINE = re.compile(FAILED), re.compile(b" " + FAILED + rb"\n")


@functools.lru_cache(maxsize=1 << 14)
def has_failed(what: bytes) -> bool:
    return FAILED_CALL.fullmatch(what) is not None


def failed_calls(lines: List[Line]) -> List[bytes]:
    """The handlers' calls in the lines that failed."""
    return [what for _, _, what in lines if what.startswith(b"isr ") and has_failed(what)]


def failed_beyond(run: Run, tail: List[Line], base: BaseRun, position: int) -> Tuple[bytes, ...]:
    """The handlers' calls in the row's tail that failed, but those of the base run from there on: each once, in order."""
    if not FAILED_LINE.search(run.text):
        return ()
    return beyond(failed_calls(tail), base, position)


def failed_in_text(run: Run, base: BaseRun, start: int) -> Tuple[bytes, ...]:
    """As failed_beyond, of a row that is the base run up to this byte, and whose lines aren't read."""
    failed = [it.group()[1:-1] for it in FAILED_LINE.finditer(run.text, start)]
    return beyond(failed, base, base.place(run.head.point.first_step)[0]) if failed else ()


def beyond(failed: List[bytes], base: BaseRun, position: int) -> Tuple[bytes, ...]:
    """Those of the calls that failed that the base run doesn't have from this line on: each once, in order."""
    known = base.failed_from(position) if base is not None else ()
    if known:
        more = Counter(failed) - Counter(known)
        failed = [it for it in failed if it in more]
    return tuple(dict.fromkeys(failed))


def last_calls(run: Run) -> Tuple[Tuple[bytes, bytes], ...]:
    """The last call of each task."""
    return tuple(sorted(dict(LAST_CALLS.findall(run.text)).items()))


def words_of(calls: Tuple[Tuple[bytes, bytes], ...]) -> str:
    return ", ".join(f"{name.decode()} after {call.decode()}" for name, call in calls)


class Causes:
    """Names causes, of an application that is known or not."""

    def __init__(self, application: Optional[Application] = None, base: Optional[BaseRun] = None) -> None:
        self.application = application
        self.whereabouts = None if application is None else Whereabouts(application, base)

    def failed_words(self, what: bytes) -> str:
        """A handler's call that failed."""
        _, name, index, rest = what.decode().split(" ", 3)
        op = self.application and self.application.op(name, int(index))
        return f"{name}: {op.text} = {rest.rpartition(' ')[2]}" if op else f"{name} {index} {rest}"

    def key_of(self, run: Run, failed: Tuple[bytes, ...]) -> Tuple[Union[Tuple[Tuple[bytes, bytes], ...], str], Tuple[bytes, ...]]:
        """What rows of one cause have in common: how and at which op the run ends, and which calls of handlers failed."""
        verdict = run.head.verdict
        if verdict.kind != "stuck":
            return verdict.text, failed
        return last_calls(run) if self.whereabouts is None else self.whereabouts.at_end_of(run), failed

    def end_of(self, run: Run) -> str:
        verdict = run.head.verdict
        if verdict.kind == "stuck":
            where = words_of(last_calls(run)) if self.whereabouts is None else self.whereabouts.at_end_of(run)
            return f"stuck: {where}" if where else "stuck"
        return self.end_of_head(verdict)

    def end_of_head(self, verdict: Verdict) -> str:
        """As end_of, of a row whose head alone is known."""
        script = None if verdict.task is None or self.application is None else self.application.script(verdict.task)
        if script is None:
            return verdict.text
        code = f" {verdict.numbers[1]}" if verdict.kind == "misuse" else ""
        return f"{verdict.kind}{code} {verdict.task}: {script.lasting_name(verdict.numbers[0])}"
