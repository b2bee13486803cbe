"""Named cases, each in a folder of its own: a line for each, and then 'N passed, M failed'."""
from __future__ import annotations

import os
import signal
import tempfile
from typing import Any, Callable, List

# A case takes what is made of its folder, if anything.
Case = Callable[..., Any]
CASES: List[Case] = []
LONG: List[Case] = []


class Skipped(Exception):
    """A case can't be run here, and why."""


def case(function: Case) -> Case:
    CASES.append(function)
    return function


def case_named(name: str, function: Any) -> Case:
    """A case that is printed under this name, and not under that of its function."""
    function.told_as = name
    return case(function)


def long_case(function: Case) -> Case:
    """A case that takes minutes, for a run of these alone."""
    LONG.append(function)
    return function


def equal(found: Any, wanted: Any) -> None:
    if found == wanted:
        return
    if isinstance(found, tuple) and isinstance(wanted, tuple) and len(found) == len(wanted):
        for it, wanted_there in zip(found, wanted):
            if not isinstance(it, bytes) and it != wanted_there:
                raise AssertionError(f"{it!r}, and not {wanted_there!r}, in {str(found)[:400]}")
        for it, wanted_there in zip(found, wanted):
            equal(it, wanted_there)
    if isinstance(found, bytes) and isinstance(wanted, bytes) and len(found) + len(wanted) > 400:
        at = len(os.path.commonprefix([found, wanted]))
        there, wanted_there = found[at : at + 60], wanted[at : at + 60]
        raise AssertionError(f"{len(found)} bytes and not {len(wanted)}, from byte {at} on {there!r} and not {wanted_there!r}")
    raise AssertionError(f"{found!r}, and not {wanted!r}")


def holds(text: Any, part: Any) -> None:
    assert part in text, f"{part!r} is not in {text!r}"


def in_room(function: Case, room: str) -> None:
    """Calls the case in its folder."""
    os.chdir(room)
    try:
        function()
    finally:
        os.chdir("/")


def run_cases(start: Callable[[Case, str], Any] = in_room, is_long: bool = False) -> int:
    """Starts each case by a call with its function and a new folder, and returns the status for all."""
    # a shell that starts the tests in the background has these ignored, and so would be what they start
    signal.signal(signal.SIGINT, signal.default_int_handler)
    signal.signal(signal.SIGHUP, signal.SIG_DFL)
    passed = failed = 0
    for function in LONG if is_long else CASES:
        name = getattr(function, "told_as", function.__name__.replace("_", " "))
        with tempfile.TemporaryDirectory(prefix="rtosim-test-") as room:
            try:
                start(function, os.path.realpath(room))
                passed += 1
                print(f"ok: {name}", flush=True)
            except Skipped as why:
                print(f"   (1 case is skipped: {why})", flush=True)
            except Exception as why:
                failed += 1
                print(f"FAILED: {name}: {type(why).__name__}: {why}", flush=True)
    print(f"{passed} passed, {failed} failed")
    return 1 if failed else 0
