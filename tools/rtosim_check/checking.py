"""Checks a file: asks the program, and explains its fault or looks for what a tester can't mean."""
from __future__ import annotations

import itertools
import os
from typing import Any, Iterator, List, Optional, Set, Tuple

from . import arriving, base_ends, explaining, ignored, points, reach, unused, values
from .application import Application
from .base_ends import BaseEnd
from .findings import FAULT, Checked, Finding
from .formats import MOST_POINTS
from .lines import Lines
from .mending import CannotMend, Mending
from .nearness import did_you_mean
from .nodes import NotToml, Table
from .program import Program
from .toml_reader import read_document
from .verdict import Place, Verdict

MOST_BYTES = 64 << 20
# So many faults of a file are looked for.
MOST_FAULTS = 40
ENCODINGS = ((b"\xff\xfe\0\0", "UTF-32"), (b"\0\0\xfe\xff", "UTF-32"), (b"\xff\xfe", "UTF-16"), (b"\xfe\xff", "UTF-16"))


def check(name: str, program: Program) -> Checked:
    """All that is found in the file of this name."""
    try:
        with open(name, "rb") as file:
            content = file.read(MOST_BYTES + 1)
    except (OSError, ValueError) as why:
        return cannot_read(name, program, why)
    line, end = program.run(content)
    if end is not None:
        return taken(name, content, end, program)
    assert line is not None
    return refused(name, content, Verdict(line.replace("cannot read /dev/stdin", f"cannot read {name}")), program)


def cannot_read(name: str, program: Program, why: Any) -> Checked:
    checked = Checked(name)
    checked.could_be_checked = False
    reason = {IsADirectoryError: "it is a directory", FileNotFoundError: "there is no such file",
              PermissionError: "you have no permission to read it"}.get(type(why), getattr(why, "strerror", None) or str(why))
    meant = f"{name}.toml" if isinstance(why, FileNotFoundError) and os.path.isfile(f"{name}.toml") else None
    message = f"cannot be read: {reason}{did_you_mean(meant)}"
    checked.add(Finding(FAULT, "CannotRead", None, message, None, program.fault_of_file(name)))
    return checked


# -- a file that is refused


def refused(name: str, content: bytes, verdict: Verdict, program: Program) -> Checked:
    if verdict.kind in ("TooLarge", "CannotRead", "Memory"):
        return not_judged(name, verdict)
    text, problem = text_of(content)
    checked = Checked(name, Lines(text))
    root = None
    if problem is None:
        try:
            root = read_document(text)
        except NotToml as fault:
            problem = Finding(FAULT, "NotToml", (fault.start, fault.end), with_line(fault, checked.lines), fault.rule)
    if verdict.kind == "NotToml":
        nothing = "the program says that this isn't TOML, but this check finds no fault in it"
        checked.add(problem or Finding(FAULT, "NotToml", None, nothing))
    elif root is None or not verdict.place:
        checked.add(Finding(FAULT, verdict.kind or "Fault", None, "the program refuses this file"))
    else:
        for it in faults(verdict, text, root, program):
            checked.add(it)
        spans = {it.span for it in checked.findings}
        for it in ignored.warnings(root, program.ignored):
            if it.span not in spans:
                checked.add(it)
    checked.findings[0].program = verdict.line
    return checked


def faults(verdict: Verdict, text: str, root: Table, program: Program) -> Iterator[Finding]:
    """All faults of a document that don't follow from each other, the program's first one first."""
    mending = Mending(root)
    asked: Set[str] = set()
    while verdict.place and verdict.line not in asked and len(asked) < MOST_FAULTS:
        place = Place(verdict.place)
        if not asked or not mending.follows(verdict, place):
            found = explaining.explain(verdict, text, root, program.takes_several)
            found.program = verdict.line
            yield found
        asked.add(verdict.line)
        try:
            mending.mend(verdict, place)
        except CannotMend:
            return
        line, _ = program.run(mending.text().encode())
        if line is None:
            return
        verdict = Verdict(line)


def with_line(fault: NotToml, lines: Any) -> str:
    return fault.message if fault.other is None else fault.message.replace("{line}", str(lines.line_of(fault.other)))


def not_judged(name: str, verdict: Verdict) -> Checked:
    """A file that the program couldn't judge."""
    checked = Checked(name)
    checked.could_be_checked = False
    message = {"TooLarge": "the file has more than 64 MiB", "Memory": "there is no memory left to check it"}.get(verdict.kind)
    checked.add(Finding(FAULT, verdict.kind, None, message or "cannot be read", None, verdict.line))
    return checked


def text_of(content: bytes) -> Tuple[str, Optional[Finding]]:
    """The text of a file, and what is wrong with its bytes, if something is."""
    other = other_encoding(content)
    if other:
        return "", Finding(FAULT, "NotToml", (0, 0), f"{other}; save it as UTF-8", "a file is UTF-8")
    try:
        return content.decode("utf-8"), None
    except UnicodeDecodeError as why:
        at = len(content[: why.start].decode("utf-8"))
        text = content.decode("utf-8", "replace")
        message = f"the byte 0x{content[why.start]:02X} isn't valid UTF-8; save the file as UTF-8"
        return text, Finding(FAULT, "NotToml", (at, at + 1), message, "a file is UTF-8")


def other_encoding(content: bytes) -> Optional[str]:
    """That the bytes are those of another encoding, if they look so."""
    encoding = next((it for mark, it in ENCODINGS if content.startswith(mark)), None)
    if encoding:
        return f"the file is {encoding} (it begins with the bytes {content[0]:02X} {content[1]:02X})"
    front = content[:200]
    return "the file looks like UTF-16" if front.count(0) * 4 > len(front) else None


# -- a file that the program takes


def without_ends(findings: List[Finding]) -> List[Finding]:
    """The warnings but those of an end of the script with an op that isn't done, since it is a failed check."""
    failed = {it.span for it in findings if it.kind == "NoValue"}
    return [it for it in findings if it.kind != "Misuse" or it.span not in failed]


def taken(name: str, content: bytes, end: BaseEnd, program: Program) -> Checked:
    text, _ = text_of(content)
    checked = Checked(name, Lines(text))
    try:
        root = read_document(text)
    except NotToml:
        return checked
    application = Application(root)
    nodes = application.points() or []
    if points.count(nodes, end.steps) > MOST_POINTS:
        line = program.campaign(content)
        if line is not None and Verdict(line).kind == "TooManyPoints":
            checked.add(points.too_many(nodes, end.steps, root, line))
    looks = (ignored.warnings(root, program.ignored), unused.warnings(application), points.warnings(application, end.steps),
             reach.warnings(application), values.warnings(application), base_ends.warnings(application, end),
             arriving.warnings(application))
    for it in without_ends(list(itertools.chain(*looks))):
        checked.add(it)
    checked.findings.sort(key=lambda it: (it.severity, it.span or (0, 0)))
    return checked
