"""Warnings of handlers that can't come, or that may come at more moments than is meant: points of one that is never armed; a raise that is
due after each run, or of a handler that points inject at any moment; a cancel of what nothing raises.

If an op isn't known, nothing is said."""
from __future__ import annotations

from typing import Any, Dict, Iterator, List, NamedTuple, Optional, Tuple

from rtosim_report.faults import counted

from .application import Application, Entry, integer_of, pairs_of, range_of
from .findings import WARNING, Finding
from .formats import ARMED, ARMS, CANCELS, DISARMS, OPS, RAISES, SECTIONS, STEP, op_of
from .nodes import Boolean, Text

LIMIT = SECTIONS["limits"].keys["ticks"]


class Use(NamedTuple):
    """An op about a handler: the words of it, and what a message calls it."""

    words: List[str]
    node: Any
    label: str


class Uses:
    """The ops about handlers, by their words and by the handlers' names."""

    def __init__(self, texts: List[Tuple[Entry, int, Any, List[str]]]) -> None:
        self.found: Dict[Tuple[str, str], List[Use]] = {}
        for entry, at, node, words in texts:
            key = "script" if entry.section == "task" else "ops"
            label = f'{entry.label}, {key} {at}, "{node.value}"'
            self.found.setdefault((words[0], words[1] if len(words) > 1 else ""), []).append(Use(words, node, label))

    def of(self, word: str, name: Optional[str]) -> List[Use]:
        return self.found.get((word, name or ""), [])


def uses_of(application: Application) -> Optional[Uses]:
    """The uses of all handlers, or None if an op isn't known."""
    texts = [(entry, at, node, *op_of(section, node.value)) for section in OPS for entry in application.entries[section]
             for at, node in entry.texts()]
    return Uses([(entry, at, node, words) for entry, at, node, words, _ in texts]) if all(op for *_, op in texts) else None


def is_armed(entry: Entry) -> bool:
    """Whether it is armed at reset."""
    value = entry.table.get(ARMED.name)
    return not isinstance(value, Boolean) or value.value


def warnings(application: Application) -> Iterator[Finding]:
    uses = uses_of(application)
    if uses is None:
        return
    for entry in application.entries["handler"]:
        if not is_armed(entry) and not uses.of(ARMS, entry.name):
            points = points_of(application, entry.name)
            if points:
                yield never_armed(entry, points)
        if is_armed(entry) and uses.of(RAISES, entry.name) and not uses.of(DISARMS, entry.name):
            if any(range_of(node.value) == (entry.name, STEP.least, STEP.most) for _, node in points_of(application, entry.name)):
                yield always_armed(entry, uses.of(RAISES, entry.name)[0])
        if uses.of(CANCELS, entry.name) and not uses.of(RAISES, entry.name):
            yield never_raised(entry, uses.of(CANCELS, entry.name)[0])
        yield from of_late(application, uses.of(RAISES, entry.name))


def points_of(application: Application, name: Optional[str]) -> List[Tuple[int, Text]]:
    """The points that inject this handler, each with its index."""
    nodes = list(enumerate(application.points() or [])) if name is not None else []
    return [(at, it) for at, it in nodes
            if isinstance(it, Text) and str(name) in it.value and any(handler == name for _, handler in pairs_of(it.value))]


def never_armed(entry: Entry, points: List[Tuple[int, Text]]) -> Finding:
    at, node = points[0]
    others = f"; {counted(len(points) - 1, 'other point')} {'has' if len(points) == 2 else 'have'} it too" if len(points) > 1 else ""
    message = f'campaign, points {at}, "{node.value}": no op arms "{entry.name}", and it isn\'t armed at reset, so it isn\'t injected'
    rule = f'put "arm {entry.name}" where the interrupt is enabled; a point whose first injection can\'t come is not reached'
    return Finding(WARNING, "NeverArmed", node.span, message + others, rule)


def always_armed(entry: Entry, use: Use) -> Finding:
    message = f'{use.label}: "all {entry.name}" injects it at any moment, also if nothing has raised it; did you mean armed = false?'
    rule = ("with armed = false it comes only when it is raised; to inject it between its start and its end, arm it with the start and "
            "disarm it in the handler")
    return Finding(WARNING, "AlwaysArmed", use.node.span, message, rule)


def never_raised(entry: Entry, use: Use) -> Finding:
    message = f'{use.label}: no op raises "{entry.name}", so there is nothing to cancel'
    return Finding(WARNING, "NeverRaised", use.node.span, message, OPS["task"][RAISES].rule)


def of_late(application: Application, uses: List[Use]) -> Iterator[Finding]:
    """Those that are due after the limit of ticks, whenever they are raised."""
    given, more = integer_of(application.root.get("limits"), LIMIT.name), application.ticks_of_points()
    limit = (LIMIT.most if given is None else given) + more
    for use in uses:
        if int(use.words[2]) > limit:
            message = f"{use.label}: this never comes: a run ends after {limit} ticks at the latest"
            yield Finding(WARNING, "NeverComes", use.node.span, message, LIMIT.rule)
