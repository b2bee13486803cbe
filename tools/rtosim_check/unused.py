"""Warnings of what nothing uses: objects, event groups, handlers; of handlers without a point; of interrupts that never come; of notifications
that nobody takes."""
from __future__ import annotations

from typing import Iterator, List, Set

from rtosim_report.faults import counted

from .application import Application, integer_of, pairs_of
from .findings import WARNING, Finding
from .formats import AWAITS, CALLED, COMMANDS, OBJECTS, OPS, OWN, RAISES, SECTIONS, op_of
from .nodes import Text


def warnings(application: Application) -> Iterator[Finding]:
    used = names_in_ops(application)
    for section in (*OBJECTS, "group", "variable"):
        for entry in application.entries[section]:
            if entry.name not in used:
                yield Finding(WARNING, "Unused", entry.table.span, f'no op uses the {CALLED[section]} "{entry.name}"')
    yield from of_daemon(application)
    yield from of_handlers(application)
    yield from of_interrupts(application)
    yield from of_notifications(application)


def names_in_ops(application: Application) -> Set[str]:
    """The names in the ops of tasks and handlers. Of an op that isn't known each word may be one."""
    found = set()
    for section in OPS:
        for entry in application.entries[section]:
            for _, node in entry.texts():
                found.update(names_in(section, node.value))
    return found


def names_in(section: str, text: str) -> List[str]:
    words, op = op_of(section, text)
    if op is None:
        return words
    place = op.name_at(words[1:])
    return [words[place[0] + 1]] if place else []


def of_daemon(application: Application) -> Iterator[Finding]:
    """A daemon that no handler has a command for. An op that isn't known may be one."""
    daemon = application.daemon
    texts = (node.value for it in application.entries["handler"] for _, node in it.texts())
    spelled = [op_of("handler", it)[1] for it in texts]
    if daemon is not None and all(op and op.word not in COMMANDS for op in spelled):
        message = f'no handler sets or clears bits, so the daemon "{daemon.name}" has nothing to do'
        yield Finding(WARNING, "Unused", daemon.table.span, message, OPS["handler"]["set"].rule)


def of_handlers(application: Application) -> Iterator[Finding]:
    """Handlers that come with no point and no interrupt, and a campaign without points."""
    nodes = application.points() or []
    called = {handler for it in nodes if isinstance(it, Text) for _, handler in pairs_of(it.value)}
    named = [it.table.get("handler") for it in application.entries["interrupt"]]
    called |= {it.value for it in named if isinstance(it, Text)}
    called |= raised(application)
    idle = [it for it in application.entries["handler"] if it.name not in called]
    if idle and not nodes:
        names = ", ".join(f'"{it.name}"' for it in idle)
        message = f"the file has no points, and no interrupt runs {names}: a campaign of it has no rows"
        rule = f'[campaign] points = ["all {idle[0].name}"] injects it before each step'
        yield Finding(WARNING, "NoPoints", idle[0].table.span, message, rule)
        return
    if application.points() == []:
        message, rule = "points is empty: a campaign of this file has no rows", SECTIONS["campaign"].keys["points"].rule
        yield Finding(WARNING, "NoPoints", application.root.get("campaign").members["points"].span, message, rule)
    for it in idle:
        rule = f'a point "all {it.name}" injects it before each step; an [[interrupt]] runs it at a tick'
        yield Finding(WARNING, "Unused", it.table.span, f'no point and no interrupt runs the handler "{it.name}"', rule)


def raised(application: Application) -> Set[str]:
    """The names that ops raise. An op that isn't known may do so, and each of its words may be one."""
    texts = [(section, node.value) for section in OPS for entry in application.entries[section] for _, node in entry.texts()]
    spelled = [op_of(section, text) for section, text in texts]
    return {it for words, op in spelled if op is None or op.word == RAISES for it in words[1:]}


def of_interrupts(application: Application) -> Iterator[Finding]:
    """Interrupts after the limit of ticks."""
    limit, more = integer_of(application.root.get("limits"), "ticks"), application.ticks_of_points()
    later = f", or up to {counted(more, 'tick')} later by those of a point," if more else ","
    for it in application.entries["interrupt"]:
        tick = integer_of(it.table, "tick")
        if limit is not None and tick is not None and tick > limit + more:
            message = f"interrupt {it.index} never comes: a run ends at tick {limit}{later} and it is due at tick {tick}"
            yield Finding(WARNING, "NeverComes", it.table.get("tick").span, message, SECTIONS["limits"].keys["ticks"].rule)


def of_notifications(application: Application) -> Iterator[Finding]:
    """The first op that notifies each task none of whose ops is about its notification. An op that isn't known may be one."""
    texts = [(it, key, at, node) for section, key in (("handler", "ops"), ("task", "script")) for it in application.entries[section]
             for at, node in it.texts()]
    takers = {it.name for it, _, _, node in texts if it.section == "task" and may_take(node.value)}
    for it, key, at, node in texts:
        words, op = op_of(it.section, node.value)
        if op and op.has_action and words[1] not in takers and is_task(application, words[1]):
            takers.add(words[1])
            message = f'{it.label}, {key} {at}, "{node.value}": no op of the task "{words[1]}" takes or waits for a notification'
            rule = f"{' and '.join(AWAITS)} use the notification of their own task"
            yield Finding(WARNING, "NeverTaken", node.span, message, rule)


def may_take(text: str) -> bool:
    words, op = op_of("task", text)
    return op is None or words[0] in OWN


def is_task(application: Application, name: str) -> bool:
    found = application.named.get(name)
    return found is not None and found.section == "task"
