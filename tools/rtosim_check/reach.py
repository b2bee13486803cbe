"""Warnings of what can't succeed: a task that waits forever for what nobody does, or loops forever; an op that no way leads to; and
a handler's call that always fails.

All are sure. What a task waits for is taken to come wherever an op that brings it may be reached at all, each condition may hold or
not, and each handler is taken to come at any time. If an op isn't known, nothing is said."""
from __future__ import annotations

from typing import Any, Dict, FrozenSet, Iterator, List, Optional, Set

from . import misuses
from .application import Application, Entry, integer_of
from .findings import WARNING, Finding
from .formats import AWAITS, COMMANDS, ENDLESS, SECTIONS, op_of
from .nodes import Boolean, Text
from .paths import Paths

NOBODY = "no reachable op"
WRITES = ("send", "send_front", "overwrite")
FILLS = ("send", "send_front", "give", *COMMANDS)
NOTIFIES, KEEPS = "notify", "keep"
SLEEPS = ("delay", "delay_until")
LIMIT = SECTIONS["limits"].keys["ticks"]
PASSES = "a run passes once every task that isn't endless has ended, and needs at least one such task"
# In the place of a name: the daemon's queue has none.
NAMELESS = ""


def scripts_of(application: Application) -> Optional[List[Script]]:
    """The scripts of handlers and tasks, or None if an op isn't known."""
    scripts = [Script(it) for it in (*application.entries["handler"], *application.entries["task"])]
    return scripts if all(it.is_known for it in scripts) else None


def warnings(application: Application) -> Iterator[Finding]:
    scripts = scripts_of(application)
    if scripts is not None:
        yield from of_tasks(application, scripts)
        yield from of_unreached(scripts)
        yield from of_handlers(application, [it for it in scripts if it.entry.section == "handler"])
        yield from misuses.warnings([it for it in scripts if it.entry.section == "task"])


class Script:
    """The ops of a task or a handler: each its words and its node."""

    def __init__(self, entry: Entry) -> None:
        self.entry = entry
        spelled = [(*op_of(entry.section, node.value), node) for _, node in entry.texts()]
        self.ops = [(words, node) for words, _, node in spelled]
        self.is_known = all(op for _, op, _ in spelled)
        self.paths: Any = Paths([words for words, _ in self.ops]) if self.is_known else None
        # Of each op to which it may come the mutexes that it surely holds then; and the ops that may end.
        self.held: Dict[int, FrozenSet[str]] = {0: frozenset()}
        self.passed: Set[int] = set()

    @property
    def is_endless(self) -> bool:
        value = self.entry.table.get(ENDLESS.name)
        return isinstance(value, Boolean) and value.value

    @property
    def may_end(self) -> bool:
        return len(self.ops) in self.held

    def come(self, at: int, held: FrozenSet[str]) -> bool:
        """It may reach this op with these mutexes; whether that is new."""
        before = self.held.get(at)
        self.held[at] = held if before is None else before & held
        return self.held[at] != before

    def held_after(self, at: int) -> FrozenSet[str]:
        """The mutexes that it surely holds when this op has ended."""
        words, held = self.ops[at][0], self.held[at]
        if words[0] == "lock" and words[2] == "forever":
            return held | {words[1]}
        return held - {words[1]} if words[0] == "unlock" else held


class Brought:
    """What ops that may be reached bring: items, counts, bits, resumes, notifications."""

    def __init__(self, application: Application) -> None:
        self.queues: Set[str] = set()
        self.semaphores: Set[str] = set()
        self.resumed: Set[str] = set()
        self.notified: Set[str] = set()
        self.bits: Dict[str, int] = {}
        limit = integer_of(application.root.get("limits"), LIMIT.name)
        self.limit = (LIMIT.most if limit is None else limit) + application.ticks_of_points()
        for it in application.entries["counting"]:
            if integer_of(it.table, "initial") and it.name is not None:
                self.semaphores.add(it.name)

    def add(self, words: List[str]) -> None:
        word = words[0]
        if word in WRITES:
            self.queues.add(words[1])
        elif word == "give":
            self.semaphores.add(words[1])
        elif word == "resume":
            self.resumed.add(words[1])
        elif word == NOTIFIES:
            self.notified.add(words[1])
        elif word == "set":
            self.bits[words[1]] = self.bits.get(words[1], 0) | int(words[2])

    def lacks(self, script: Script, at: int) -> Optional[str]:
        """What is missing for this op of a task to end, or None."""
        words = script.ops[at][0]
        word, name = words[0], words[1] if len(words) > 1 else None
        if word in SLEEPS and at + 1 < len(script.ops) and script.entry.name not in self.resumed:
            # a sleep that a suspension has cut off ends at the resume
            return f"a run ends after {self.limit} ticks" if int(words[1]) >= self.limit else None
        if word == "suspend" and name == script.entry.name and at + 1 < len(script.ops):
            return None if name in self.resumed else f'{NOBODY} resumes "{name}"'
        if words[-1] != "forever":
            return None
        if word in ("receive", "peek"):
            return None if name in self.queues else f'{NOBODY} sends to "{name}"'
        if word == "take":
            return None if name in self.semaphores else f'{NOBODY} gives "{name}"'
        if word in AWAITS:
            # so does one for a notification that a suspension has cut off
            name = script.entry.name
            return None if name in self.notified | self.resumed else f'{NOBODY} notifies "{name}"'
        if word == "wait":
            # a wait for bits that a suspension has cut off ends at the resume, whatever the bits are
            return None if script.entry.name in self.resumed else self.lacks_bits(words)
        if word == "lock" and name in script.held[at]:
            return f'this task has already locked "{name}"'
        return None

    def lacks_bits(self, words: List[str]) -> Optional[str]:
        """As lacks, of `wait g b c k forever`."""
        mask, bits = int(words[2]), self.bits.get(words[1], 0)
        is_met = bits & mask if words[3] == "any" else bits & mask == mask
        if is_met:
            return None
        what = f"a bit of mask {mask}" if words[3] == "any" else f"the bits of mask {mask & ~bits}"
        return f'{NOBODY} sets {what} of "{words[1]}"'


def of_tasks(application: Application, scripts: List[Script]) -> Iterator[Finding]:
    """The tasks that reach an op which can't end, or never to their end."""
    brought = Brought(application)
    tasks = [it for it in scripts if it.entry.section == "task"]
    for it in scripts:
        if it.entry.section == "handler":
            for words, _ in it.ops:
                brought.add(words)
    while any([go_on(it, brought) for it in tasks]):
        pass
    for it in tasks:
        if not it.may_end and not it.is_endless:
            yield never_ends(it, brought)
    if tasks and all(it.is_endless for it in tasks):
        span = tasks[0].entry.table.members[ENDLESS.name].span
        yield Finding(WARNING, "NeverEnds", span, "all tasks are endless, so no run passes", PASSES)


def go_on(script: Script, brought: Brought) -> bool:
    """Lets a task go on as far as it may come, and returns whether it has."""
    has_gone, following = False, list(script.held)
    while following:
        at = following.pop()
        if at == len(script.ops) or brought.lacks(script, at) is not None:
            continue
        if at not in script.passed:
            script.passed.add(at)
            brought.add(script.ops[at][0])
            has_gone = True
        held = script.held_after(at)
        found = [it for it in script.paths.after(at) if script.come(it, held)]
        following += found
        has_gone |= bool(found)
    return has_gone


def never_ends(script: Script, brought: Brought) -> Finding:
    """The first op that can't end; if there is none, the loop that is never left."""
    stuck = [it for it in sorted(script.held) if brought.lacks(script, it) is not None]
    if not stuck:
        return never_left(script)
    words, node = script.ops[stuck[0]]
    lack = brought.lacks(script, stuck[0])
    label = f'{script.entry.label}, script {stuck[0]}, "{node.value}"'
    message = f"{label}: {lack}, so this op never ends and no run passes"
    return Finding(WARNING, "NeverEnds", node.span, message, LIMIT.rule if words[0] in SLEEPS else PASSES)


def never_left(script: Script) -> Finding:
    paths = script.paths
    at = next(it for it in sorted(script.held) if paths.is_endless(it) and paths.ends[it] + 1 not in script.held)
    node = script.ops[at][1]
    label = f'{script.entry.label}, script {at}, "{node.value}"'
    message = f"{label}: no break leaves this loop, so the task never ends and no run passes; did you mean endless = true?"
    return Finding(WARNING, "NeverEnds", node.span, message, ENDLESS.rule)


def of_unreached(scripts: List[Script]) -> Iterator[Finding]:
    """Ops to which no way leads, whatever comes."""
    for script in scripts:
        for at in script.paths.unreached():
            node = script.ops[at][1]
            key = "script" if script.entry.section == "task" else "ops"
            message = f'{script.entry.label}, {key} {at}, "{node.value}": this op is never reached'
            rule = "nothing is reached after a break, or after a repeat forever that no break leaves"
            yield Finding(WARNING, "Unreached", node.span, message, rule)


def of_handlers(application: Application, handlers: List[Script]) -> Iterator[Finding]:
    """The calls of handlers that find no room, since the handler itself has filled it just before."""
    room: Dict[Any, Any] = {it.name: integer_of(it.table, "length") for it in application.entries["queue"]}
    room.update({it.name: 1 for section in ("binary", "task") for it in application.entries[section]})
    room.update({it.name: integer_of(it.table, "max") for it in application.entries["counting"]})
    if application.daemon is not None:
        room[NAMELESS] = integer_of(application.daemon.table, "length")
    for script in handlers:
        # Of each op how much the handler has put into what at least, whichever way it came there: ways go on alone.
        before: Dict[int, Dict[Any, int]] = {0: {}}
        for at, (words, node) in enumerate(script.ops):
            put = before[at]
            name = NAMELESS if words[0] in COMMANDS else words[1] if len(words) > 1 else None
            if needs_room(words) and put.get(name, 0) >= room.get(name, 1 << 32):
                yield always_fails(script, at, node, room[name])
            after = filled(put, words[0], name, room.get(name, 1 << 32))
            for following in script.paths.after(at):
                before[following] = least(before[following], after) if following in before else after


def needs_room(words: List[str]) -> bool:
    """Whether an op of a handler fails if there is no room. Of a task's notifications one alone is pending, which `keep` keeps."""
    return words[0] in FILLS or words[0] == NOTIFIES and words[2] == KEEPS


def filled(put: Dict[Any, int], word: str, name: Optional[str], room: int) -> Dict[Any, int]:
    """How much there is in what after an op."""
    if word in FILLS:
        return {**put, name: min(put.get(name, 0) + 1, room)}
    if word in ("overwrite", NOTIFIES):
        return {**put, name: 1}
    return {**put, name: max(put.get(name, 0) - 1, 0)} if word == "receive" else put


def least(one: Dict[Any, int], other: Dict[Any, int]) -> Dict[Any, int]:
    return {it: min(one[it], other[it]) for it in one if it in other}


def always_fails(script: Script, at: int, node: Text, room: int) -> Finding:
    words = node.value.split()
    why, rule = f"the handler has already filled \"{words[1]}\"", "no task runs between the ops of a handler to make room"
    if words[0] in COMMANDS:
        why = f"the length of the daemon's queue is {room}, and the handler has already filled it"
    elif words[0] == NOTIFIES:
        why = f'the handler has already notified "{words[1]}", so a notification is pending'
        rule = "no task runs between the ops of a handler to take the notification"
    else:
        why = f"{'its greatest count is' if words[0] == 'give' else 'its length is'} {room}, and {why}"
    message = f'{script.entry.label}, ops {at}, "{node.value}": this call always fails: {why}'
    return Finding(WARNING, "AlwaysFails", node.span, message, rule)
