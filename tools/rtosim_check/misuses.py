"""Warnings of ops that are a misuse whenever they are done: an `unlock` of a mutex that the task can't hold, an op that may wait inside
`suspend_all` or a critical section, a `resume_all`, an `exit_critical` or an end of the script that has no pair; and of sections that
stay open.

All are sure: each condition may hold or not, each `lock` may succeed, and each op may end."""
from __future__ import annotations

from typing import Dict, FrozenSet, Iterator, List, NamedTuple, Optional, Set, TYPE_CHECKING

from .findings import WARNING, Finding
from .formats import OF_HANDLERS, OF_VARIABLES

if TYPE_CHECKING:
    from .reach import Script

HOLDS, RELEASES = "suspend_all", "resume_all"
OPENS, CLOSES = "enter_critical", "exit_critical"
# Ops that may be done in a critical section.
LOOKS = {"repeat", "break", "if", "else", "end", "mark", "expect", "time", "stamp", "since", "waiting", "spaces", "bits", "clear",
         "notify_clear", "notify_value_clear", OPENS, CLOSES, *OF_VARIABLES, *OF_HANDLERS}
# Ops that neither wait nor switch.
STAYS = LOOKS | {"work", HOLDS, RELEASES}
RULE = "a misuse ends the run: FreeRTOS asserts that it doesn't happen, or its manual forbids it"
WHY = {
    1: "it may wait or switch, and a suspend_all is active on every path to it", 2: "no suspend_all is active on any path to it",
    3: "the task can't hold the mutex here", 4: "the script ends with it, and a suspend_all is active on every path to it",
    5: "it isn't allowed in a critical section, and one is open on every path to it",
    6: "no critical section is open on any path to it",
    7: "the script ends with it, and a critical section is open on every path to it",
}
AROUND = "put this op before the enter_critical or after the exit_critical"
TO_DO = {
    5: f"a call that may wait or switch isn't allowed in a section: {AROUND}",
    6: "write one exit_critical for each enter_critical of this task, on every path",
    7: "write an exit_critical for each enter_critical of this task, on every path to the end",
}
OF_WORK = f"a tick in a section would be lost: {AROUND}, or hold the scheduler with suspend_all, which keeps ticks"


class Count(NamedTuple):
    """How many of something are open, at least and at most."""

    fewest: int = 0
    most: int = 0

    def joined(self, other: Count) -> Count:
        return Count(min(self.fewest, other.fewest), max(self.most, other.most))

    def more(self, bound: int) -> Count:
        return Count(min(self.fewest + 1, bound), min(self.most + 1, bound))

    def less(self) -> Count:
        return Count(max(self.fewest, 1) - 1, self.most - 1)


class Held(NamedTuple):
    """What may be held before an op: how many `suspend_all`, how many critical sections, and which mutexes at most."""

    suspensions: Count = Count()
    sections: Count = Count()
    mutexes: FrozenSet[str] = frozenset()

    def joined(self, other: Held) -> Held:
        return Held(self.suspensions.joined(other.suspensions), self.sections.joined(other.sections), self.mutexes | other.mutexes)


def warnings(scripts: List[Script]) -> Iterator[Finding]:
    """The misuses of these scripts of tasks, whose ops are known, and their sections that stay open."""
    for script in scripts:
        codes = misuses(script)
        for at, code in sorted(codes.items()):
            yield warning(script, at, "Misuse", f"always a misuse: {WHY[code]}", rule_of(script.ops[at][0], code))
        if not {5, 7} & set(codes.values()):
            for at in left_open(script):
                message = "this section stays open: no exit_critical follows on any path"
                yield warning(script, at, "LeftOpen", message, f"no handler and no tick comes while a section is open; {TO_DO[6]}")


def warning(script: Script, at: int, kind: str, message: str, rule: str) -> Finding:
    node = script.ops[at][1]
    return Finding(WARNING, kind, node.span, f'{script.entry.label}, script {at}, "{node.value}": {message}', rule)


def rule_of(words: List[str], code: int) -> str:
    """Why a misuse ends the run, and what to do."""
    to_do = OF_WORK if code == 5 and words[0] == "work" else TO_DO.get(code)
    return f"{RULE}; {to_do}" if to_do else RULE


def misuses(script: Script) -> Dict[int, int]:
    """The code of each op that is a misuse on each way to it."""
    before = held_before(script)
    codes = {at: code_of(script.ops[at][0], held) or code_of_end(script, at, held) for at, held in before.items() if at < len(script.ops)}
    return {at: code for at, code in codes.items() if code}


def held_before(script: Script) -> Dict[int, Held]:
    """What may be held before each op to which a way leads without a misuse."""
    before = {0: Held()} if script.ops else {}
    following = list(before)
    while following:
        at = following.pop()
        words = script.ops[at][0]
        if code_of(words, before[at]) is not None:
            continue
        after = held_after(words, before[at], len(script.ops))
        for it in script.paths.after(at):
            found = after if it not in before else before[it].joined(after)
            if before.get(it) != found:
                before[it] = found
                following += [it] if it < len(script.ops) else []
    return before


def code_of(words: List[str], held: Held) -> Optional[int]:
    """The code of the misuse that an op is whichever way leads to it; None if it needn't be one."""
    if words[0] not in STAYS and held.suspensions.fewest > 0:
        return 1
    if words[0] == RELEASES and held.suspensions.most == 0:
        return 2
    if words[0] == "unlock" and words[1] not in held.mutexes:
        return 3
    if words[0] not in LOOKS and held.sections.fewest > 0:
        return 5
    return 6 if words[0] == CLOSES and held.sections.most == 0 else None


def code_of_end(script: Script, at: int, held: Held) -> Optional[int]:
    """The code of the misuse that it is to end the script with this op, if it surely ends there and is one."""
    if set(script.paths.after(at)) != {len(script.ops)}:
        return None
    after = held_after(script.ops[at][0], held, len(script.ops))
    if after.suspensions.fewest > 0:
        return 4
    return 7 if after.sections.fewest > 0 else None


def held_after(words: List[str], held: Held, bound: int) -> Held:
    """What is held after an op that was no misuse."""
    word = words[0]
    if word not in STAYS:
        held = held._replace(suspensions=Count())
    if word not in LOOKS:
        held = held._replace(sections=Count())
    if word == HOLDS:
        return held._replace(suspensions=held.suspensions.more(bound))
    if word == RELEASES:
        return held._replace(suspensions=held.suspensions.less())
    if word == OPENS:
        return held._replace(sections=held.sections.more(bound))
    if word == CLOSES:
        return held._replace(sections=held.sections.less())
    if word == "lock":
        return held._replace(mutexes=held.mutexes | {words[1]})
    return held._replace(mutexes=held.mutexes - {words[1]}) if word == "unlock" else held


def left_open(script: Script) -> List[int]:
    """Those that open a critical section, of the ops to which a way leads, after which no op closes one."""
    words = [words[0] for words, _ in script.ops]
    reached = reached_from(script, 0)
    return [at for at in sorted(reached) if words[at] == OPENS and not any(words[it] == CLOSES for it in reached_after(script, at))]


def reached_after(script: Script, at: int) -> Set[int]:
    return set().union(*(reached_from(script, it) for it in script.paths.after(at)))


def reached_from(script: Script, first: int) -> Set[int]:
    """The ops to which ways lead from this one."""
    reached, following = set(), [first]
    while following:
        at = following.pop()
        if at not in reached and at < len(script.ops):
            reached.add(at)
            following += script.paths.after(at)
    return reached
