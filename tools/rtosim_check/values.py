"""Warnings of the last answer and of variables: an op that needs a number while the last answer is none, or divides by a variable that is 0;
variables that nothing stores or nothing reads; and variables whose names are other words too.

Failed checks are sure: each condition may hold or not, and each op may end that may."""
from __future__ import annotations

from typing import Dict, FrozenSet, Iterator, List, Optional, Set, Tuple

from . import misuses
from .application import Application, Entry, integer_of
from .findings import WARNING, Finding
from .formats import ANSWER, ARITHMETIC, OF_HANDLERS, OPS, SECTIONS, WORDS_OF_CONDITIONS
from .misuses import Held
from .reach import Script, scripts_of

NONE, NUMBER = "none", "a number"
EITHER: FrozenSet[str] = frozenset((NONE, NUMBER))
# Ops that have no answer, and those whose answer may be none.
LEAVES = {"work", "mark", "expect", "if", "else", "repeat", "break", "end", "stamp", "enter_critical", "exit_critical", *OF_HANDLERS}
MAY_FIND_NOTHING = ("receive", "peek", "notify_wait")
DIVIDES = ("div", "mod")
INITIAL = SECTIONS["variable"].keys["initial"]
FAILS = "always a failed check"
NEEDS_A_NUMBER = 'put an op before it that returns a number, such as "load x", or put it into an "if not none"'
NEEDS_A_DIVISOR = "no op stores {name}, and its initial value is 0: give it another one with the key initial, or store a number before"
IS_READ = "load, conditions and arithmetic read a variable; pictures and --state show it in any case"


def warnings(application: Application) -> Iterator[Finding]:
    scripts = scripts_of(application)
    if scripts is not None:
        uses = Uses(scripts)
        for script in scripts:
            yield from of_failed_checks(application, script, uses)
        for entry in application.entries["variable"]:
            yield from of_uses(entry, uses)
    for entry in application.entries["variable"]:
        yield from of_name(entry)


def of_failed_checks(application: Application, script: Script, uses: Uses) -> Iterator[Finding]:
    """The ops of a script that use a number that isn't there."""
    held = misuses.held_before(script) if script.entry.section == "task" else {}
    for at, before in sorted(answers_before(script).items()):
        words, _ = script.ops[at]
        if not OPS[script.entry.section][words[0]].uses_answer(words[1:]) or may_be_misuse(words, held.get(at)):
            continue
        if before == {NONE}:
            yield warning(script, at, "the last answer is none on every path to it", NEEDS_A_NUMBER)
        elif words[0] in DIVIDES and is_zero(application, words[1], uses):
            yield warning(script, at, f"{words[1]} is 0", NEEDS_A_DIVISOR.format(name=words[1]))


def warning(script: Script, at: int, why: str, rule: str) -> Finding:
    key = "script" if script.entry.section == "task" else "ops"
    node = script.ops[at][1]
    return Finding(WARNING, "NoValue", node.span, f'{script.entry.label}, {key} {at}, "{node.value}": {FAILS}: {why}', rule)


def may_be_misuse(words: List[str], held: Optional[Held]) -> bool:
    """Whether a task's op may be misuse here, which comes before a failed check."""
    return words[0] not in misuses.LOOKS and held is not None and (held.suspensions.most > 0 or held.sections.most > 0)


def is_zero(application: Application, name: str, uses: Uses) -> bool:
    """Whether a variable has the value 0 in each run."""
    entry = application.named.get(name)
    return name not in uses.stored and entry is not None and entry.section == "variable" and not integer_of(entry.table, INITIAL.name)


# -- the last answer


def answers_before(script: Script) -> Dict[int, FrozenSet[str]]:
    """Of each op to which a way may lead whether the last answer may be none there, and whether it may be a number."""
    before = {0: frozenset((NONE,))} if script.ops else {}
    following = list(before)
    while following:
        at = following.pop()
        for it, found in answers_after(script, at, before[at]):
            joined = before.get(it, frozenset()) | found
            if found and it < len(script.ops) and joined != before.get(it):
                before[it] = joined
                following.append(it)
    return before


def answers_after(script: Script, at: int, before: FrozenSet[str]) -> List[Tuple[int, FrozenSet[str]]]:
    """The ops that may be next, each with what the last answer may be then."""
    words = script.ops[at][0]
    after = script.paths.after(at)
    if words[0] == "if":
        return list(zip(after, (narrowed(before, words[1:], True), narrowed(before, words[1:], False))))
    if words[0] == "expect":
        found = narrowed(before, words[1:], True)
    elif OPS[script.entry.section][words[0]].uses_answer(words[1:]):
        found = before & {NUMBER}
    elif words[0] in LEAVES:
        found = before
    else:
        found = EITHER if words[0] in MAY_FIND_NOTHING else frozenset((NUMBER,))
    return [(it, found) for it in after]


def narrowed(before: FrozenSet[str], condition: List[str], holds: bool) -> FrozenSet[str]:
    """What the last answer may be if a condition holds, or if it doesn't."""
    is_negated = condition[0] == "not"
    if condition[-1] == "none":
        return before & {NONE if holds != is_negated else NUMBER}
    return before & {NUMBER} if holds != is_negated else before


# -- variables


class Uses:
    """The names of variables that ops of these scripts store, and of those that they read, also by the answer of a store."""

    def __init__(self, scripts: List[Script]) -> None:
        self.stored: Set[str] = set()
        self.read: Set[str] = set()
        for script in scripts:
            for at, (words, _) in enumerate(script.ops):
                self.add(script, at, words)

    def add(self, script: Script, at: int, words: List[str]) -> None:
        op = OPS[script.entry.section][words[0]]
        if words[0] == "store":
            self.stored.add(words[1])
            if answer_is_used(script, at):
                self.read.add(words[1])
        elif words[0] == "load" or words[0] in ARITHMETIC or op.has_condition:
            found = op.name_at(words[1:])
            self.read.update([words[1 + found[0]]] if found else [])


def answer_is_used(script: Script, first: int) -> bool:
    """Whether an op after this one may look at its answer."""
    seen, following = set(), list(script.paths.after(first))
    while following:
        at = following.pop()
        if at in seen or at >= len(script.ops):
            continue
        seen.add(at)
        words = script.ops[at][0]
        op = OPS[script.entry.section][words[0]]
        if op.has_condition or op.uses_answer(words[1:]):
            return True
        if words[0] in LEAVES:
            following += script.paths.after(at)
    return False


def of_uses(entry: Entry, uses: Uses) -> Iterator[Finding]:
    name = entry.name
    if name in uses.read and name not in uses.stored and entry.table.get(INITIAL.name) is None:
        message = f'no op stores the variable "{name}", so it is always 0'
        yield Finding(WARNING, "NeverStored", entry.table.span, message, f"a variable that nothing stores is a constant; {INITIAL.rule}")
    if name in uses.stored and name not in uses.read:
        message = f'no op reads the variable "{name}", so what is stored there has no effect'
        yield Finding(WARNING, "NeverRead", entry.table.span, message, IS_READ)


def of_name(entry: Entry) -> Iterator[Finding]:
    if entry.name in WORDS_OF_CONDITIONS:
        message = f'variable "{entry.name}": in a condition "{entry.name}" has a meaning of its own, so no condition can name this variable'
    elif entry.name == ANSWER:
        message = f'variable "{ANSWER}": in the place of a number "{ANSWER}" is the last answer, and not this variable'
    else:
        return
    rule = f"any name but {', '.join((*WORDS_OF_CONDITIONS, ANSWER))} can be used everywhere"
    yield Finding(WARNING, "HiddenName", entry.table.get("name").span, message, rule)
