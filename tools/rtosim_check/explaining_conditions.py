"""Why the program refuses the condition of an op, as of `if` and `expect`."""
from __future__ import annotations

import re
from typing import Any, Dict, List, Optional, Tuple

from .formats import Condition, MEANT_ANSWERS, MEANT_FRONTS, MEANT_NONE, MEANT_WITH_EQUAL, Op, WORDS_OF_CONDITIONS, Word
from .nearness import did_you_mean, near, quoted
from .problem import Problem

A_NUMBER = re.compile("[0-9]{1,10}")
# An operator next to its number.
TOGETHER = re.compile("(==|!=|<>|<=|>=|=|!|<|>)(.+)")


def problem_of_condition(words: List[Word], ops: Dict[str, Op]) -> Optional[Problem]:
    """What is wrong with an op that takes a condition, or that is taken to take one; None of any other op."""
    op = ops[words[0][0]]
    given = [it[0] for it in words[1:]]
    if op.word == "else" and given:
        return problem_of_else(op, words, given, ops)
    if not op.has_condition:
        return None
    if op.fits(given):
        return Problem(0, 0, "the program doesn't accept this op", op.rule)
    if not given:
        message = f'"{op.word}" needs a condition; did you mean "{op.word} not none"?'
        return Problem(words[0][1], words[0][2], message, op.rule)
    at, message = problem_of(op.word, given)
    return Problem(words[at + 1][1], words[-1][2] if at == 0 else words[at + 1][2], message, op.rule)


def problem_of_else(op: Op, words: List[Word], given: List[str], ops: Dict[str, Op]) -> Optional[Problem]:
    """An `else if`, which is no op."""
    if given[0] != "if" or "if" not in ops:
        return None
    message = '"else" takes no arguments; write the "if" as the next op, with its own "end"'
    return Problem(words[1][1], words[-1][2], message, ops["if"].rule)


def problem_of(word: str, given: List[str]) -> Tuple[int, str]:
    """Which of the words is wrong, and what to say of it."""
    meant = meant_condition(given)
    if meant:
        return 0, f'"{" ".join(given)}" isn\'t a condition{did_you_mean(quoted(f"{word} {meant}"))}'
    front = given[0]
    if front not in Condition.FRONTS:
        if len(given) > 1 and Condition().fits(front):
            return 1, f'"{word}" takes one condition; "{given[1]}" is too many{did_you_mean(quoted(f"{word} {front}"))}'
        return 0, no_answer(front, True)
    if len(given) == 1:
        wanted = "a number, a variable, or none," if Condition.FRONTS[front] else "a number or a variable"
        return 0, f'{wanted} is missing after "{front}"'
    if len(given) > 2 and Condition().fits_all(given[:2]):
        meant = quoted(" ".join([word, *given[:2]]))
        return 2, f'"{word}" takes one condition; "{given[2]}" is too many{did_you_mean(meant)}'
    if given[1] == "none":
        return 1, f'none is neither below nor above a number{did_you_mean(quoted(f"{word} none"))}'
    return 1, no_answer(given[1], Condition.FRONTS[front])


def meant_condition(given: List[str]) -> Optional[str]:
    """The condition that is meant by operators or other words, or None."""
    apart = TOGETHER.fullmatch(given[0])
    if apart and len(given) == 1:
        given = [*apart.groups(), *given[1:]]
    if len(given) != 2:
        return None
    front: Any = given[0].lower()
    last = given[1]
    if front in MEANT_WITH_EQUAL and A_NUMBER.fullmatch(last):
        front, more = MEANT_WITH_EQUAL[front]
        last = str(int(last) + more)
    else:
        front = MEANT_FRONTS.get(front) if front in MEANT_FRONTS else near(front, Condition.FRONTS)
        last = "none" if last in MEANT_NONE else MEANT_ANSWERS.get(last, last)
    words = None if front is None else [it for it in (front, last) if it]
    return " ".join(words) if words and words != given and Condition().fits_all(words) else None


def no_answer(word: str, may_be_none: bool) -> str:
    """What to say of a word that is no answer."""
    condition = Condition()
    ends = f"{condition.least} to {condition.most}" + (condition.or_else if may_be_none else ", or the name of a variable")
    if word in WORDS_OF_CONDITIONS:
        return f'expected a number, {ends}, found "{word}", which is a word of conditions and can\'t name a variable here'
    if re.fullmatch("[0-9]{11,}", word):
        return f"{word} has more than ten digits"
    if re.fullmatch("-?[0-9]+", word):
        return f"{word} is out of range: {ends}"
    return f'expected a number, {ends}, found "{word}"'
