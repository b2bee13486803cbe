"""What is said of variables and of the last answer in ops that can't be: an assignment as in C, a variable or `answer` in the place of a
number, and names that no variable has."""
from __future__ import annotations

import re
from typing import Any, List, Optional, Sequence

from .application import Application
from .explaining_conditions import meant_condition
from .formats import (ANSWER, Argument, Condition, MEANT_ANSWERS, MEANT_NONE, MEANT_OF_VARIABLES, OPERATORS, OPS, Op, Operand, Turns,
                      Value, Wait, Word, is_name)
from .nearness import did_you_mean, near, quoted
from .problem import Problem

ASSIGNMENT = re.compile(r" *([A-Za-z][A-Za-z0-9_]*) *(?:(\+\+|--)|([-+*/%&|^]?)=(?!=) *([A-Za-z0-9_]+)) *;? *")
COMPARISON = re.compile(r" *(?:(if|expect) +)?([A-Za-z][A-Za-z0-9_]*) *(==|!=|<=|>=|<|>) *([A-Za-z0-9_]+) *")
MEMORY = '"store" changes a variable, and "add" and the like change the last answer, as in "load x", "add 1", "store x answer"'
TAKES_ANSWER = 'only send, send_front, overwrite, mark, store and notify take "answer" as their number'
TAKES_VARIABLE = "only conditions and add, sub, mul, div, mod, and, or, xor take the name of a variable as their number"


def listed_ops(ops: Sequence[str]) -> str:
    """As `"load x", "add 1"`."""
    return ", ".join(f'"{it}"' for it in ops)


def problem_of_assignment(text: str, section: str, application: Application) -> Optional[Problem]:
    """An assignment, as `count += 1`; None of any other text."""
    found = ASSIGNMENT.fullmatch(text)
    if not found or found[1] in OPS[section]:
        return None
    name, step, operator, value = found.groups()
    ops = ops_of_assignment(name, step, operator, value, application)
    meant = did_you_mean(listed_ops(ops)) if ops else ""
    return Problem(found.start(1), len(text.rstrip(" ")), f'"{text.strip()}" is an assignment, not an op{meant}', MEMORY)


def problem_of_comparison(text: str, section: str, application: Application) -> Optional[Problem]:
    """A comparison of a variable, as `if count < 5`; None of any other text."""
    found = COMPARISON.fullmatch(text)
    if not found or found[2] not in application.names_of(("variable",)):
        return None
    condition = meant_condition([found[3], found[4]]) if found[3] != "==" else found[4]
    word = found[1] or "expect"
    is_fit = condition and Condition().fits_all(condition.split())
    meant = did_you_mean(listed_ops((f"load {found[2]}", f"{word} {condition}"))) if is_fit else ""
    message = f'"{text[found.start(2) : found.end(4)]}" is a comparison, but a condition tests the last answer{meant}'
    return Problem(found.start(2), found.end(4), message, OPS[section][word].rule)


def ops_of_assignment(name: str, step: Optional[str], operator: Optional[str], value: Any,
                      application: Application) -> Optional[List[str]]:
    """The ops that do the like, or None."""
    if step:
        operator, value = step[0], "1"
    is_variable = value in application.names_of(("variable",))
    if operator:
        is_fit = is_variable or Operand().fits(value) and not is_name(value)
        return ["load " + name, f"{OPERATORS[operator]} {value}", f"store {name} {ANSWER}"] if is_fit else None
    if is_variable:
        return [f"load {value}", f"store {name} {ANSWER}"]
    return [f"store {name} {value}"] if Value("V", "").fits(value) else None


def meant_of_variable(words: List[Word], application: Application) -> Optional[List[str]]:
    """The ops that are meant by another word before the name of a variable, or None."""
    if len(words) < 2 or words[1][0] not in application.names_of(("variable",)):
        return None
    ops = MEANT_OF_VARIABLES.get(words[0][0].lower())
    value = words[2][0] if len(words) > 2 and Value("V", "").fits(words[2][0]) else ANSWER
    return [it.format(x=words[1][0], v=value) for it in ops] if ops else None


def no_number_but_name(argument: Argument, word: str, text: List[str], application: Application) -> Optional[str]:
    """What to say of `answer`, or of the name of a variable, in the place of a number; None of any other word."""
    is_variable = word in application.names_of(("variable",))
    if isinstance(argument, Value) and is_variable:
        ops = (f"load {word}", " ".join(ANSWER if it == word and at > 1 or it == word and text[0] == "mark" else it for at, it in enumerate(text)))
        return f'expected a number, found the variable "{word}"{did_you_mean(listed_ops(ops))}'
    if word == ANSWER and not isinstance(argument, (Wait, Turns, Condition, Operand)):
        return f'expected a number, {argument.least} to {argument.most}, found "answer"; {TAKES_ANSWER}'
    if is_variable or word == ANSWER:
        only = TAKES_VARIABLE if is_variable else TAKES_ANSWER
        ends = f"{argument.least} to {argument.most}{argument.or_else}"
        return f'expected a number, {ends}, found "{word}"; {only}'
    return None


def no_variable(op: Op, words: List[str], word: str, application: Application) -> Optional[str]:
    """What to say of a name in a condition, or in the place of a number, that nothing has."""
    names = application.names_of(("variable",))
    if op.has_condition:
        meant = meant_by_condition(word, words)
        if meant:
            return f'no variable is called "{word}"{did_you_mean(quoted(" ".join([*words[:-1], meant])))}'
    elif word == ANSWER:
        name = names[0] if names else "x"
        both = listed_ops((f"store {name} answer", f"{op.word} {name}"))
        return f'{op.word} already uses the last answer, and "answer" isn\'t a variable; to use the last answer twice, write {both}'
    return None


def meant_by_condition(word: str, words: List[str]) -> Optional[str]:
    """Of an answer by another name what it is."""
    if word in MEANT_ANSWERS:
        return MEANT_ANSWERS[word]
    is_none = word in MEANT_NONE or near(word, ["none"])
    return "none" if is_none and words[-2] not in ("below", "above") else None
