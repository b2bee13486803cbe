"""What is said of ops on notifications: of an action that is none, and of functions of FreeRTOS and CMSIS with their arguments in their
order."""
from __future__ import annotations

from typing import Dict, List, Optional

from .application import Application
from .explaining_arguments import decimal_digits, problem_of_argument
from .formats import Action, MEANT_ACTIONS, MEANT_CHOICES, MEANT_WAITS, MOST_OF_A_NUMBER, Op, Value, Word, is_name, op_of
from .nearness import did_you_mean, near, quoted
from .problem import Problem

ACTIONS = (*Action.ALONE, *Action.FRONTS)
# The functions in small letters and without FromISR, each with the words of its op; {0} is its first argument.
FUNCTIONS = {
    "xtasknotify": "notify {0} {2} {1}", "xtasknotifygive": "notify {0} increment", "vtasknotifygive": "notify {0} increment",
    "ultasknotifytake": "notify_take {0} {1}", "xtasknotifywait": "notify_wait {0} {1} {2}", "xtasknotifystateclear": "notify_clear",
    "ultasknotifyvalueclear": "notify_value_clear {0}", "osthreadflagsset": "notify {0} bits {1}", **{
        f"{start}nvic_{function}": op for start in ("", "hal_")
        for function, op in (("enableirq", "arm {0}"), ("disableirq", "disarm {0}"), ("setpendingirq", "raise {0} 1"),
                             ("clearpendingirq", "cancel {0}"))},
}
# How CMSIS ends the number of an interrupt, which has its handler's name before it.
NUMBER_OF_IRQ = "_IRQn"
# The index of the wait among the arguments.
WAITS = {"ultasknotifytake": 1, "xtasknotifywait": 2}
ALL_BITS = ("ulong_max", "uint32_max", "~0", "-1")


def problem_of_action(words: List[Word], ops: Dict[str, Op], application: Application) -> Optional[Problem]:
    """What is wrong with the action of a notify, or with how many words it has; None for any other op, and if something else is wrong."""
    op, text = ops[words[0][0]], [it[0] for it in words]
    given = text[1:]
    if not op.has_action or not given or not is_name(given[0]):
        return None
    start = f"notify {given[0]}"
    if len(given) == 1:
        message = f'the action on the notification value is missing; did you mean "{start} increment"?'
        return Problem(words[0][1], words[1][2], message, op.rule)
    if given[0] in ACTIONS and given[1] in application.names_of(("task",)):
        meant = quoted(" ".join(["notify", given[1], given[0], *given[2:]]))
        return Problem(words[1][1], words[2][2], f"the task comes first, and then the action{did_you_mean(meant)}", op.rule)
    if given[1] not in ACTIONS:
        return Problem(words[2][1], words[2][2], no_action(start, given[1:]), op.rule)
    return problem_of_value(words, op, start, application)


def no_action(start: str, given: List[str]) -> str:
    """What to say of a word that is no action."""
    word, rest = given[0], given[1:]
    if Value("V", "").fits(word):
        either = f'"{start} bits {word}", or "{start} overwrite {word}"'
        return f'"{word}" isn\'t an action{did_you_mean(either)}'
    found = near(word, ACTIONS, MEANT_ACTIONS)
    meant = found and " ".join([start, found, *(rest if found in Action.FRONTS else [])])
    is_op = meant and op_of("task", meant)[1]
    return f'expected {", ".join(ACTIONS[:-1])} or {ACTIONS[-1]}, found "{word}"{did_you_mean(quoted(meant if is_op else found))}'


def problem_of_value(words: List[Word], op: Op, start: str, application: Application) -> Optional[Problem]:
    """What is wrong with the words after the word of the action."""
    text = [it[0] for it in words]
    action, rest = text[2], words[3:]
    many = 1 if action in Action.FRONTS else 0
    if len(rest) < many:
        return Problem(words[2][1], words[2][2], f'"{action}" needs a number, or the word answer', op.rule)
    if many and not Value("V", "").fits(rest[0][0]):
        return Problem(rest[0][1], rest[0][2], problem_of_argument(Value("V", ""), rest[0][0], text, application), op.rule)
    if len(rest) == many:
        return None
    meant, takes = did_you_mean(quoted(" ".join(text[: 3 + many]))), "one number" if many else "no number"
    return Problem(rest[many][1], words[-1][2], f'"{action}" takes {takes}; "{rest[many][0]}" is too many{meant}', op.rule)


def meant_masks(word: str, given: List[str]) -> Optional[str]:
    """A `notify_wait` with its wait alone, with the masks that are usual; None of any other op."""
    is_alone = word == "notify_wait" and len(given) == 1 and op_of("task", f"{word} 0 0 {given[0]}")[1]
    return f"{word} 0 {MOST_OF_A_NUMBER} {given[0]}" if is_alone else None


# -- functions of FreeRTOS and CMSIS


def op_of_function(name: str, arguments: List[str]) -> Optional[str]:
    """The op that such a function is with these arguments, storage and NULL left out; None if it is none."""
    function = name.lower().replace("fromisr", "")
    form, wait_at = FUNCTIONS.get(function), WAITS.get(function)
    try:
        text = form and form.format(*(argument_of(it, at == wait_at) for at, it in enumerate(arguments)))
    except IndexError:
        return None
    words = text.split() if text else []
    if words[:1] == ["notify"] and words[2:3] and words[2] in Action.ALONE:
        text = " ".join(words[:3])
    return text if text and op_of("task", text)[1] else None


def argument_of(word: str, is_wait: bool) -> str:
    """What an argument is in an op."""
    lower = word.lower()
    if is_wait and lower in MEANT_WAITS:
        return "forever"
    if lower in ALL_BITS:
        return str(MOST_OF_A_NUMBER)
    return MEANT_ACTIONS.get(lower) or MEANT_CHOICES.get(lower) or decimal_digits(word) or without_number(word)


def without_number(word: str) -> str:
    """The handler's name, of the number of an interrupt."""
    return word[: -len(NUMBER_OF_IRQ)] if word.endswith(NUMBER_OF_IRQ) else word
