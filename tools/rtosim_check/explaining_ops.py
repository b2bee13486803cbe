"""Why the program refuses an op of a task or a handler."""
from __future__ import annotations

import re
from typing import List, Optional, Tuple

from .application import Application, Entry
from .context import Context
from .explaining_arguments import problem_of_argument
from .explaining_conditions import problem_of_condition
from .explaining_notifications import meant_masks, op_of_function, problem_of_action, without_number
from .explaining_points import listed
from .explaining_values import listed_ops, meant_of_variable, no_variable, problem_of_assignment, problem_of_comparison
from .formats import (Argument, CALLED, COMMANDS, DAEMON, EXAMPLE_OF_A_DAEMON, KIN, LOOPS, MASKS, MEANT_OPS, MEASURES, Name, OPS, OWN, Op,
                      PLURALS, SECTIONS, TICK, Wait, Word, op_of, words_of)
from .left_out import NOT_SIMULATED_OPS, not_simulated, not_simulated_rule, why_needless
from .nearness import did_you_mean, near, quoted
from .nodes import Integer, Text
from .problem import Explanation, Problem, told

SEPARATORS = re.compile(r"[\t\n\r\f\v\u00a0\u2000-\u200b\u3000,;]")
CALLED_SEPARATORS = {"\t": "a tab", ",": "a comma", ";": "a semicolon", "\n": "a new line"}
CALL = re.compile(r" *([A-Za-z_][A-Za-z0-9_]*) *\((.*)\) *;?\s*")
ONLY_SPACES = "the words of an op are separated by spaces alone"
# Ops of tasks that wait by themselves.
WAITING = ("take", "lock", "wait", "delay", "delay_until", "notify_take", "notify_wait")


def bad_op(context: Context) -> Optional[Explanation]:
    node = context.node
    if not isinstance(node, Text) or context.place.section not in OPS:
        return None
    problem = problem_of(node.value, context.place.section, context.application)
    span = node.part(problem.start, problem.end) if problem.end else node.span
    return span, told(context, problem.message), problem.rule


def problem_of(text: str, section: str, application: Application) -> Problem:
    """What is wrong with the text as an op."""
    words = words_of(text)
    if not words:
        example = '"send rx 7"' if section == "handler" else '"receive rx 5"'
        return Problem(0, 0, "the op is empty", f"an op is a word and its arguments, such as {example}")
    return (
        problem_of_assignment(text, section, application)
        or problem_of_comparison(text, section, application)
        or problem_of_characters(text, section)
        or problem_of_word(words, section, application)
        or problem_of_condition(words, OPS[section])
        or problem_of_action(words, OPS[section], application)
        or problem_of_count(words, section, application)
        or problem_of_arguments(words, section, application)
        or Problem(0, 0, "the program doesn't accept this op", OPS[section][words[0][0]].rule)
    )


def text_of(words: List[Word]) -> str:
    return " ".join(it[0] for it in words)


# -- characters


def problem_of_characters(text: str, section: str) -> Optional[Problem]:
    """Another separator than a space, or a call as in C."""
    call = CALL.fullmatch(text)
    if call and not not_simulated(call[1], NOT_SIMULATED_OPS) and not why_needless(call[1]):
        meant = near(without_isr(call[1]), OPS[section], MEANT_OPS)
        arguments = [it for it in re.split(r"[\s,]+", call[2]) if it and it[0] != "&" and it != "NULL"]
        end = did_you_mean(quoted(op_of_function(call[1], arguments) or meant and " ".join([meant, *arguments])))
        return Problem(call.start(2) - 1, call.start(2), f"an op is written without brackets{end}", ONLY_SPACES)
    found = SEPARATORS.search(text)
    if call or not found:
        return None
    meant = re.sub(" +", " ", SEPARATORS.sub(" ", text)).strip()
    what = CALLED_SEPARATORS.get(found.group(), "another kind of space")
    end = did_you_mean(quoted(meant if op_of(section, meant)[1] else None))
    return Problem(found.start(), found.end(), f"the op contains {what}{end}", ONLY_SPACES)


# -- the first word


def problem_of_word(words: List[Word], section: str, application: Application) -> Optional[Problem]:
    word, start, end = words[0]
    word, end = word.partition("(")[0], start + len(word.partition("(")[0])
    if word in OPS[section]:
        return None
    of_variable = meant_of_variable(words, application)
    if of_variable:
        message = f'no op is called "{word}"; "{words[1][0]}" is a variable{did_you_mean(listed_ops(of_variable))}'
        return Problem(start, end, message, OPS[section][of_variable[-1].split()[0]].rule)
    if section == "handler" and word in OPS["task"]:
        return Problem(start, end, op_of_tasks(word), all_ops("handler"))
    needless = why_needless(word)
    if needless:
        return Problem(start, end, f'no op is called "{word}", and none is needed for it', needless)
    left_out_there = not_simulated(word, NOT_SIMULATED_OPS) if MEANT_OPS.get(word.lower()) is None else None
    if left_out_there:
        return Problem(start, end, f'no op is called "{word}": {left_out_there} aren\'t simulated', not_simulated_rule(left_out_there))
    meant = near(word, OPS[section], MEANT_OPS) or near(without_isr(word), OPS[section], MEANT_OPS)
    of_tasks = near(without_isr(word), OPS["task"], MEANT_OPS) if section == "handler" and not meant else None
    if of_tasks:
        return Problem(start, end, f'no op is called "{word}"; {op_of_tasks(of_tasks)}', all_ops("handler"))
    rule = OPS[section][meant].rule if meant else all_ops(section)
    text = op_of_function(word, [it[0] for it in words[1:]])
    return Problem(start, end, f'no op is called "{word}"{did_you_mean(quoted(text or meant))}', rule)


def without_isr(word: str) -> str:
    return re.sub("(?i)(_?from_?isr|_isr)$", "", word)


def all_ops(section: str) -> str:
    return f"the ops of a {section} are {', '.join(OPS[section])}"


def op_of_tasks(word: str) -> str:
    """What to say of an op of tasks in a handler."""
    if word in WAITING:
        return f'"{word}" is an op of tasks: a handler never waits'
    if word in LOOPS:
        return f'"{word}" is an op of tasks: a handler has no loops'
    if word in MEASURES:
        return f'"{word}" is an op of tasks: no time passes in a handler'
    if word in MASKS:
        return f'"{word}" is an op of tasks: nothing interrupts a handler, so it has no critical sections'
    if word in OWN:
        return f'"{word}" is an op of tasks: it uses the notification of its own task, and a handler has none'
    return f'"{word}" is an op of tasks, not of handlers'


# -- how many words


def problem_of_count(words: List[Word], section: str, application: Application) -> Optional[Problem]:
    op, given = OPS[section][words[0][0]], len(words) - 1
    many = len(op.arguments)
    if given == many:
        return None
    of_variable = meant_of_variable(words, application)
    if of_variable:
        message = f'"{words[1][0]}" is a variable, and "{op.word}" doesn\'t take one{did_you_mean(listed_ops(of_variable))}'
        return Problem(words[0][1], words[-1][2], message, OPS[section][of_variable[-1].split()[0]].rule)
    if section == "handler" and op.word in OPS["task"] and given == len(OPS["task"][op.word].arguments):
        message = f'a handler never waits, so "{op.word}" takes no timeout here{did_you_mean(quoted(text_of(words[:-1])))}'
        return Problem(words[-1][1], words[-1][2], message, op.rule)
    if given < many:
        return Problem(words[0][1], words[-1][2], too_few(op, words, application), op.rule)
    first, count = words[many + 1], ("no arguments", "one argument")[many] if many < 2 else f"{many} arguments"
    meant = did_you_mean(quoted(text_of(words[: many + 1])))
    return Problem(first[1], words[-1][2], f'"{op.word}" takes {count}; "{first[0]}" is too many{meant}', op.rule)


def too_few(op: Op, words: List[Word], application: Application) -> str:
    """What to say of arguments that are missing: the one that was left out before others, or the last ones."""
    given, text = [it[0] for it in words[1:]], text_of(words)
    left = left_out(op.arguments, given)
    if isinstance(left[0], Wait) and len(left) == 1:
        return f'the timeout is missing; did you mean "{text} 0", to try once, or "{text} forever"?'
    masks = meant_masks(op.word, given)
    if masks:
        return f'"{op.word}" takes two masks before the timeout, and they are missing; did you mean "{masks}"?'
    names = application.names_of(left[0].kinds) if isinstance(left[0], Name) else []
    meant = quoted(f"{text} {names[0]}") if len(names) == 1 and len(op.arguments) == 1 else None
    letters, missing = " ".join(it.letter for it in op.arguments), " and ".join(it.letter for it in left)
    return f'"{op.word}" takes {letters}, and {missing} {"is" if len(left) == 1 else "are"} missing{did_you_mean(meant)}'


def left_out(arguments: Tuple[Argument, ...], given: List[str]) -> Tuple[Argument, ...]:
    """The arguments that are missing: the one without which the words fit, or the last ones."""
    for at in reversed(range(len(arguments))):
        if len(given) == len(arguments) - 1 and fits_all(arguments[:at] + arguments[at + 1 :], given):
            return arguments[at : at + 1]
    return arguments[len(given) :]


def fits_all(arguments: Tuple[Argument, ...], given: List[str]) -> bool:
    return all(it.fits(word) for it, word in zip(arguments, given))


# -- arguments


def problem_of_arguments(words: List[Word], section: str, application: Application) -> Optional[Problem]:
    op = OPS[section][words[0][0]]
    for argument, (word, start, end) in zip(op.arguments, words[1:]):
        if not argument.fits(word):
            text = [it[0] for it in words]
            return Problem(start, end, problem_of_argument(argument, word, text, application), op.rule)
    return None


# -- names


def unknown_name(context: Context) -> Optional[Explanation]:
    node = context.node
    if not isinstance(node, Text) or context.place.section not in OPS:
        return None
    words, op = op_of(context.place.section, node.value)
    found = op.name_at(words[1:]) if op else None
    if found is None:
        return None
    at, kinds = found
    word, start, end = words_of(node.value)[at + 1]
    is_free = word not in context.application.named
    value = no_variable(op, words, word, context.application) if kinds == ("variable",) and is_free else None
    message, rule = (value, op.rule) if value else no_such(context, op, word, kinds)
    return node.part(start, end), told(context, message), rule


def no_such(context: Context, op: Op, word: str, kinds: Tuple[str, ...]) -> Tuple[str, str]:
    """What to say of a name that nothing of the kinds has, and the rule."""
    is_semaphore = kinds == ("binary", "counting")
    wanted, plural = ("semaphore", "semaphores") if is_semaphore else (CALLED[kinds[0]], PLURALS[kinds[0]])
    other, names = context.application.named.get(word), context.application.names_of(kinds)
    if other is not None:
        line = context.line_of(other.table.start)
        if other.section == DAEMON and kinds == ("task",):
            return f'"{word}" is the daemon (line {line}), and no op can {op.word} it', op.rule
        end, better = instead(context, op, other, names)
        return f'"{word}" is {one(other.section)} (line {line}), and {op.word} is for {plural}{end}', (better or op).rule
    start, meant = f'no {wanted} is called "{word}"', near(word, names) or near(without_number(word), names)
    if word == TICK and kinds == ("handler",):
        return f"{start}, and the tick interrupt can't be armed or raised", op.rule
    if meant:
        return start + did_you_mean(quoted(meant)), op.rule
    if names:
        return f"{start}; the {plural} are {listed(names)}", op.rule
    there = context.lost(list(kinds)) or f"the file has no {' or '.join(f'[[{it}]]' for it in kinds)}"
    return f"{start}; {there}", op.rule


def one(section: str) -> str:
    """As `a queue`, `an event group`, `the daemon`."""
    if section == DAEMON:
        return "the daemon"
    return ("an " if CALLED[section][0] in "aeiou" else "a ") + CALLED[section]


def instead(context: Context, op: Op, other: Entry, names: List[str]) -> Tuple[str, Optional[Op]]:
    """Which op is meant, or which ops speak of what has the name, or which names the op may have; and the op that is meant."""
    known = OPS[context.place.section]
    # (a handler in the place of another name is a slip of the name: the ops about handlers are like no others)
    ops = [it.word for it in known.values() if other.section in it.kinds and other.section != "handler"]
    kin = next((it for group in KIN if op.word in group for it in group if it in ops), None)
    if kin:
        return did_you_mean(f'the op "{kin}"'), known[kin]
    if ops:
        return f"; the ops of {one(other.section)} are {', '.join(ops)}", None
    return did_you_mean(listed(names)), None


def no_daemon(context: Context) -> Optional[Explanation]:
    """A command of a handler in a file without a daemon."""
    node = context.node
    words = words_of(node.value) if isinstance(node, Text) and context.place.section == "handler" else []
    if not words or words[0][0] not in COMMANDS:
        return None
    word, start, end = words[0]
    there = context.lost([DAEMON]) or f"the file has no {SECTIONS[DAEMON].header}"
    message = told(context, f"a handler {word}s bits through the daemon; {there}")
    rule = f"the daemon is the task that sets and clears bits for handlers, for example {EXAMPLE_OF_A_DAEMON}"
    return node.part(start, end), message, rule


def overwrite_length(context: Context) -> Optional[Explanation]:
    node = context.node
    words = words_of(node.value) if isinstance(node, Text) else []
    entry = context.application.named.get(words[1][0]) if len(words) > 1 else None
    length = entry.table.get("length") if entry else None
    if entry is None or not isinstance(length, Integer):
        return None
    has = f'queue "{entry.name}" has length {length.value} (line {context.line_of(length.start)})'
    rule = OPS["task"]["overwrite"].rule
    return node.part(words[1][1], words[1][2]), told(context, f"{has}, and overwrite is for queues of length 1"), rule
