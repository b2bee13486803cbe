"""Why the program refuses a point."""
from __future__ import annotations

import re
from typing import Any, List, Optional, Tuple

from .application import Application
from .context import Context
from .formats import A_POINT, A_RANGE, DAEMON, MEANT_TICK, MOST_PAIRS, NAME, SEVERAL, STEP, TICK, Word, words_of
from .nearness import did_you_mean, near, quoted
from .nodes import Integer, Text
from .problem import Explanation


def no_handler(context: Context, name: str, takes_tick: bool) -> str:
    """What to say of a name that no handler has. A point takes the tick too."""
    application = context.application
    handlers = application.names_of(("handler",))
    tick = f', and "{TICK}" is the tick interrupt' if takes_tick and not application.has_handler(TICK) else ""
    other = application.named.get(name)
    if other is not None:
        what = "the daemon" if other.section == DAEMON else f"a {other.section}"
        return f'"{name}" is {what}, not a handler' + (f"; the handlers are {listed(handlers)}{tick}" if handlers else "")
    meant = near(name, handlers) or (near(name, [TICK], MEANT_TICK) if tick else None)
    if meant:
        return f'no handler is called "{name}"' + did_you_mean(quoted(meant))
    if name == TICK:
        return f'no handler is called "{TICK}", and the tick interrupt can be named in points alone'
    lost = None if handlers else context.lost(["handler"])
    there = f"the handlers are {listed(handlers)}" if handlers else "the file has no [[handler]]"
    return f'no handler is called "{name}"; {lost or there + tick}'


def sources_of(application: Application) -> List[str]:
    """The names that a point may have, those of handlers first."""
    return list(dict.fromkeys([*application.names_of(("handler",)), TICK]))


def meant_point(context: Context, node: Any) -> Optional[str]:
    """The point that is meant by the number of a step alone, or None."""
    is_step = isinstance(node, Integer) and context.place.section == "campaign" and STEP.least <= node.value <= STEP.most
    return f'"{node.value} {example(context.application)}"' if is_step else None


def listed(names: List[str], most: int = 8) -> str:
    """As `"a", "b"`, the first of them."""
    return ", ".join(f'"{it}"' for it in names[:most]) + (", .." if len(names) > most else "")


def unknown_handler(context: Context) -> Optional[Explanation]:
    node = context.node
    if not isinstance(node, Text):
        return None
    for word, start, end in words_of(node.value)[1::2]:
        if word not in sources_of(context.application):
            return node.part(start, end), told(context, no_handler(context, word, True)), A_POINT
    return None


def told(context: Context, problem: str) -> str:
    return f'{context.label}, "{context.node.value}": {problem}'


def bad_point(context: Context) -> Optional[Explanation]:
    node = context.node
    if not isinstance(node, Text):
        return None
    words = words_of(node.value)
    problem, start, end = problem_of(words, context) or ("the program doesn't accept this point", 0, 0)
    return node.part(start, end) if end else node.span, told(context, problem), rule_of(words, context)


def rule_of(words: List[Word], context: Context) -> str:
    if len(words) > 2 and words[0][0] == "all":
        return A_RANGE
    return SEVERAL if len(words) > 3 and context.takes_several() else A_POINT


def problem_of(words: List[Word], context: Context) -> Optional[Word]:
    """What is wrong with a point's words, and which part of the text."""
    if not words:
        return "the point is empty", 0, 0
    spaced = next((it for it in words if re.search(r"[\s,;:@]", it[0])), None)
    if spaced:
        return separated(spaced)
    if words[0][0].lower() == "all":
        return problem_of_all(words, context.application)
    if len(words) % 2 == 1:
        return problem_of_odd(words, context.application)
    pairs = list(zip(words[::2], words[1::2]))
    for step, handler in pairs:
        found = problem_of_step(step, handler) or problem_of_name(handler)
        if found:
            return found
    if len(pairs) > 1:
        return problem_of_several(pairs, context.takes_several())
    return None


def separated(word: Word) -> Word:
    character: Any = re.search(r"[\s,;:@]", word[0])
    what = "a tab" if character.group() == "\t" else f'a "{character.group()}"'
    at = word[1] + character.start()
    return f"the point contains {what}; separate its words by spaces", at, at + 1


def example(application: Application) -> str:
    return sources_of(application)[0]


def problem_of_all(words: List[Word], application: Application) -> Optional[Word]:
    first, start, end = words[0]
    if len(words) == 1:
        return f'"{first}" needs a handler; did you mean "all {example(application)}"?', start, end
    if first != "all":
        return f'expected a step or all, found "{first}"; did you mean "all {words[1][0]}"?', start, end
    return problem_of_name(words[1]) or (problem_of_steps(words[1][0], words[2:]) if len(words) > 2 else None)


def problem_of_steps(handler: str, words: List[Word]) -> Optional[Word]:
    """What is wrong with the words after `all HANDLER`."""
    texts = [it for it, _, _ in words]
    if len(texts) != 4 or texts[::2] != ["from", "to"]:
        return f'only from STEP to STEP may follow all HANDLER{meant_steps(handler, " ".join(texts))}', words[0][1], words[-1][2]
    first, last = words[1], words[3]
    wrong = next((it for it in (first, last) if not STEP.fits(it[0])), None)
    if wrong:
        return problem_of_number(wrong) or (f'expected a step, 0 to {STEP.most}, found "{wrong[0]}"', wrong[1], wrong[2])
    if int(last[0]) < int(first[0]):
        return f"the range ends at step {last[0]}, before its first step {first[0]}", last[1], last[2]
    return None


def meant_steps(handler: str, text: str) -> str:
    """The range that is meant by other words for its steps, such as `3-9`, as a question; empty if none is."""
    found = re.fullmatch(r"(?:from )?([0-9]+)(?: ?(?:-|\.\.\.?|to|until) ?| )([0-9]+)", text.lower())
    is_range = found and STEP.fits(found[1]) and STEP.fits(found[2]) and int(found[1]) <= int(found[2])
    return did_you_mean(quoted(f"all {handler} from {found[1]} to {found[2]}")) if found and is_range else ""


def problem_of_odd(words: List[Word], application: Application) -> Word:
    word, start, end = words[-1]
    if len(words) > 1:
        return f"{len(words)} words: each step needs its handler", start, end
    if STEP.fits(word):
        return f'the handler is missing; did you mean "{word} {example(application)}"?', start, end
    if word in sources_of(application):
        return f'the step is missing; did you mean "all {word}"?', start, end
    return f'"{word}" isn\'t a point: expected a step and a handler', start, end


def problem_of_step(step: Word, handler: Word) -> Optional[Word]:
    word, start, end = step
    if STEP.fits(word):
        return None
    found = problem_of_number(step)
    if found:
        return found
    if re.fullmatch(r"[0-9]+(\.\.\.?|-|to)[0-9]+", word):
        return f'"{word}" isn\'t a step{meant_steps(handler[0], word)}', start, end
    if word.lower() in ("*", "every", "each", "any"):
        return f'expected a step or all, found "{word}"; did you mean "all {handler[0]}"?', start, end
    if STEP.fits(handler[0]):
        return f'expected the step first; did you mean "{handler[0]} {word}"?', start, end
    return f'expected a step, 0 to {STEP.most}, or all, found "{word}"', start, end


def problem_of_number(step: Word) -> Optional[Word]:
    """What is wrong with a step that is written as a number."""
    word, start, end = step
    if re.fullmatch("[0-9]+", word):
        why = "more than ten digits" if len(word) > 10 else f"out of range: {STEP.least} to {STEP.most}"
        return f"step {word} is {why}" if len(word) <= 10 else f"step {word} has {why}", start, end
    if re.fullmatch("0[xX][0-9A-Fa-f]+", word):
        return f"{word} isn't a decimal number; did you mean {int(word, 16)}?", start, end
    return None


def problem_of_name(word: Word) -> Optional[Word]:
    if NAME.fullmatch(word[0]):
        return None
    if STEP.fits(word[0]):
        return f'expected the name of a handler, found the number {word[0]}', word[1], word[2]
    return f'"{word[0]}" can\'t be the name of a handler', word[1], word[2]


def problem_of_several(pairs: List[Tuple[Word, Word]], takes_several: bool) -> Optional[Word]:
    if not takes_several:
        return "the point has several injections, and this program takes one", pairs[1][0][1], pairs[-1][1][2]
    if len(pairs) > MOST_PAIRS:
        return f"{len(pairs)} injections, and a point has at most {MOST_PAIRS}", pairs[MOST_PAIRS][0][1], pairs[-1][1][2]
    for before, after in zip(pairs, pairs[1:]):
        if int(after[0][0]) < int(before[0][0]):
            return f"step {after[0][0]} comes after step {before[0][0]}: put the injections in the order of their steps", after[0][1], after[0][2]
    return None
