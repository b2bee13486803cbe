"""Why a word is no argument of an op: no name, none of some words, or no number of a range."""
from __future__ import annotations

import re
from typing import List, Optional

from .application import Application
from .explaining_values import no_number_but_name
from .formats import Argument, Choice, MEANT_CHOICES, MEANT_TURNS, MEANT_WAITS, NUMBER, Name, Turns, Wait
from .nearness import did_you_mean, near, quoted


def problem_of_argument(argument: Argument, word: str, text: List[str], application: Application) -> str:
    if isinstance(argument, Name):
        return no_name(argument, word, application)
    if isinstance(argument, Choice):
        return f'"{word}" is neither {" nor ".join(argument.words)}{did_you_mean(quoted(near(word, argument.words, MEANT_CHOICES)))}'
    return no_number_but_name(argument, word, text, application) or no_number(argument, word)


def no_name(argument: Name, word: str, application: Application) -> str:
    if NUMBER.fullmatch(word):
        return f"expected {argument.what}, found the number {word}"
    meant = near(word, application.names_of(argument.kinds))
    if meant:
        return f'"{word}" isn\'t a valid name{did_you_mean(quoted(meant))}'
    if len(word) > 16 and re.fullmatch("[A-Za-z0-9_]+", word):
        return f'"{word}" isn\'t a valid name: it has {len(word)} characters, and a name has at most 16'
    return f'"{word}" isn\'t a valid name: a name is letters, digits and `_`, and begins with a letter'


def no_number(argument: Argument, word: str) -> str:
    ends = f"{argument.least} to {argument.most}" + argument.or_else
    if isinstance(argument, Wait) and (near(word, ["forever"]) or word.lower() in MEANT_WAITS):
        return f'{word} isn\'t a timeout; did you mean "forever"?'
    if isinstance(argument, Turns) and (near(word, ["forever"]) or word.lower() in MEANT_TURNS):
        return f'expected a number, {ends}, found "{word}"; did you mean "forever"?'
    if re.fullmatch("[0-9]{11,}", word):
        return f"{word} has more than ten digits"
    if re.fullmatch("-?[0-9]+", word):
        return f"{word} is out of range: {ends}"
    digits = decimal_digits(word)
    if digits and argument.fits(digits):
        return f"{word} isn't a decimal number{did_you_mean(digits)}"
    alone = ": only a timeout or a number of turns may be forever" if word == "forever" else ""
    return f'expected a number, {ends}, found "{word}"{alone}'


def decimal_digits(word: str) -> Optional[str]:
    """The decimal digits that may be meant by a number in another form, or None."""
    if re.fullmatch("0[xX][0-9A-Fa-f]+|0[bB][01]+", word):
        return str(int(word, 0))
    macro = re.fullmatch(r"(?i)pdMS_TO_TICKS\(?([0-9]+)\)?", word)
    other = re.fullmatch(r"\+?([0-9][0-9_']*)(?:\.0*)?(?:[uUlL]+|ms|ticks?|s)?", word)
    return macro[1] if macro else re.sub("[_']", "", other[1]) if other else None
