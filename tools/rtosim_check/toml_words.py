"""Words of TOML without quotes: booleans, integers, floats, dates and times."""
from __future__ import annotations

import re
from typing import Dict, Optional, Tuple

from .nodes import Boolean, Float, Integer, Moment, Node, NotToml

DIGITS = r"[0-9](?:_?[0-9])*"
WHOLE = r"(?:0|[1-9](?:_?[0-9])*)"
DECIMAL = re.compile(rf"[+-]?{WHOLE}")
PREFIXED = re.compile(r"0x([0-9A-Fa-f](?:_?[0-9A-Fa-f])*)|0o([0-7](?:_?[0-7])*)|0b([01](?:_?[01])*)")
FLOAT = re.compile(rf"[+-]?(?:inf|nan|{WHOLE}(?:\.{DIGITS}(?:[eE][+-]?{DIGITS})?|[eE][+-]?{DIGITS}))")
DATE = r"(?P<year>[0-9]{4})-(?P<month>[0-9]{2})-(?P<day>[0-9]{2})"
TIME = r"(?P<hour>[0-9]{2}):(?P<minute>[0-9]{2})(?::(?P<second>[0-9]{2})(?:\.[0-9]+)?)?"
OFFSET = r"(?:[Zz]|[+-](?P<away>[0-9]{2}):(?P<aside>[0-9]{2}))"
MOMENT = re.compile(rf"{DATE}(?:[Tt ]{TIME}(?:{OFFSET})?)?")
CLOCK = re.compile(TIME)
LOOKS_LIKE_A_MOMENT = re.compile(r"[0-9]+[-:]")
LEAST, MOST = -(1 << 63), (1 << 63) - 1

AN_INTEGER = "an integer is decimal digits without leading zeros, or 0x, 0o or 0b and digits"
A_MOMENT = "a date is 2026-01-31, a time 07:30:00"
A_VALUE = 'a value is a text in quotes, a number, true, false, an array `[..]` or a table `{..}`'


def word_node(word: str, start: int, unquoted: str = "") -> Node:
    """The node of a word, or NotToml. `unquoted` is what may be meant as a text there."""
    end = start + len(word)
    if word in ("true", "false"):
        return Boolean(word == "true", start, end)
    if DECIMAL.fullmatch(word):
        return integer(int(word.replace("_", "")), word, start, end)
    if LOOKS_LIKE_A_MOMENT.match(word):
        return moment(word, start, end)
    prefixed = PREFIXED.fullmatch(word)
    if prefixed:
        radix = {"x": 16, "o": 8, "b": 2}[word[1]]
        return integer(int(prefixed[prefixed.lastindex or 0].replace("_", ""), radix), word, start, end)
    if FLOAT.fullmatch(word):
        return float_node(word, start, end)
    raise NotToml(start, end, *no_value(word, unquoted or word))


def integer(value: int, word: str, start: int, end: int) -> Integer:
    if LEAST <= value <= MOST:
        return Integer(value, start, end)
    raise NotToml(start, end, f"{word} doesn't fit into 64 bits", f"an integer is {LEAST} to {MOST}")


def float_node(word: str, start: int, end: int) -> Float:
    value = float(word.replace("_", ""))
    if value in (float("inf"), float("-inf")) and "inf" not in word:
        raise NotToml(start, end, f"{word} is too large for a float")
    return Float(value, start, end)


def moment(word: str, start: int, end: int) -> Moment:
    found = MOMENT.fullmatch(word) or CLOCK.fullmatch(word)
    if found is None or not is_in_calendar(found.groupdict()):
        raise NotToml(start, end, f"{word} is neither a date nor a time", A_MOMENT)
    return Moment(word, start, end)


def is_in_calendar(parts: Dict[str, Optional[str]]) -> bool:
    numbers = {key: int(value) for key, value in parts.items() if value is not None}
    bounds = (("hour", 23), ("minute", 59), ("second", 60), ("away", 23), ("aside", 59))
    if any(numbers.get(key, 0) > bound for key, bound in bounds):
        return False
    return "month" not in numbers or 1 <= numbers["day"] <= days_in(numbers["year"], numbers["month"])


def days_in(year: int, month: int) -> int:
    if month == 2:
        return 29 if year % 4 == 0 and (year % 100 != 0 or year % 400 == 0) else 28
    return {4: 30, 6: 30, 9: 30, 11: 30}.get(month, 31 if 1 <= month <= 12 else 0)


def no_value(word: str, unquoted: str) -> Tuple[str, str]:
    """What is wrong with a word that is no value, and the rule."""
    if word.lower() in ("true", "yes", "on", "false", "no", "off"):
        meant = "true" if word.lower() in ("true", "yes", "on") else "false"
        return f"expected a value, found {word}; did you mean {meant}?", "a boolean is true or false"
    if re.fullmatch(r"[+-]?0[0-9_]+", word):
        meant = re.sub("^([+-]?)[0_]+(?=[0-9])", "\\1", word)
        return f"{word} has leading zeros; did you mean {meant}?", AN_INTEGER
    if re.fullmatch(r"[+-]?[0-9_]+", word):
        return f"{word} has a `_` that isn't between two digits", AN_INTEGER
    if re.match(r"[+-]?(0[XOB]|[0-9])", word):
        return f"{word} isn't a number", AN_INTEGER
    if re.match(r"[A-Za-z]", word):
        return f'expected a value, found {word}; did you mean "{unquoted}"?', "a text is in quotes"
    return f"expected a value, found {word}", A_VALUE
