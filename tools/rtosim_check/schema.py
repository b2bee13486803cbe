"""The JSON schema of applications, for editors: docs/application.schema.json, which
`PYTHONPATH=tools python3 -m rtosim_check.schema` writes.

It is draft 7, which Taplo and Even Better TOML take. What a schema can't say, as which names there are, isn't in it."""
from __future__ import annotations

import json
from typing import Any, Dict, List, Union

from .formats import (ANSWER, A_NAME, A_POINT, Action, Argument, Choice, Condition, Key, Name, OPS, Op, Operand, PAIRS, SECTIONS, STEP,
                      Section, TICKLESS, TOP_KEYS, Turns, Value, WORDS_OF_CONDITIONS, Wait)

NAME = "[A-Za-z][A-Za-z0-9_]{0,15}"
DIGITS = 10
TITLE = "Application for rtosim"


def number_pattern(least: int, most: int) -> str:
    """A pattern of the numbers of a range, whose least is 0 or 1: at most ten digits; the first ones may be zeros."""
    text = str(most)
    parts = ["0{1,10}"] if least == 0 else []
    parts += [zeros(size) + "[1-9]" + digits(size - 1) for size in range(1, len(text))]
    for at, digit in enumerate(text):
        lowest = 1 if at == 0 else 0
        if int(digit) > lowest:
            parts.append(zeros(len(text)) + text[:at] + f"[{lowest}-{int(digit) - 1}]" + digits(len(text) - at - 1))
    return f"({'|'.join([*parts, zeros(len(text)) + text])})"


def zeros(size: int) -> str:
    return f"0{{0,{DIGITS - size}}}" if size < DIGITS else ""


def digits(count: int) -> str:
    return f"[0-9]{{{count}}}" if count else ""


def argument_pattern(argument: Argument) -> str:
    if isinstance(argument, Name):
        return NAME
    if isinstance(argument, Choice):
        return f"({'|'.join(argument.words)})"
    if isinstance(argument, Action):
        return f"({'|'.join(argument.ALONE)}|({'|'.join(argument.FRONTS)}) +{argument_pattern(argument.value)})"
    number = number_pattern(argument.least, argument.most)
    if isinstance(argument, Condition):
        return condition_pattern(number)
    if isinstance(argument, Operand):
        return f"({NAME}|{number})"
    if isinstance(argument, Value):
        return f"({ANSWER}|{number})"
    return f"(forever|{number})" if isinstance(argument, (Turns, Wait)) else number


def condition_pattern(number: str) -> str:
    value = f"{number}|(?!({'|'.join(WORDS_OF_CONDITIONS)})( |$)){NAME}"
    fronts = [f"{front} +(none|{value})" if is_none else f"{front} +({value})" for front, is_none in Condition.FRONTS.items()]
    return f"({'|'.join(['none', value, *fronts])})"


def text_of(*words: str) -> Dict[str, str]:
    """A text of these words."""
    return {"pattern": f"^ *{' +'.join(words)} *$"}


def op_schema(op: Op) -> Dict[str, str]:
    return {"description": op.rule, **text_of(op.word, *map(argument_pattern, op.arguments))}


def ops_schema(section: str) -> Dict[str, Union[List[Dict[str, str]], str]]:
    return {"type": "string", "anyOf": [op_schema(op) for op in OPS[section].values()]}


def points_schema() -> Dict[str, Union[List[Dict[str, str]], str]]:
    pair = (number_pattern(STEP.least, STEP.most), NAME)
    pairs = [text_of(*pair * count) for count in range(1, PAIRS + 1)]
    step = number_pattern(STEP.least, STEP.most)
    ranges = [text_of("all", NAME), text_of("all", NAME, "from", step, "to", step)]
    return {"type": "string", "description": A_POINT, "anyOf": [*ranges, *pairs]}


def key_schema(section: Any, key: Key) -> Dict[str, Any]:
    schema = {"description": key.rule}
    if key.kind == "an integer":
        return {**schema, "type": "integer", "minimum": key.least, "maximum": key.most_tickless}
    if key.kind == "a boolean":
        return {**schema, "type": "boolean"}
    if key.kind == "an array of texts":
        items = points_schema() if key.name == "points" else {"$ref": f"#/definitions/op_of_a_{section.name}"}
        return {**schema, "type": "array", "maxItems": key.most, "items": items}
    return {**schema, "type": "string", "pattern": f"^{NAME}$"}


def section_schema(section: Section) -> Dict[str, Any]:
    table = {
        "type": "object",
        "properties": {key.name: key_schema(section, key) for key in section.keys.values()},
        "required": [key.name for key in section.keys.values() if key.needed],
        "additionalProperties": False,
    }
    if not section.is_list:
        return {"description": section.rule, **table}
    least = {"minItems": 1} if section.name == "task" else {}
    return {"description": section.rule, "type": "array", **least, "maxItems": section.most, "items": table}


def is_tickless() -> Dict[str, Union[Dict[str, Dict[str, bool]], List[str]]]:
    return {"properties": {TICKLESS.name: {"const": True}}, "required": [TICKLESS.name]}


def fits_without_tickless() -> Dict[str, Dict[str, Dict[str, Dict[str, Dict[str, int]]]]]:
    """The numbers whose range is larger in a tickless application are in that of others."""
    sections = {it.name: {key.name: {"maximum": key.most} for key in it.keys.values() if key.most < key.most_tickless}
                for it in SECTIONS.values()}
    return {"properties": {name: {"properties": keys} for name, keys in sections.items() if keys}}


def schema() -> Dict[str, Any]:
    """The whole of it."""
    return {
        "$schema": "http://json-schema.org/draft-07/schema#",
        "title": TITLE,
        "description": f"docs/FORMATS.md has the format. {A_NAME[0].upper()}{A_NAME[1:]}.",
        "type": "object",
        "properties": {
            **{key.name: key_schema(None, key) for key in TOP_KEYS.values()},
            **{it.name: section_schema(it) for it in SECTIONS.values()},
        },
        "if": is_tickless(),
        "else": fits_without_tickless(),
        "required": ["task"],
        "additionalProperties": False,
        "definitions": {f"op_of_a_{section}": ops_schema(section) for section in OPS},
    }


def text() -> str:
    return json.dumps(schema(), indent=1) + "\n"


if __name__ == "__main__":
    print(text(), end="")
