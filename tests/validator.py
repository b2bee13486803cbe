"""Whether a value is what a JSON schema says, for the keywords that docs/application.schema.json has."""
import re

KINDS = {"object": dict, "array": list, "string": str, "integer": (int, float), "boolean": bool}
SAID = ("$schema", "title", "description", "definitions", "else")


def problems(schema, value, whole=None, place=""):
    """What is wrong with the value, a line each."""
    whole = whole or schema
    if "$ref" in schema:
        schema = whole["definitions"][schema["$ref"].rpartition("/")[2]]
    found = []
    for keyword, wanted in schema.items():
        if keyword not in SAID:
            found += CHECKS[keyword](wanted, value, whole, place, schema)
    return found


def of_kind(wanted, value, whole, place, schema):
    is_good = isinstance(value, KINDS[wanted]) and isinstance(value, bool) == (wanted == "boolean")
    is_good = is_good and (wanted != "integer" or value == value and abs(value) != float("inf") and int(value) == value)
    return [] if is_good else [f"{place}: not {wanted}"]


def of_properties(wanted, value, whole, place, schema):
    table = value if isinstance(value, dict) else {}
    return [it for key, inner in wanted.items() if key in table for it in problems(inner, table[key], whole, f"{place}/{key}")]


def of_required(wanted, value, whole, place, schema):
    return [f"{place}: no {key}" for key in wanted if isinstance(value, dict) and key not in value]


def of_more(wanted, value, whole, place, schema):
    assert wanted is False
    return [f"{place}: unknown {key}" for key in value if key not in schema["properties"]] if isinstance(value, dict) else []


def of_items(wanted, value, whole, place, schema):
    items = value if isinstance(value, list) else []
    return [it for at, item in enumerate(items) for it in problems(wanted, item, whole, f"{place}/{at}")]


def of_any(wanted, value, whole, place, schema):
    return [] if any(not problems(it, value, whole, place) for it in wanted) else [f"{place}: none of them"]


def of_const(wanted, value, whole, place, schema):
    return [] if type(value) is type(wanted) and value == wanted else [f"{place}: not {wanted}"]


def of_if(wanted, value, whole, place, schema):
    return problems(schema["else"], value, whole, place) if problems(wanted, value, whole) else []


def of_pattern(wanted, value, whole, place, schema):
    return [f"{place}: not as {wanted}"] if isinstance(value, str) and not re.search(wanted, value) else []


def compared(is_good):
    """A check of numbers or of lengths."""
    def check(wanted, value, whole, place, schema):
        number = len(value) if isinstance(value, list) else value
        is_number = isinstance(number, (int, float)) and not isinstance(number, bool)
        return [] if not is_number or is_good(number, wanted) else [f"{place}: {number} against {wanted}"]
    return check


CHECKS = {
    "type": of_kind, "properties": of_properties, "required": of_required, "additionalProperties": of_more, "items": of_items,
    "anyOf": of_any, "const": of_const, "if": of_if, "pattern": of_pattern, "minimum": compared(lambda number, least: number >= least),
    "maximum": compared(lambda number, most: number <= most), "minItems": compared(lambda number, least: number >= least),
    "maxItems": compared(lambda number, most: number <= most),
}
