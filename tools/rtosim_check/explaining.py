"""Why the program refuses a document: each fault with its place, what is wrong there, what was meant, and the rule."""
from __future__ import annotations

import json
import re
from typing import Callable, Optional

from . import explaining_nesting, explaining_ops, explaining_points
from .application import Application
from .context import Context
from .findings import FAULT, Finding
from .formats import CALLED, DAEMON, EXAMPLE_OF_A_TASK, Key, MEANT_KEYS, MEANT_SECTIONS, NAME, OBJECTS, PLURALS, SECTIONS, TICKLESS
from .nearness import did_you_mean, near, quoted
from .nodes import Array, Float, Integer, Node, Span, Table, Text
from .problem import Explanation, joined
from .verdict import Place, Verdict

# What else people write for true and for false.
YES, NO = ("true", "yes", "on", "1", "1.0"), ("false", "no", "off", "0", "0.0")


def explain(verdict: Verdict, text: str, root: Table, takes_several: Callable[[], bool]) -> Finding:
    """The finding for a load fault. What can't be explained has the program's line and the place."""
    context = Context(text, root, Place(verdict.place), takes_several)
    span, message, rule = EXPLANATIONS.get(verdict.kind, nothing_known)(context) or nothing_known(context)
    return Finding(FAULT, verdict.kind, span, message, rule)


def nothing_known(context: Context) -> Explanation:
    return context.nearest, f"{context.label}: the program refuses this", None


# -- what is missing


def missing(context: Context) -> Optional[Explanation]:
    if context.place.words == ["task"]:
        return missing_task(context)
    table = context.nodes[-1]
    if context.key is None or not isinstance(table, Table):
        return None
    key = context.key.name
    for name, member in table.members.items():
        if name not in context.section.keys and near(name, [key], MEANT_KEYS):
            return member.span, f'{whole(context)}: no key is called "{name}"; did you mean "{key}"?', context.key.rule
    return header_span(context, table), f'{whole(context)} has no key "{key}"', context.key.rule


def whole(context: Context) -> str:
    """The entry or the section, without the key."""
    return context.place.section if context.entry is None else context.entry.label


def header_span(context: Context, table: Table) -> Span:
    return context.spans[-1] if table.start == table.end else table.span


def missing_task(context: Context) -> Explanation:
    rule = f"{SECTIONS['task'].rule}, for example {EXAMPLE_OF_A_TASK}"
    for name, member in context.root.members.items():
        if name not in SECTIONS and near(name, ["task"], MEANT_SECTIONS):
            return member.span, f"no section is called {member.shown}; did you mean [[task]]?", rule
    return context.nearest, "the file has no task", rule


# -- what is of another kind


def wrong_kind(context: Context) -> Optional[Explanation]:
    node, place = context.node, context.place
    if node is None:
        return None
    if place.at is not None:
        meant = explaining_points.meant_point(context, node)
        message = f"{context.label}: {context.source(node)} is {node.kind}, not a text{did_you_mean(meant)}"
        return node.span, message, context.key and context.key.rule
    if context.key is not None:
        return wrong_value(context, node)
    if context.section is None:
        return None
    if place.index is not None:
        rule = f"an entry of {place.section} is under {context.section.header}"
        return node.span, f"{context.label} is {node.kind}, not a table", rule
    return wrong_section(context, node)


def wrong_section(context: Context, node: Node) -> Explanation:
    section, member = context.section, context.root.members[context.place.section]
    if section.is_list:
        found, wanted, rule = "one table", "an array of tables", "the header of a list's entry has two brackets on each side"
    else:
        found, wanted, rule = "a list of tables", "a table", "there is one such section, and its header has one bracket on each side"
    what = f"{member.shown} is {found}" if member.has_header else f"{section.name} is {node.kind}, not {wanted}"
    return member.span, what + did_you_mean(section.header), f"{rule}: {section.rule}"


def wrong_value(context: Context, node: Node) -> Explanation:
    key = context.key
    wanted = "a text" if key.kind in ("a name", "a handler's name") else key.kind
    meant = meant_boolean(node) if key.kind == "a boolean" else meant_value(key, node, context)
    return node.span, f"{context.label}: {context.source(node)} is {node.kind}, not {wanted}{did_you_mean(meant)}", key.rule


def meant_value(key: Key, node: Node, context: Context) -> Optional[str]:
    """The value as it should be written, or None."""
    if key.kind == "an array of texts":
        parts = [it.strip() for it in re.split(r"[\n,;]", node.value) if it.strip()] if isinstance(node, Text) else []
        return json.dumps(parts, ensure_ascii=False) if parts else None
    if key.kind != "an integer":
        return None
    value = None
    if isinstance(node, Text) and re.fullmatch(r"\s*[+-]?[0-9_]{1,19}\s*", node.value):
        value = int(node.value.replace("_", ""))
    elif isinstance(node, Text) and re.fullmatch(r"0[xX][0-9A-Fa-f]{1,15}", node.value):
        value = int(node.value, 16)
    elif isinstance(node, Float) and node.value == node.value and abs(node.value) < 2**53 and node.value == int(node.value):
        value = int(node.value)
    return str(value) if value is not None and key.least <= value <= context.most else None


def meant_boolean(node: Node) -> Optional[str]:
    """As meant_value, of a key that is true or false."""
    text = node.value.strip().lower() if isinstance(node, Text) else str(node.value) if isinstance(node, (Integer, Float)) else None
    return "true" if text in YES else "false" if text in NO else None


# -- what is out of range


def out_of_range(context: Context) -> Optional[Explanation]:
    node, key = context.node, context.key
    if key is None or node is None:
        return None
    if isinstance(node, Text):
        message = name_problem(node.value, context.application)
        return node.span, f"{context.label}: {message}", key.rule
    if not isinstance(node, Integer):
        return None
    most, beside = context.most, ""
    greatest = context.nodes[2].get("max") if context.place.section == "counting" and key.name == "initial" else None
    if isinstance(greatest, Integer) and greatest.value < most:
        most, beside = greatest.value, ", its max"
    if context.most < node.value <= key.most_tickless:
        beside = f"; {TICKLESS.name} = true above the first table allows up to {key.most_tickless}"
    return node.span, f"{context.label}: {node.value} is out of range: {key.least} to {most}{beside}", key.rule


def name_problem(text: str, application: Application) -> str:
    """What is wrong with a text as a name."""
    if not text:
        return "the name is empty"
    meant = re.sub("[^A-Za-z0-9_]", "_", text)
    is_good = meant != text and NAME.fullmatch(meant) and meant not in application.named
    end = did_you_mean(quoted(meant) if is_good else None)
    wrong = re.search("[^A-Za-z0-9_]", text)
    if wrong:
        what = {" ": "a space", "\t": "a tab"}.get(wrong.group(), f'"{wrong.group()}"')
        return f'"{text}" isn\'t a valid name: it contains {what}{end}'
    if len(text) > 16:
        return f'"{text}" isn\'t a valid name: it has {len(text)} characters, and a name has at most 16'
    return f'"{text}" isn\'t a valid name: it begins with "{text[0]}", not with a letter'


def double_name(context: Context) -> Optional[Explanation]:
    node = context.node
    if not isinstance(node, Text):
        return None
    first = context.application.named.get(node.value)
    if first is None:
        return None
    line = context.line_of(first.table.get("name").start)
    message = f'{context.label}: the name "{node.value}" is already used by the {CALLED[first.section]} in line {line}'
    return node.span, message, (
        "each name of a file is used once, for a queue, a semaphore, a mutex, an event group, a variable, a handler, a task or the "
        "daemon")


# -- what is too many


def too_many(context: Context) -> Optional[Explanation]:
    node, place = context.node, context.place
    if isinstance(node, Array) and context.key is not None:
        most = context.key.most
        what = "points" if place.key == "points" else "ops"
        there = node.items[most].span if len(node.items) > most else node.span
        return there, f"{context.label}: {len(node.items):,} {what}, and at most {most:,} are allowed", context.key.rule
    if place.section == "interrupt" and place.index is not None:
        return fifth_interrupt(context)
    if place.words == [DAEMON]:
        return daemon_too_many(context)
    if isinstance(node, Array) and context.section is not None:
        return too_many_entries(context, node)
    return None


def too_many_entries(context: Context, node: Array) -> Explanation:
    section, most = context.section, context.section.most
    what = PLURALS.get(section.name, "base interrupts")
    count = len(node.items)
    if section.name in OBJECTS:
        earlier = OBJECTS[: OBJECTS.index(section.name)]
        before = sum(len(it.items) for it in map(context.root.get, earlier) if isinstance(it, Array))
        count, most, what = count + before, most - before, "queues, semaphores and mutexes" if before else what
    there = node.items[most].span if 0 <= most < len(node.items) else context.nearest
    return there, f"there are {count:,} {what}, and at most {section.most:,} are allowed", section.rule


def daemon_too_many(context: Context) -> Explanation:
    """The daemon of a file that has all tasks without it."""
    most = SECTIONS["task"].most
    message = f"the file has {len(context.application.entries['task'])} tasks, and the daemon is one more: at most {most} are allowed"
    return context.nearest, message, context.section.rule


def fifth_interrupt(context: Context) -> Optional[Explanation]:
    tick = context.nodes[2].get("tick") if isinstance(context.nodes[2], Table) else None
    if not isinstance(tick, Integer):
        return None
    others = [it.table.get("tick") for it in context.application.entries["interrupt"][: context.place.index]]
    lines = [context.line_of(it.start) for it in others if isinstance(it, Integer) and it.value == tick.value]
    before = joined(lines) if lines else "no others"
    message = f"{context.label}: the fifth interrupt of tick {tick.value}, after those of lines {before}"
    return tick.span, message, "at most 4 base interrupts come at one tick"


# -- names


def unknown_name(context: Context) -> Optional[Explanation]:
    if context.place.section == "interrupt" and isinstance(context.node, Text):
        return unknown_handler(context)
    if context.place.section == "campaign":
        return explaining_points.unknown_handler(context)
    return explaining_ops.unknown_name(context)


def unknown_handler(context: Context) -> Explanation:
    problem = explaining_points.no_handler(context, context.node.value, False)
    return context.node.span, f"{context.label}: {problem}", context.key.rule


def bad_op(context: Context) -> Optional[Explanation]:
    if context.place.section == "campaign":
        return explaining_points.bad_point(context)
    return explaining_ops.bad_op(context)


EXPLANATIONS = {
    "Missing": missing, "WrongKind": wrong_kind, "OutOfRange": out_of_range, "DoubleName": double_name, "TooMany": too_many,
    "BadOp": bad_op, "UnknownName": unknown_name, "OverwriteLength": explaining_ops.overwrite_length,
    "BadNesting": explaining_nesting.bad_nesting, "NoDaemon": explaining_ops.no_daemon,
}
