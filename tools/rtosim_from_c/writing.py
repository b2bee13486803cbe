"""What is written: the application file with its lines of C, the map from ops to lines, what leaves no op, and refusals."""
import json
import os
import textwrap
from typing import Dict, Iterator, List, Sequence, Tuple

from rtosim_report.escaping import plain
from rtosim_report.faults import counted

from .interrupts import is_disarmed
from .items import Line
from .refusals import Note, Place, Refusal
from .source import Lines, without_comments
from .translating import Application
from .trees import Node
from .unit import Task, Unit

WIDTH = 110
OP_COLUMNS = 32
SECTIONS = (("queue", ("length",)), ("binary", ()), ("counting", ("max", "initial")), ("mutex", ()), ("group", ()))
MAP_VERSION = 1


# -- the application file

def application_text(found: Application, name: str) -> str:
    lines = [f"# Made by rtosim-from-c of {plain(os.path.basename(name))}: tested and not proved. Read it beside the C that is at each op."]
    lines += head_of(found.unit)
    for kind, keys in SECTIONS:
        for it in found.objects(kind):
            lines += ["", f"[[{kind}]]", named(it.name, it.place, found.unit.lines)]
            lines += [f"{key} = {it.numbers.get(key, 0)}" for key in keys]
    for name, initial in found.variables():
        lines += ["", "[[variable]]", f'name = "{name}"', *([f"initial = {initial}"] if initial else [])]
    texts = [line.text for script in (*found.handlers, *found.tasks) for line in script.lines]
    for script in found.handlers:
        lines += ["", "[[handler]]", named(script.owner.name, script.owner.place, found.unit.lines)]
        lines += ["armed = false"] if is_disarmed(found.unit, script.owner.name, texts) else []
        lines += array("ops", script.lines, found.unit.lines)
    for script in found.tasks:
        task = script.owner
        assert isinstance(task, Task), task
        lines += ["", "[[task]]", named(task.name, task.place, found.unit.lines), f"priority = {task.priority}"]
        lines += ["endless = true"] if script.is_endless else []
        lines += array("script", script.lines, found.unit.lines)
    return "\n".join([*lines, *tail_of(found)]) + "\n"


def head_of(unit: Unit) -> Iterator[str]:
    asked = unit.directives
    if asked.start is not None:
        yield f"start = {asked.start}"
    if asked.is_tickless:
        yield "tickless = true"
    if asked.limits:
        yield from ("", "[limits]", *(f"{key} = {number}" for key, number in asked.limits.items()))


def named(name: str, place: Place, lines: Lines) -> str:
    return with_comment(f'name = "{name}"', shown_line(place, lines))


def with_comment(text: str, comment: str) -> str:
    return f"{text:{OP_COLUMNS}}  # {comment}" if comment else text


def shown_line(place: Place, lines: Lines) -> str:
    """The line of C at a place, without its comments."""
    return plain(" ".join(without_comments(lines.line(place.file, place.line)).split()))


def array(key: str, ops: Sequence[Line], lines: Lines) -> List[str]:
    if not ops:
        return [f"{key} = []"]
    texts = []
    for it in ops:
        line = shown_line(it.place, lines)
        texts.append(with_comment(f'    "{it.text}",', f"{it.text} of: {line}" if it.is_edge else line))
    return [f"{key} = [", *texts, "]"]


def tail_of(found: Application) -> Iterator[str]:
    unit = found.unit
    if found.uses_daemon:
        numbers = unit.constants.numbers
        name = unit.names.name("daemon", "daemon")
        yield from ("", "[daemon]", f'name = "{name}"', f"priority = {numbers['rtosim_daemon_priority'].constant()}",
                    f"length = {numbers['rtosim_daemon_length'].constant()}")
    for tick, handler, place in unit.directives.interrupts:
        yield from ("", "[[interrupt]]", f"tick = {tick}", f'handler = "{handler_name(unit, handler, place)}"')
    points = points_of(unit)
    if points:
        yield from ("", "[campaign]", "points = [", *(f'    "{it}",' for it in points), "]")


def points_of(unit: Unit) -> List[str]:
    """The points that comments ask for; without any, each handler before each step."""
    if not unit.directives.points:
        return [f"all {it.name}" for it in unit.handlers]
    found = []
    for text, place in unit.directives.points:
        words = text.split()
        # of a range the one word after `all`
        handlers = range(1, 2 if words[:1] == ["all"] else len(words), 2)
        found.append(" ".join(handler_name(unit, it, place) if at in handlers else it for at, it in enumerate(words)))
    return found


def handler_name(unit: Unit, wanted: str, place: Place) -> str:
    """The name of a handler, which may be meant by the name of its function."""
    for it in unit.handlers:
        if wanted in (it.function, it.name):
            return it.name
    names = ", ".join(it.name for it in unit.handlers) or "none"
    raise Refusal(place, f"no handler is called {wanted}", f"one of the handlers: {names}")


# -- the map

def map_text(found: Application, name: str) -> str:
    """A line of C for each op: of each task and each handler a list, by the index of the op."""
    of = lambda scripts: {it.owner.name: [entry(one, found.unit.lines) for one in it.lines] for it in scripts}
    objects = {it.name: at(it.place, found.unit.lines) for it in found.unit.objects}
    owners = {it.owner.name: it.owner.function for it in (*found.handlers, *found.tasks)}
    return json.dumps({
        "version": MAP_VERSION, "source": name, "functions": owners, "objects": objects,
        "tasks": of(found.tasks), "handlers": of(found.handlers),
    }, indent=1) + "\n"


def entry(line: Line, lines: Lines) -> Dict[str, Node]:
    found: Dict[str, Node] = {"op": line.text, **at(line.place, lines)}
    if line.place.calls:
        found["called_from"] = list(line.place.calls)
    return found


def at(place: Place, lines: Lines) -> Dict[str, Node]:
    text = lines.line(place.file, place.line).strip()
    return {"file": place.file, "line": place.line, "column": place.column, "text": text}


# -- notes and refusals

def note_text(note: Note, name: str) -> str:
    where = f"{note.place.file}:{note.place.line}:{note.place.column}" if note.place else name
    return f"{plain(where)}: {'warning: ' if note.is_warning else ''}{plain(note.text)}"


def in_order(notes: Sequence[Note]) -> List[Note]:
    key = lambda it: (it.place is None, (it.place.file, it.place.line, it.place.column) if it.place else ("", 0, 0))
    found: Dict[Tuple[Node, str], Note] = {}
    for it in sorted(notes, key=key):
        found.setdefault((key(it), it.text), it)
    return list(found.values())


def refusal_text(refusal: Refusal, name: str, lines: Lines) -> str:
    place = refusal.place
    if place is None:
        return f"{plain(name)}: {plain(refusal.what)}" + instead_of(refusal)
    line = lines.line(place.file, place.line)
    shown = plain(line.replace("\t", " ")).rstrip()
    texts = [f"{plain(place.file)}:{place.line}:{place.column}: {plain(refusal.what)}"]
    if shown.strip():
        margin = " " * max(4, len(str(place.line)))
        texts += [f"{place.line:>4} | {shown[:WIDTH]}", f"{margin} | {' ' * min(WIDTH, max(0, place.column - 1))}^"]
    return "\n".join(texts) + instead_of(refusal)


def instead_of(refusal: Refusal) -> str:
    if not refusal.instead:
        return ""
    margin = " " * 7
    return "\n" + "\n".join(margin + it for it in textwrap.wrap(f"write instead: {plain(refusal.instead)}", WIDTH))


def refusals_text(refusals: Sequence[Refusal], name: str, lines: Lines) -> str:
    texts = [refusal_text(it, name, lines) for it in refusals]
    return "\n".join([*texts, f"{plain(name)}: {counted(len(refusals), 'refusal')}"]) + "\n"


