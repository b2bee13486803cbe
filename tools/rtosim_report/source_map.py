"""The lines of C of an application's ops, as the map has them that rtosim-from-c writes."""
from __future__ import annotations

import json
from dataclasses import dataclass
from typing import Dict, List, NamedTuple, Optional, Tuple

from .application import Application
from .escaping import plain
from .faults import Fault

VERSION = 1
# A longer line of C is cut.
LONGEST_SHOWN = 100


class SourceLine(NamedTuple):
    """The line of C that an op is of. If it is in a function that was inserted, also the lines of the calls that lead there."""

    op: str
    file: str
    line: int
    text: str
    calls: Tuple[int, ...] = ()

    @property
    def place(self) -> str:
        return f"{self.file}:{self.line}"

    @property
    def shown(self) -> str:
        """The place and the text."""
        called = f" (called at {', '.join(map(str, self.calls))})" if self.calls else ""
        return f"{self.place}{called}: {self.text}"


@dataclass(frozen=True, eq=False)
class SourceMap:
    """A map: of each task and handler the lines of its ops, by their indices. `main` is the file that was translated."""

    name: str
    main: str
    tasks: Dict[str, List[SourceLine]]
    handlers: Dict[str, List[SourceLine]]

    def line(self, name: str, index: Optional[int], word: Optional[str] = None) -> Optional[SourceLine]:
        """The line of an op, which begins with this word; None of a task or a handler that the map doesn't have."""
        ops = self.tasks.get(name, self.handlers.get(name))
        if ops is None or index is None:
            return None
        found = ops[index] if index < len(ops) else None
        if found is None or word is not None and found.op.split()[:1] != [word]:
            there = f'"{found.op}"' if found else "not there"
            raise Fault(f"{plain(self.name)} is no map of this report: op {index} of {name} is {there} in the map, and `{word}` in the report")
        return found

    def owners(self) -> List[Tuple[str, List[SourceLine]]]:
        """The tasks, then the handlers, with their lines."""
        return [*self.tasks.items(), *self.handlers.items()]

    def short(self, found: Optional[SourceLine]) -> str:
        """The number of a line, as `:41`; of a line of another file than that which was translated with its name."""
        return "" if found is None else f":{found.line}" if found.file == self.main else found.place

    def column(self, found: Optional[SourceLine]) -> str:
        """The line below a column that is headed by the file which was translated."""
        if found is None:
            return ""
        at = str(found.line) if found.file == self.main else found.place
        return f"{at}: {found.text}"

    def check(self, application: Application, file: str) -> None:
        """That the application in this file is the one that the map was written with: it may have tasks and handlers besides."""
        for kind, scripts, owners in (("task", application.tasks, self.tasks), ("handler", application.handlers, self.handlers)):
            for name, lines in owners.items():
                script = scripts.get(name)
                if script is None:
                    raise Fault(f"{plain(self.name)} is no map of {plain(file)}, which has no {kind} {plain(name)}")
                why = difference(name, [" ".join(it.op.split()) for it in lines], [it.text for it in script.ops])
                if why:
                    raise Fault(f"{plain(self.name)} is no map of {plain(file)}: {plain(why)}")


def difference(name: str, mapped: List[str], written: List[str]) -> str:
    """In words the first op that isn't the same in both, if there is one."""
    for at, (one, other) in enumerate(zip(mapped, written)):
        if one != other:
            return f'op {at} of {name} is "{one}" in the map, and "{other}" in the application'
    if len(mapped) != len(written):
        return f"{name} has {len(mapped)} ops in the map, and {len(written)} in the application"
    return ""


def read_map(name: str) -> SourceMap:
    """The map in the file of this name."""
    try:
        with open(name, encoding="utf-8") as file:
            found = json.load(file)
    except OSError as why:
        raise Fault(f"cannot read {plain(name)}: {why.strerror}") from None
    except (ValueError, RecursionError):
        raise Fault(f"{plain(name)} is no map of `rtosim-from-c --map`: it isn't JSON") from None
    try:
        return map_of(name, found)
    except (AttributeError, KeyError, TypeError, ValueError):
        raise Fault(f"{plain(name)} is no map of `rtosim-from-c --map`, version {VERSION}") from None


def map_of(name: str, found: dict) -> SourceMap:
    """The map that this object is; an AttributeError, a KeyError, a TypeError or a ValueError if it is none."""
    if found["version"] != VERSION:
        raise ValueError
    tasks, handlers = ({owner: list(map(line_of, ops)) for owner, ops in found[key].items()} for key in ("tasks", "handlers"))
    return SourceMap(name, text_of(found["source"]), tasks, handlers)


def line_of(found: dict) -> SourceLine:
    numbers = [found["line"], *found.get("called_from", [])]
    if not all(type(it) is int and it >= 0 for it in numbers):
        raise ValueError
    text = text_of(found["text"])
    shown = text if len(text) <= LONGEST_SHOWN else f"{text[:LONGEST_SHOWN]} .."
    return SourceLine(text_of(found["op"]), text_of(found["file"]), numbers[0], shown, tuple(numbers[1:]))


def text_of(found: str) -> str:
    """The text, fit to be shown."""
    if not isinstance(found, str):
        raise ValueError
    return plain(" ".join(found.split()))
