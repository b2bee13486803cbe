"""What the program says of a file: its fault line, and the place that it names."""
from __future__ import annotations

import re
from typing import Any, List, Optional

LOAD_FAULT = re.compile(r"rtosim: [0-9]+ ([A-Za-z]+): (.+)")
OTHERS = (
    ("NotToml", re.compile("rtosim: not TOML")),
    ("TooLarge", re.compile("rtosim: cannot read .*: larger than 64 MiB", re.DOTALL)),
    ("CannotRead", re.compile("rtosim: cannot read .*", re.DOTALL)),
    ("TooManyPoints", re.compile("rtosim: too many points")),
    ("Memory", re.compile("rtosim: out of memory")),
)


class Verdict:
    """A fault line: itself, its kind, and its place as words, as `task 0 script 1`."""

    def __init__(self, line: str) -> None:
        self.line = line
        self.place: List[str] = []
        self.kind: Any
        load_fault = LOAD_FAULT.fullmatch(line)
        if load_fault:
            self.kind, self.place = load_fault[1], load_fault[2].split(" ")
        else:
            self.kind = next((kind for kind, pattern in OTHERS if pattern.fullmatch(line)), None)


class Place:
    """A place: the section, the entry's index, the key, the index in the key's array, each None if it isn't there."""

    def __init__(self, words: List[str]) -> None:
        numbered: List[Any] = [int(it) if it.isdigit() else it for it in words]
        self.words = numbered
        self.section: str = numbered[0]
        rest = numbered[1:]
        self.index: Optional[int] = rest.pop(0) if rest and isinstance(rest[0], int) else None
        self.key: Any = rest.pop(0) if rest else None
        self.at: Any = rest.pop(0) if rest else None
