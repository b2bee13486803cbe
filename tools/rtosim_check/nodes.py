"""What a TOML document holds, with its places in the text: offsets in characters, the end not included."""
from __future__ import annotations

from typing import Any, Dict, List, Optional, Tuple, Union

# The offsets of the first character and of the one after the last.
Span = Tuple[int, int]


class Node:
    """A value. `kind` is what a message calls it."""

    __slots__ = ("start", "end")
    kind = "a value"

    def __init__(self, start: int, end: int) -> None:
        self.start, self.end = start, end

    @property
    def span(self) -> Span:
        return self.start, self.end


class Scalar(Node):
    __slots__ = ("value",)

    def __init__(self, value: Any, start: int, end: int) -> None:
        super().__init__(start, end)
        self.value = value


class Integer(Scalar):
    __slots__ = ()
    kind = "an integer"


class Float(Scalar):
    __slots__ = ()
    kind = "a float"


class Boolean(Scalar):
    __slots__ = ()
    kind = "a boolean"


class Moment(Scalar):
    """A date, a time, or both; its value is its text."""

    __slots__ = ()
    kind = "a date or a time"


class Text(Scalar):
    """A string. `places` are the offsets of its characters, or that of the first if they follow each other."""

    __slots__ = ("places",)
    kind = "a text"

    def __init__(self, value: str, start: int, end: int, places: Union[int, List[int]]) -> None:
        super().__init__(value, start, end)
        self.places = places

    def place(self, index: int) -> int:
        """Where in the document the character of this index is, or the text ends."""
        if isinstance(self.places, int):
            return self.places + index
        return self.places[index] if index < len(self.places) else self.end - 1

    def part(self, start: int, end: int) -> Span:
        """The span of a part of the text; of an empty part the place where it would be."""
        if start >= end:
            return self.place(start), self.place(start) + 1
        return self.place(start), self.place(end - 1) + 1


class Array(Node):
    """An array; `is_of_headers` if its elements are tables with headers of their own, as `[[task]]`."""

    __slots__ = ("items", "is_of_headers")

    def __init__(self, start: int, end: int, is_of_headers: bool = False) -> None:
        super().__init__(start, end)
        self.items: List[Any] = []
        self.is_of_headers = is_of_headers

    @property
    def kind(self) -> str:  # type: ignore[override]
        return "an array of tables" if self.is_of_headers else "an array"


class Member:
    """A key of a table with its value. Start and end are those of the key's first occurrence."""

    __slots__ = ("key", "start", "end", "value")

    def __init__(self, key: str, start: int, end: int, value: Any) -> None:
        self.key, self.start, self.end, self.value = key, start, end, value

    @property
    def has_header(self) -> bool:
        value = self.value
        return isinstance(value, Array) and value.is_of_headers or isinstance(value, Table) and value.origin == Table.HEADER

    @property
    def span(self) -> Span:
        """Where the section begins: its first header, or the key if it has none."""
        return self.value.span if self.has_header else (self.start, self.end)

    @property
    def shown(self) -> str:
        """The section or key as the file writes it."""
        if not self.has_header:
            return f'"{self.key}"'
        return f"[[{self.key}]]" if isinstance(self.value, Array) else f"[{self.key}]"


class Table(Node):
    """A table. `origin` is one of the four below; the span is that of its header, of its braces, or of the key that made it."""

    __slots__ = ("members", "origin")
    kind = "a table"
    IMPLICIT, DOTTED, HEADER, INLINE = range(4)

    def __init__(self, start: int, end: int, origin: int) -> None:
        super().__init__(start, end)
        self.members: Dict[str, Member] = {}
        self.origin = origin

    def get(self, key: str) -> Any:
        """The value of a key, or None."""
        member = self.members.get(key)
        return None if member is None else member.value


class NotToml(Exception):
    """The text is no TOML document: where, what is wrong there, and what would be right. `{line}` in the message is the line of
    another place, `other`."""

    def __init__(self, start: int, end: int, message: str, rule: Optional[str] = None, other: Optional[int] = None) -> None:
        super().__init__(message)
        self.start, self.end, self.message, self.rule, self.other = start, end, message, rule, other
