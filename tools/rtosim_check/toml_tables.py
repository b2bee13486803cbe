"""The rules by which keys and headers define tables."""
from __future__ import annotations

from typing import List

from .formats import Word
from .nodes import Array, Member, Node, NotToml, Span, Table


def put(table: Table, key: List[Word], value: Node) -> None:
    """Defines a dotted key in a table."""
    for part in key[:-1]:
        table = along_dot(table, part)
    define(table, key, value)


def along_dot(table: Table, part: Word) -> Table:
    """The table that a part of a dotted key leads to: none that a header defined, and no inline one."""
    key, start, end = part
    member = table.members.get(key)
    if member is None:
        inner = Table(start, end, Table.DOTTED)
        table.members[key] = Member(key, start, end, inner)
        return inner
    inner = member.value
    if not isinstance(inner, Table) or inner.origin in (Table.HEADER, Table.INLINE):
        raise NotToml(start, end, f'the key "{key}" is already defined in line {{line}}',
                      "a dotted key can extend only tables that dotted keys made", member.start)
    inner.origin = Table.DOTTED
    return inner


def define(table: Table, parts: List[Word], value: Node) -> None:
    key, start, end = parts[-1]
    if key in table.members:
        raise NotToml(start, end, f'the key "{key}" is there twice: it is already defined in line {{line}}',
                      "a table has each key once", table.members[key].start)
    table.members[key] = Member(key, start, end, value)


class Builder:
    """The document so far, and the table of the last header."""

    def __init__(self) -> None:
        self.root = Table(0, 0, Table.HEADER)
        self.section, self.header = self.root, None

    def pair(self, key: List[Word], value: Node) -> None:
        put(self.section, key, value)

    def parent(self, key: List[Word]) -> Table:
        """The table in which the last part of a header's key is defined."""
        table = self.root
        for part in key[:-1]:
            table = self.along_header(table, part)
        return table

    def along_header(self, table: Table, part: Word) -> Table:
        key, start, end = part
        member = table.members.get(key)
        if member is None:
            inner = Table(start, end, Table.IMPLICIT)
            table.members[key] = Member(key, start, end, inner)
            return inner
        inner = member.value
        if isinstance(inner, Array) and inner.is_of_headers:
            return inner.items[-1]
        if isinstance(inner, Table) and inner.origin != Table.INLINE:
            return inner
        raise NotToml(start, end, f'"{key}" is already defined in line {{line}}, and is {inner.kind}', None, member.start)

    def table(self, key: List[Word], span: Span) -> None:
        table, (name, start, end) = self.parent(key), key[-1]
        member = table.members.get(name)
        if member is None:
            self.section = Table(*span, Table.HEADER)
            table.members[name] = Member(name, start, end, self.section)
            return
        self.section = member.value
        if not isinstance(self.section, Table) or self.section.origin != Table.IMPLICIT:
            raise NotToml(*span, f"[{name}] is there twice: it is already defined in line {{line}}",
                          f"there is one section [{name}]; a list of them has two brackets each, [[{name}]]", member.start)
        self.section.origin = Table.HEADER
        self.section.start, self.section.end = span

    def array_table(self, key: List[Word], span: Span) -> None:
        table, (name, start, end) = self.parent(key), key[-1]
        member = table.members.get(name)
        if member is None:
            member = table.members[name] = Member(name, start, end, Array(*span, True))
        array = member.value
        if not isinstance(array, Array) or not array.is_of_headers:
            raise NotToml(*span, f"[[{name}]] is already defined in line {{line}} as {array.kind}",
                          "a section is written in the same way everywhere", member.start)
        self.section = Table(*span, Table.HEADER)
        array.items.append(self.section)
