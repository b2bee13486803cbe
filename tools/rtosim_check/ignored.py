"""Warnings of what the program ignores: sections and keys that the format hasn't, and those in another place than theirs."""
from __future__ import annotations

from typing import Callable, Iterator, List, Optional, Set, Tuple

from .application import Entry
from .findings import WARNING, Finding
from .formats import MEANT_KEYS, MEANT_SECTIONS, SECTIONS, Section, TOP_KEYS
from .left_out import NOT_SIMULATED_SECTIONS, WITHOUT_SECTION, not_simulated, not_simulated_rule
from .nearness import did_you_mean, near
from .nodes import Array, Member, Node, Table


def warnings(root: Table, ignored: Callable[[Set[Tuple[str, str]]], Set[Tuple[str, str]]]) -> List[Finding]:
    """The warnings of a document. `ignored` is asked which of some keys, each with its section, the program ignores."""
    unknown = list(of_document(root))
    sure = ignored({key for key, _ in unknown}) if unknown else ()
    return [it for key, it in unknown if key in sure]


def of_document(root: Table) -> Iterator[Tuple[Tuple[str, str], Finding]]:
    """What isn't known, each key with its section, and the warning of it."""
    for name, member in root.members.items():
        if name in SECTIONS:
            for label, table in tables_of(name, member.value):
                yield from of_table(SECTIONS[name], label, table)
        elif name not in TOP_KEYS:
            yield ("", name), of_section(member)


def tables_of(section: str, value: Node) -> List[Tuple[str, Table]]:
    """The tables of a section as it must be, with how a message calls each."""
    if not SECTIONS[section].is_list:
        return [(f"[{section}]", value)] if isinstance(value, Table) else []
    items = value.items if isinstance(value, Array) else []
    return [(Entry(section, at, it).label, it) for at, it in enumerate(items) if isinstance(it, Table)]


def of_section(member: Member) -> Finding:
    """The warning of a section, or a key above the first table, that isn't known."""
    name, shown = member.key, member.shown
    owner = owner_of(name)
    if owner and not isinstance(member.value, Table) and shown[0] != "[":
        message = f"{shown} is ignored: it isn't a key above the first table; it belongs under {owner}"
        return warning("UnknownSection", member, message)
    left_out = not_simulated(name, NOT_SIMULATED_SECTIONS) if name.lower() not in MEANT_SECTIONS else None
    if left_out and shown[0] == "[":
        return warning("NotSimulated", member, f"{shown} is ignored: {left_out} aren't simulated", not_simulated_rule(left_out))
    meant = near(name, [*SECTIONS, *TOP_KEYS], MEANT_SECTIONS)
    end = did_you_mean(SECTIONS[meant].header if meant in SECTIONS else meant)
    kind = "section" if shown[0] == "[" or isinstance(member.value, (Table, Array)) else "key"
    needless = next((it for start, it in WITHOUT_SECTION.items() if name.lower().replace("task", "").lstrip("_").startswith(start)), None)
    rule = needless or (None if meant else f"the sections are {', '.join(SECTIONS)}; above them are {' and '.join(TOP_KEYS)}")
    return warning("UnknownSection", member, f"{shown} is ignored: there is no such {kind}{end}", rule)


def owner_of(key: str) -> Optional[str]:
    """The header of the section that has the key, or the headers of two; None if there are more."""
    owners = [it.header for it in SECTIONS.values() if key in it.keys]
    return " or ".join(owners) if 0 < len(owners) < 3 else None


def of_table(section: Section, label: str, table: Table) -> Iterator[Tuple[Tuple[str, str], Finding]]:
    """As of_document, of a table's keys."""
    for name, member in table.members.items():
        if name not in section.keys:
            yield (section.name, name), warning("UnknownKey", member, *of_key(section, label, name))


def of_key(section: Section, label: str, name: str) -> Tuple[str, Optional[str]]:
    """What to say of a key that its table doesn't know, and the rule."""
    start = f'"{name}" is ignored'
    if name in TOP_KEYS:
        return f"{start}, since it is below {section.header}; it belongs above the first table", TOP_KEYS[name].rule
    if name in SECTIONS:
        return f"{start}, since it is below {section.header}; did you mean {SECTIONS[name].header}?", SECTIONS[name].rule
    meant = near(name, section.keys, MEANT_KEYS)
    if meant:
        return f'{label}: {start}: it isn\'t a key of {section.header}; did you mean "{meant}"?', section.keys[meant].rule
    owner = owner_of(name)
    if owner:
        return f"{start}, since it is below {section.header}; it belongs under {owner}", None
    return f"{label}: {start}: it isn't a key of {section.header}", f"the keys of {section.header} are {', '.join(section.keys)}"


def warning(kind: str, member: Member, message: str, rule: Optional[str] = None) -> Finding:
    return Finding(WARNING, kind, member.span, message, rule)
