#!/usr/bin/env python3
"""Counts the lines of definitions that a reader has to believe, without imports, comments and blank lines, in two ways:

- by files: all lines of a file of definitions and of all files that it cites, and that these cite;
- by name: only the definitions that a contract names, those that these name, and so on (definitions.py). With them come the types that
  the code declares and these name, and the definitions and types of the kit's libraries. Its standard library isn't counted.

    tests/believed.py           of the kernel's rules, of what serving a campaign means, and of what the program does for its words
    tests/believed.py FILE..    of all definitions of these files"""
import os
import re
import sys
from typing import Dict, Iterator, List, NamedTuple, Set

from contracts import functions_of, named_by_contract
from definitions import ROOT, Name, crate_of, definitions_of, is_definition_line, is_of_kit, owner_of, reached_from, text_of

KERNEL = "crates/model/specs/Run.antt"
SERVING = "crates/campaign/specs/Campaigns.antt"
SERVE = ("crates/campaign/src/bytes_to_report.rt", "serve")
OBEY = ("crates/jobs/src/command_line.rt", "obey")


class Count(NamedTuple):
    """How many lines there are, and of how many definitions or types."""

    lines: int
    names: int


class Believed(NamedTuple):
    """What comes with a name: the definitions of this repository, the types that its code declares, and both of the kit's libraries."""

    definitions: Count
    types: Count
    kit: Count


# ---- by files

def lines_of(file: str) -> int:
    return sum(map(is_definition_line, text_of(file).splitlines()))


def cited_by(file: str) -> Iterator[str]:
    """The files of definitions from which it imports, of this repository's crates."""
    for crate, name in re.findall(r"(?m)^use Rattle\.(\w+)\.specs\.([A-Z]\w*)\b", text_of(file)):
        cited = f"crates/{crate}/specs/{name}.antt"
        if os.path.exists(f"{ROOT}/{cited}"):
            yield cited


def believed(*files: str) -> Dict[str, int]:
    """The lines of each file that a reader of these has to believe."""
    found: Dict[str, int] = {}
    left = [*files]
    while left:
        it = left.pop()
        if it not in found:
            found[it] = lines_of(it)
            left += cited_by(it)
    return found


# ---- by name

def names_of(file: str) -> Set[Name]:
    """All definitions of a file."""
    return {Name(file, it) for it in definitions_of(file)}


def contract_names(file: str, function: str) -> Set[Name]:
    """What the contract of a function of this file names, of this repository's definitions."""
    found = next(it for it in functions_of(file) if it.name == function)
    return {it for it in map(owner_of, named_by_contract(found)) if it and not is_of_kit(it.file)}


def count_of(found: Dict[Name, int]) -> Count:
    return Count(sum(found.values()), len(found))


def believed_by_name(names: Set[Name]) -> Believed:
    """What a reader of these has to believe."""
    found = reached_from(names)
    own = {it: lines for it, lines in found.items() if not is_of_kit(it.file)}
    return Believed(
        count_of({it: lines for it, lines in own.items() if it.file.endswith(".antt")}),
        count_of({it: lines for it, lines in own.items() if it.file.endswith(".rt")}),
        count_of({it: lines for it, lines in found.items() if is_of_kit(it.file)}),
    )


# ---- what is printed

def by_crate(lines: Dict[str, int]) -> str:
    """How many lines each crate has, by the lines of its files."""
    crates: Dict[str, int] = {}
    for file, some in lines.items():
        crates[crate_of(file)] = crates.get(crate_of(file), 0) + some
    return ", ".join(f"{it} {crates[it]}" for it in sorted(crates))


def kit_lines(names: Set[Name]) -> str:
    lines: Dict[str, int] = {}
    for it, some in reached_from(names).items():
        if is_of_kit(it.file):
            lines[it.file] = lines.get(it.file, 0) + some
    return f": {by_crate(lines)}" if lines else ""


def printed(title: str, files: List[str], names: Set[Name]) -> Iterator[str]:
    found = believed(*files)
    yield f"{sum(found.values())} lines in {len(found)} files of {title}: {by_crate(found)}"
    counted = believed_by_name(names)
    yield f"    by name {counted.definitions.lines} lines in {counted.definitions.names} definitions"
    yield f"    besides {counted.types.lines} lines in {counted.types.names} types that the code declares"
    yield f"    besides {counted.kit.lines} lines in {counted.kit.names} definitions and types of the kit's libraries{kit_lines(names)}"


def print_contract(file: str, function: str) -> None:
    names = contract_names(file, function)
    title = f"`{function}`, {' and '.join(sorted({it.file for it in names}))}"
    print(*printed(title, sorted({it.file for it in names}), names), sep="\n")


def main(files: List[str]) -> None:
    for file in files or [KERNEL]:
        print(*printed(file, [file], names_of(file)), sep="\n")
    if not files:
        print_contract(*SERVE)
        print_contract(*OBEY)


if __name__ == "__main__":
    main(sys.argv[1:])
