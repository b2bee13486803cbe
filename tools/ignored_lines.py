"""Prints on standard error a line for each section and key of an application that the program ignores:

    tools/ignored_lines.py FILE PROGRAM

They are those of bin/rtosim-check. If PROGRAM isn't empty, it is asked whether it does ignore them. Of a file that can't be read, is no TOML,
or has more than a megabyte nothing is printed: the program says what is wrong with it, and rtosim-check reads large ones."""
from __future__ import annotations

import sys
from typing import AbstractSet, Any, Callable, Iterator, Optional, Set, Tuple

sys.dont_write_bytecode = True
from rtosim_check import ignored, nodes, toml_reader
from rtosim_report.escaping import plain

MOST_BYTES = 1 << 20


def document(name: str) -> Optional[Tuple[str, Any]]:
    """The text of the file and its document; None if there is none."""
    try:
        with open(name, "rb") as file:
            found = file.read(MOST_BYTES + 1)
        if len(found) > MOST_BYTES:
            return None
        text = found.decode("utf-8-sig")
        return text, toml_reader.read_document(text)
    except (OSError, ValueError, nodes.NotToml):
        return None


def lines(name: str, program: str) -> Iterator[str]:
    """A line for each of them, with its place."""
    found = document(name)
    if found is None:
        return
    text, root = found
    for it in ignored.warnings(root, asked(program)):
        yield f"rtosim: {plain(name)}: line {text.count(chr(10), 0, it.span[0] if it.span else 0) + 1}: {plain(it.message)}"


def asked(program: str) -> Callable[[AbstractSet[Any]], Set[Any]]:
    """A function that finds those of some keys that the program ignores; all of them, if no program can be asked."""

    def ignored_of(keys: AbstractSet[Any]) -> Set[Any]:
        from rtosim_check.program import Program

        try:
            return Program(program).ignored(keys)
        except Exception:  # whatever it is, it is no fault of the run, which comes next
            return set(keys)

    return ignored_of if program else lambda keys: set(keys)


def main(name: str, program: str) -> None:
    for it in lines(name, program):
        print(it, file=sys.stderr)


if __name__ == "__main__":
    _, of_file, by_program = sys.argv
    main(of_file, by_program)
