"""The text of FILE.c: its comments for rtosim, what `cpp` makes of it with our headers, and where a place of that is in FILE.c."""
import difflib
import os
import re
import subprocess
from typing import Dict, List, Optional, Sequence

from rtosim_report.faults import Fault

from .refusals import Place, Refusal, SeveralRefusals
from .trees import Node

HEADERS = os.path.join(os.path.dirname(os.path.realpath(__file__)), "headers")
# Texts and characters, so that a comment inside one isn't seen; comments, from which those for rtosim are kept.
PIECE = re.compile(r"""("(?:\\.|[^"\\\n])*"|'(?:\\.|[^'\\\n])*')|/\*(.*?)\*/|//([^\n]*)""", re.DOTALL)
TOKEN = re.compile(r"""[A-Za-z_]\w*|\d[\w.]*|"(?:\\.|[^"\\])*"|'(?:\\.|[^'\\])*'|[-+<>&|=!]=|&&|\|\||<<|>>|\+\+|--|->|\S""")
COMMENT_FOR_RTOSIM = re.compile(r"\s*rtosim:\s*(.*?)\s*", re.DOTALL)
CPP_FAULT = re.compile(r"(.*?):(\d+):(\d+): (?:fatal )?error: (.*)")
INCLUDE = re.compile(r'\s*#\s*include\s*([<"])([^">]+)[">]')
NO_HEADER = "leave it out for rtosim by `#ifndef RTOSIM`, put a stub of it beside the file, or name its folder with -I"
UNKNOWN_TYPE = "a type that isn't declared is read as a name: include its header"
STATUS_LACKING = 70


class Lacking(Fault):
    """What the translator needs isn't there."""

    status = STATUS_LACKING


class Lines:
    """The lines of the files, and columns of what `cpp` wrote as columns of theirs."""

    def __init__(self) -> None:
        self.files: Dict[str, List[str]] = {}
        self.preprocessed: Dict[tuple, str] = {}
        self.places: Dict[tuple, Place] = {}

    def line(self, file: str, number: int) -> str:
        if file not in self.files:
            try:
                self.files[file] = read(file).splitlines()
            except Fault:
                self.files[file] = []
        lines = self.files[file]
        return lines[number - 1] if 0 < number <= len(lines) else ""

    def place(self, file: str, number: int, column: int) -> Place:
        """The place in the file of a place in what `cpp` wrote."""
        key = (file, number, column)
        if key not in self.places:
            self.places[key] = self.find_place(file, number, column)
        return self.places[key]

    def find_place(self, file: str, number: int, column: int) -> Place:
        made, written = self.preprocessed.get((file, number), ""), self.line(file, number)
        tokens, there = list(TOKEN.finditer(made)), list(TOKEN.finditer(without_comments(written)))
        at = next((number for number, it in enumerate(tokens) if it.end() >= column), len(tokens))
        match = difflib.SequenceMatcher(None, [it[0] for it in there], [it[0] for it in tokens], False)
        found = 0
        for block in match.get_matching_blocks():
            if block.b <= at and block.size:
                found = block.a + min(at - block.b, block.size)
        column = there[min(found, len(there) - 1)].start() + 1 if there else 1
        return Place(file, number, column)

    def keep(self, text: str) -> None:
        """Notes which line of which file each line of what `cpp` wrote is."""
        file, number = "", 0
        for line in text.splitlines():
            marker = re.match(r'# (\d+) "((?:[^"\\]|\\.)*)"', line)
            if marker:
                file, number = re.sub(r"\\(.)", r"\1", marker[2]), int(marker[1])
                continue
            if not line.startswith("#"):
                # after a pragma `cpp` begins the rest of a line anew, at its column
                rest = line.lstrip()
                indent = len(line) - len(rest)
                before = self.preprocessed.get((file, number), "")
                self.preprocessed[(file, number)] = f"{before[:indent]:{indent}}{rest}" if rest or not before else before
            number += 1


def without_comments(line: str) -> str:
    return PIECE.sub(lambda it: it[1] or " " * len(it[0]), line)


def read(name: str) -> str:
    try:
        with open(name, encoding="utf-8", errors="surrogateescape", newline=None) as file:
            return file.read()
    except OSError as why:
        raise Fault(f"cannot read {name}: {why.strerror}") from None


def with_pragmas(text: str) -> str:
    """The text with a pragma in the place of each comment for rtosim, which `cpp` and the parser keep. Lines stay where they are."""
    return PIECE.sub(lambda it: it[1] or pragma(it[2] if it[3] is None else it[3]) + "\n" * (it[0].count("\n")), text)


def pragma(comment: str) -> str:
    found = COMMENT_FOR_RTOSIM.fullmatch(comment)
    if not found:
        return " "
    words = " ".join(found[1].split()).replace("\\", " ").replace('"', " ")
    return f' _Pragma("rtosim {words}") '


def preprocessed(name: str, folders: Sequence[str], macros: Sequence[str], lines: Lines) -> str:
    """What `cpp` makes of the file."""
    text = with_pragmas(read(name))
    own_folder = os.path.dirname(os.path.abspath(name))
    words = ["cpp", "-nostdinc", "-I", HEADERS, "-I", own_folder]
    for it in folders:
        words += ["-I", it]
    words += ["-DRTOSIM=1", "-D__attribute__(x)=", "-D__extension__=", *(f"-D{it}" for it in macros), "-"]
    marked = f'# 1 "{escaped(name)}"\n{text}'
    try:
        ran = subprocess.run(words, input=marked.encode("utf-8", "surrogateescape"), stdout=subprocess.PIPE, stderr=subprocess.PIPE)
    except OSError:
        raise Lacking("there is no cpp: on Debian, `apt-get install cpp`") from None
    if ran.returncode:
        raise refusal_of_cpp(ran.stderr.decode("utf-8", "replace"), missing_headers(words, marked, name))
    made = ran.stdout.decode("utf-8", "surrogateescape")
    lines.keep(made)
    return made


def escaped(name: str) -> str:
    return name.replace("\\", "\\\\").replace('"', '\\"')


def missing_headers(words: Sequence[str], text: str, name: str) -> List[Refusal]:
    """The headers that the file includes and that aren't there, as far as `cpp` finds them without the others."""
    ran = subprocess.run([*words, "-M", "-MG"], input=text.encode("utf-8", "surrogateescape"), stdout=subprocess.PIPE, stderr=subprocess.PIPE)
    listed = set(ran.stdout.decode("utf-8", "surrogateescape").replace("\\\n", " ").split())
    found = []
    for number, line in enumerate(text.splitlines()):
        header = INCLUDE.match(line)
        if header and header[2] in listed and not os.path.exists(header[2]):
            found.append(Refusal(Place(name, number, header.start(1) + 1), f"cpp: {header[2]}: No such file or directory", NO_HEADER))
    return found


def refusal_of_cpp(said: str, missing: List[Refusal]) -> Exception:
    for line in said.splitlines():
        fault = CPP_FAULT.match(line)
        if fault:
            is_header = "No such file" in fault[4]
            place = Place(fault[1], int(fault[2]), int(fault[3]))
            first = Refusal(place, f"cpp: {fault[4]}", NO_HEADER if is_header else "")
            others = [it for it in missing if is_header and it.place and (it.place.file, it.place.line) != (place.file, place.line)]
            return SeveralRefusals([first, *others])
    return Fault(f"cpp: {said.strip() or 'it failed'}")


def parser() -> Node:
    """A parser of C by pycparser."""
    try:
        from pycparser import CParser
    except ImportError:
        raise Lacking("there is no pycparser: on Debian, `apt-get install python3-pycparser`") from None
    return CParser()


def parsed(text: str, name: str, lines: Lines) -> Node:
    """The tree of a preprocessed text."""
    one = parser()
    try:
        return one.parse(text, name)
    except RecursionError:
        raise Fault(f"{name} is nested too deep") from None
    except Exception as why:
        if type(why).__name__ not in ("ParseError", "LexError"):
            raise
        raise refusal_of_parser(str(why), name, lines, text) from None


def first_unread(text: str, name: str) -> Optional[Place]:
    """Where the first declaration begins that isn't read, of a text that the parser refuses without a place."""
    starts, depth, file, number = [], 0, name, 0
    kept = text.splitlines(keepends=True)
    for at, line in enumerate(kept):
        marker = re.match(r'# (\d+) "((?:[^"\\]|\\.)*)"', line)
        if marker:
            file, number = re.sub(r"\\(.)", r"\1", marker[2]), int(marker[1])
            continue
        depth += line.count("{") - line.count("}")
        if depth == 0 and line.rstrip().endswith((";", "}")):
            starts.append((at + 1, Place(file, number, 1)))
        number += 1
    low, high = 0, len(starts) - 1
    while low < high:
        middle = (low + high) // 2
        low, high = (middle + 1, high) if is_read("".join(kept[: starts[middle][0]])) else (low, middle)
    return starts[low][1] if starts else None


def is_read(text: str) -> bool:
    try:
        parser().parse(text, "")
        return True
    except Exception:
        return False


def refusal_of_parser(said: str, name: str, lines: Lines, text: str) -> Refusal:
    found = re.match(r"(.*?):(\d+)(?::(\d+))?: (.*)", said, re.DOTALL)
    if not found:
        place = first_unread(text, name) or Place(name, 1, 1)
        return Refusal(place, f"no C that pycparser reads, up to here: {said.split(': ', 1)[-1]}", UNKNOWN_TYPE)
    place = lines.place(found[1], int(found[2]), int(found[3] or 1))
    return Refusal(place, f"no C that pycparser reads: {found[4]}", UNKNOWN_TYPE)


def place_of(node: Node, lines: Lines, calls: tuple = ()) -> Optional[Place]:
    coord = getattr(node, "coord", None)
    if coord is None or not coord.line:
        return None
    found = lines.place(coord.file, coord.line, coord.column or 1)
    return Place(found.file, found.line, found.column, calls) if calls else found
