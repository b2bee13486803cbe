"""What the `--help` texts of a command and of its subcommands say, as clap and argparse write them."""
from __future__ import annotations

import re
from dataclasses import dataclass, field
from typing import Callable, Dict, List, Optional, Tuple

# Names of values that are files.
FILES = ("FILE", "FILE.c", "FOLDER", "MAP", "PATH", "REPORT", "OLD", "NEW")
OPTION = re.compile(r"(?:-(?P<short>\w)|--(?P<long>[\w-]+))(?:[ =](?P<value><[^>]+>|\{[^}]+\}|[^\s,-][^\s,]*))?(?:, |$)")


@dataclass
class Entry:
    """An argument, or an option: its names, `-o` and `--output`, if it is one; the value that it takes, as it is shown; what it is."""

    names: List[str]
    value: Optional[str]
    text: str

    @property
    def words(self) -> List[str]:
        """The words that the value is one of, as far as the text shows them."""
        shown = self.value or ""
        listed = re.fullmatch(r"\{(.*)\}", shown)
        words = listed[1].split(",") if listed else shown.split("|") if "|" in shown else []
        return [it for it in words if it.islower()]

    @property
    def is_file(self) -> bool:
        return self.value in FILES

    @property
    def called(self) -> Optional[str]:
        """The value, as a manual names it."""
        return "|".join(self.words) if self.value and self.value.startswith("{") else self.value


@dataclass
class Command:
    """A command, with the words by which it is called: `rtosim`, or `rtosim run`."""

    words: List[str]
    about: str = ""
    usage: str = ""
    arguments: List[Entry] = field(default_factory=list)
    options: List[Entry] = field(default_factory=list)
    notes: Dict[str, List[str]] = field(default_factory=dict)
    commands: List[Command] = field(default_factory=list)

    @property
    def name(self) -> str:
        return self.words[-1]


def paragraphs(text: str) -> List[List[str]]:
    """The parts of a text between blank lines."""
    return [it.strip("\n").split("\n") for it in re.split(r"\n{2,}", text.strip("\n"))]


def entries(lines: List[str]) -> List[List[str]]:
    """Each entry of a list with its text, which may begin in the next line, further to the right."""
    found: List[List[str]] = []
    for line in lines:
        depth = len(line) - len(line.lstrip())
        if found and depth >= 20:
            found[-1][1] = f"{found[-1][1]} {line.strip()}".strip()
        else:
            head, _, text = line.strip().partition("  ")
            found.append([head, text.strip()])
    return found


def option(head: str, text: str) -> Entry:
    """The option that is listed so."""
    names, value = [], None
    for it in OPTION.finditer(head):
        names.append(f"-{it['short']}" if it["short"] else f"--{it['long']}")
        value = it["value"] or value
    assert names, f"no option is listed as {head!r}"
    return Entry(sorted(names, key=len), value.strip("<>") if value else None, text)


def read_section(command: Command, title: str, lines: List[str]) -> List[Tuple[str, str]]:
    """Takes in a list of the help text. Returns the names of the subcommands in it."""
    if title in ("Options", "options", "optional arguments"):
        command.options += [option(*it) for it in entries(lines)]
    elif title == "Arguments":
        command.arguments += [Entry([], head.strip("<>[]."), text) for head, text in entries(lines)]
    elif title == "Commands":
        return [(head, text) for head, text in entries(lines) if head != "help"]
    elif title == "positional arguments":
        if lines[0].strip() == "COMMAND":
            return [(head, text) for head, text in entries(lines[1:])]
        command.arguments += [Entry([], head, text) for head, text in entries(lines)]
    else:
        command.notes[title] = lines
    return []


def read(words: List[str], help_of: Callable[[List[str]], str], about: str = "") -> Command:
    """The command that is called by these words, with its subcommands. The function gives the help text of such words."""
    command, below = Command(words, about), []
    for first, *rest in paragraphs(help_of(words)):
        if usage := re.match("[Uu]sage: (.*)", first):
            command.usage = " ".join([usage[1], *map(str.strip, rest)])
        elif title := re.fullmatch(r"(\w[\w ]*):", first):
            below += read_section(command, title[1], rest)
        else:
            command.about = command.about or " ".join(map(str.strip, [first, *rest]))
    command.commands = [read([*words, name], help_of, text) for name, text in below]
    return command
