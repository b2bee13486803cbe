"""The program: what it says of a text, and how its base run ends."""
from __future__ import annotations

import json
import re
import subprocess
import tempfile
from typing import AbstractSet, Any, Dict, IO, Iterable, Optional, Set, Tuple

from rtosim_report.escaping import plain
from rtosim_report.faults import Fault
from rtosim_report.source import PROGRAM

from .base_ends import BaseEnd

HEAD = re.compile(rb"base: (.*) in ([0-9]+) steps, ([0-9]+) ticks\n")
# A small application with an entry of each section, into which something is put to see whether the program knows it.
PROBE = {
    "": "",
    "limits": "[limits]\n",
    "queue": '[[queue]]\nname = "q"\nlength = 1\n',
    "binary": '[[binary]]\nname = "s"\n',
    "counting": '[[counting]]\nname = "c"\nmax = 1\n',
    "mutex": '[[mutex]]\nname = "m"\n',
    "group": '[[group]]\nname = "g"\n',
    "variable": '[[variable]]\nname = "v"\n',
    "handler": '[[handler]]\nname = "h"\nops = []\n',
    "task": '[[task]]\nname = "a"\npriority = 0\nscript = []\n',
    "daemon": '[daemon]\nname = "d"\npriority = 0\nlength = 1\n',
    "interrupt": '[[interrupt]]\ntick = 1\nhandler = "h"\n',
    "campaign": "[campaign]\npoints = [POINT]\n",
}
SEVERAL = '"0 h 0 h"'
LONGEST = 60


class Program:
    """The program at a path."""

    def __init__(self, path: str = PROGRAM) -> None:
        self.path = path
        self.answers: Dict[str, bool] = {}

    def is_there(self) -> None:
        """Starts it once, so that a build shows how far it is; its reason is on standard error if there is no program."""
        try:
            ran = subprocess.run([self.path, "--version"], stdin=subprocess.DEVNULL, stdout=subprocess.DEVNULL, check=False)
        except OSError as why:
            raise Fault(f"cannot run {plain(self.path)}: {why.strerror}") from None
        if ran.returncode:
            raise Fault(f"{plain(self.path)} ends with status {ran.returncode}")

    def run(self, text: bytes) -> Tuple[Optional[str], Optional[BaseEnd]]:
        """The fault line of a text, or None, and the end of its base run. Of what it writes the first line is taken."""
        with kept(text) as given, tempfile.TemporaryFile() as said:
            streams: Any = {"stdin": given, "stdout": subprocess.PIPE, "stderr": said}
            with subprocess.Popen([self.path, "run", "/dev/stdin"], **streams) as started:
                output: Any = started.stdout
                head = HEAD.fullmatch(output.readline())
                output.close()
                status = self.ended(started)
            said.seek(0)
            lines = said.read()
        if head:
            return None, BaseEnd(head[1].decode(), int(head[2]), int(head[3]))
        return self.fault_line(status, lines), None

    def ended(self, started: subprocess.Popen) -> int:
        try:
            return started.wait(LONGEST)
        except subprocess.TimeoutExpired:
            started.kill()
            raise Fault(f"{plain(self.path)} didn't end within {LONGEST} seconds") from None

    def fault_line(self, status: int, lines: bytes) -> str:
        """The last line of what it said, if it ends as a program that judged the file."""
        line = lines.decode("utf-8", "surrogateescape").rstrip("\n").rpartition("\n")[2]
        if line.startswith("rtosim: ") and status in (3, 4):
            return line
        raise Fault(f"{plain(self.path)} ends with status {status}" + (f": {plain(line)}" if line else ""))

    def campaign(self, text: bytes) -> Optional[str]:
        """The fault line of a campaign of too many points, which comes before rows are made; None if rows are made."""
        with kept(text) as given:
            words = [self.path, "campaign", "/dev/stdin", "--quiet"]
            streams: Any = {"stdin": given, "stdout": subprocess.DEVNULL, "stderr": subprocess.PIPE}
            try:
                ran = subprocess.run(words, timeout=LONGEST, check=False, **streams)
            except subprocess.TimeoutExpired:
                return None
        return self.fault_line(ran.returncode, ran.stderr) if ran.returncode == 3 else None

    def takes(self, text: str) -> bool:
        """Whether it takes an application, which is asked once."""
        if text not in self.answers:
            self.answers[text] = self.run(text.encode())[0] is None
        return self.answers[text]

    def takes_several(self) -> bool:
        """Whether it takes a point of several injections."""
        return self.takes("".join(PROBE.values()).replace("POINT", SEVERAL))

    def ignored(self, keys: AbstractSet[Tuple[str, str]]) -> Set[Tuple[str, str]]:
        """Those of the keys, each with its section, that it ignores: it takes a float there, which no key has."""
        if self.takes(with_floats(keys)):
            return set(keys)
        return {it for it in keys if self.takes(with_floats([it]))}

    def fault_of_file(self, name: str) -> Optional[str]:
        """What the program says of a file that can't be read here; None if it can read it."""
        streams: Any = {"stdin": subprocess.DEVNULL, "stdout": subprocess.DEVNULL, "stderr": subprocess.PIPE}
        try:
            ran = subprocess.run([self.path, "run", "--", name], check=False, **streams)
        except ValueError:
            return None
        return ran.stderr.decode("utf-8", "surrogateescape").rstrip("\n") if ran.returncode == 3 else None


def with_floats(keys: Iterable[Tuple[str, str]]) -> str:
    """The small application with a float for each of the keys; the section of one above the first table is ""."""
    lines = {section: "".join(f"{json.dumps(key, ensure_ascii=False)} = 0.5\n" for owner, key in sorted(keys) if owner == section)
             for section in PROBE}
    return "".join(entry + lines[section] for section, entry in PROBE.items()).replace("POINT", "")


def kept(text: bytes) -> IO[bytes]:
    """A file without a name that has this text."""
    file = tempfile.TemporaryFile()
    file.write(text)
    file.flush()
    file.seek(0)
    return file
