"""What the cases of tests/check share: a program that says what it is made to say, what is said of a file, and the stored mistakes."""
import glob
import os
import re
import subprocess
import sys

from running import PATIENCE, PROGRAM, ROOT, stored, write

sys.path.insert(0, f"{ROOT}/tools")
from rtosim_check import checking, writing
from rtosim_check.base_ends import BaseEnd
from rtosim_check.nodes import Array, Moment, Table

CHECK = f"{ROOT}/bin/rtosim-check"
HAS_PROGRAM = os.access(PROGRAM, os.X_OK)
FILE = "application.toml"


class StandIn:
    """A program that says what it is made to say."""

    def __init__(self, *lines, steps=1000, several=False, knows=(), ticks=1000):
        self.lines, self.several, self.knows = [it for it in lines if it], several, knows
        self.end = BaseEnd("pass", steps, ticks)

    def run(self, _):
        """One line after the other, the last one again and again; where there is none, the end of the base run."""
        line = self.lines[0] if self.lines else None
        del self.lines[: len(self.lines) > 1]
        return line, None if line else self.end

    def campaign(self, _):
        return "rtosim: too many points"

    def takes_several(self):
        return self.several

    def ignored(self, keys):
        return {it for it in keys if it not in self.knows}

    def fault_of_file(self, name):
        return f"rtosim: cannot read {name}"


class Lines(list):
    """What takes lines."""

    def line(self, text=""):
        self.append(text + "\n")


def shown(checked):
    """What is written of a file for people."""
    lines = Lines()
    writing.Text(False).write(lines, checked)
    return "".join(lines)


def said(text, program):
    """What is said of a file with this text."""
    write(FILE, text)
    return shown(checking.check(FILE, program))


def run(*words, **how):
    """Runs the check with a program, and returns its status and what it wrote to its two streams."""
    streams = {"stdin": subprocess.DEVNULL, "stdout": subprocess.PIPE, "stderr": subprocess.PIPE}
    ran = subprocess.run([CHECK, *words], timeout=PATIENCE, **{**streams, **how})
    return ran.returncode, ran.stdout.decode(), ran.stderr.decode()


def program_that(*lines, status=3, name="program"):
    """The path of a program that writes these lines to standard error and ends with the status."""
    says = "".join(f"echo '{it}' >&2\n" for it in lines)
    write(name, f'#!/bin/sh\n[ "$1" = --version ] && exit 0\n{says}exit {status}\n')
    os.chmod(name, 0o755)
    return os.path.abspath(name)


def program_that_runs(head="base: pass in 20 steps, 18 ticks", name="runs"):
    write(name, f"#!/bin/sh\n[ \"$1\" = --version ] && exit 0\necho '{head}'\n")
    os.chmod(name, 0o755)
    return os.path.abspath(name)


def mistakes():
    """The name of each mistake, its file's text, and what is said of it."""
    for path in sorted(glob.glob(f"{ROOT}/tests/mistakes/*.mistakes")):
        for part in re.split(r"(?m)^## ", stored(os.path.relpath(path, ROOT)).decode())[1:]:
            head, wanted = part.split("=>\n", 1)
            name, text = head.split("\n", 1)
            yield name, text, wanted


def stand_in_for(wanted):
    """The program that says what such an answer rests on."""
    lines = re.findall(r"^ +(rtosim: .*)$", wanted, re.MULTILINE)
    steps = re.search(r"the base run ends after ([0-9]+) step", wanted)
    ticks = re.search(r"the base run ends with pass at tick ([0-9]+)", wanted)
    return StandIn(*lines, steps=int(steps[1]) if steps else 1000, ticks=int(ticks[1]) if ticks else 1000)


def compared(name, found, wanted):
    assert found == wanted, f"{name}:\n{found}\nand not\n{wanted}"


def skipped(why):
    print(f"   (skipped: {why})")


def plain(node):
    """What a node holds."""
    if isinstance(node, Table):
        return {key: plain(member.value) for key, member in node.members.items()}
    if isinstance(node, Array):
        return [plain(it) for it in node.items]
    return ("moment", node.value) if isinstance(node, Moment) else node.value
