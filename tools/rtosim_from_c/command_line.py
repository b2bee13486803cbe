"""The words of the command line, and the status."""
import argparse
import os
import subprocess
import sys
from typing import List, Optional, Sequence

from rtosim_report.escaping import plain
from rtosim_report.faults import STATUS_READER_LEFT, Fault
from rtosim_report.output import ReaderLeft, output_file, standard_output
from rtosim_report.source import PROGRAM

from .refusals import Refusal, SeveralRefusals
from .source import Lines
from .translating import Application, read_unit, translated
from .writing import application_text, in_order, map_text, note_text, refusals_text

DESCRIPTION = "Translates a small driver in C, written around calls of FreeRTOS, to an application file. Tested and not proved."
STATUS_REFUSED = 3
# What the program may be asked to do with the application.
COMMANDS = ("campaign", "run", "explore")
DEEP = 20_000


def parsed(words: Optional[Sequence[str]]) -> argparse.Namespace:
    parser = argparse.ArgumentParser(prog="rtosim-from-c", description=DESCRIPTION, allow_abbrev=False)
    parser.add_argument("file", metavar="FILE.c", help="the driver")
    parser.add_argument("-o", "--output", metavar="FILE", help="write the application to FILE (standard output)")
    parser.add_argument("--map", metavar="FILE", help="write the line of C of each op to FILE, as JSON")
    parser.add_argument("--explain", action="store_true", help="write what leaves no op, and why, instead of the application")
    parser.add_argument("--campaign", action="store_true", help="run the campaign; options of `rtosim campaign` may follow")
    parser.add_argument("--run", action="store_true", help="run the application once; options of `rtosim run` may follow")
    parser.add_argument("--explore", action="store_true", help="explore all placements; options of `rtosim explore` may follow")
    parser.add_argument("--handler", action="append", default=[], metavar="NAME[(NUMBER)]", help="NAME is an interrupt handler too, and its first argument is NUMBER")
    parser.add_argument("--ignore", action="append", default=[], metavar="NAME[=NUMBER]", help="leave out the function or variable NAME; the function returns NUMBER")
    parser.add_argument("--fails", action="append", default=[], metavar="NAME", help="a call of NAME is a check that fails")
    parser.add_argument("-I", dest="folders", action="append", default=[], metavar="FOLDER", help="a folder with headers")
    parser.add_argument("-D", dest="macros", action="append", default=[], metavar="NAME=VALUE", help="define a macro")
    parser.add_argument("--short-enums", dest="has_short_enums", action="store_true", help="an enum is as small as its constants allow, as with compilers for ARM (-fshort-enums)")
    parser.add_argument("--program", default=PROGRAM, metavar="PATH", help="use this program, and not bin/rtosim")
    found, others = parser.parse_known_args(words)
    found.others = others
    asked = [it for it in COMMANDS if getattr(found, it)]
    if found.others and not asked:
        parser.error(f"unrecognized arguments: {' '.join(found.others)}")
    if len(asked) > 1:
        parser.error(f"{' and '.join(f'--{it}' for it in asked)} don't go together")
    found.command = asked[0] if asked else None
    return found


def translate(found: argparse.Namespace, lines: Lines) -> Application:
    unit = read_unit(found.file, lines, found.folders, found.macros, found.handler, found.ignore, found.fails,
                     found.has_short_enums)
    return translated(unit)


def run_program(found: argparse.Namespace, text: str) -> int:
    """Runs the program on the application, which is in no file of the disk."""
    handle = os.memfd_create("application.toml")
    with os.fdopen(handle, "wb") as file:
        file.write(text.encode("utf-8", "backslashreplace"))
        file.flush()
        words = [found.program, found.command, f"/proc/self/fd/{handle}", *found.others]
        try:
            status = subprocess.run(words, pass_fds=[handle], check=False).returncode
        except OSError as why:
            raise Fault(f"cannot run {plain(found.program)}: {why.strerror}") from None
    return status if status >= 0 else 128 - status


def write_all(found: argparse.Namespace, made: Application) -> int:
    """Writes what is asked for, and returns the status."""
    text = application_text(made, found.file)
    if found.map:
        with output_file(found.map) as output:
            output.write(map_text(made, found.file))
    for it in in_order(made.notes):
        if it.is_warning and not found.explain:
            print(note_text(it, found.file), file=sys.stderr)
    if found.explain:
        with standard_output() as output:
            for it in in_order(made.notes):
                output.line(note_text(it, found.file))
        return 0
    if found.command:
        sys.stderr.flush()
        return run_program(found, text)
    with output_file(found.output) if found.output else standard_output() as output:
        output.write(text)
    return 0


def said(refusals: List[Refusal], name: str, lines: Lines) -> int:
    sys.stderr.write(refusals_text(refusals, name, lines))
    return STATUS_REFUSED


def main(words: Optional[Sequence[str]] = None) -> int:
    """Does what the words ask for, and returns the status."""
    sys.setrecursionlimit(DEEP)
    found, lines = parsed(words), Lines()
    try:
        return write_all(found, translate(found, lines))
    except SeveralRefusals as several:
        return said(several.refusals, found.file, lines)
    except Refusal as refusal:
        return said([refusal], found.file, lines)
    except ReaderLeft:
        return STATUS_READER_LEFT
    except Fault as fault:
        print(f"rtosim-from-c: {plain(str(fault))}", file=sys.stderr)
        return fault.status
    except KeyboardInterrupt:
        return 130
