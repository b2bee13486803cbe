"""The words of the command line, and what each command does.

A command takes in its own modules when it is done, so that each of them starts soon."""
from __future__ import annotations

import argparse
import os
import sys
from typing import Any, ContextManager, Dict, Optional, Sequence

from .classes import By
from .escaping import plain
from .faults import STATUS_OUTPUT, STATUS_READER_LEFT, Fault
from .job import Job
from .known import Failure
from .output import ReaderLeft, Text as Output, direct_output, output_file, standard_output
from .report import TICK

# What subcommands are added to.
Commands = Any
DESCRIPTION = "Reads a report of `rtosim run` or `rtosim campaign`: which points matter, pictures, other tools' formats."
# The name of an application ends with this, if a report may be named too.
APPLICATION = ".toml"


def do_classes(job: Job, output: Output) -> int:
    from . import known, table

    accepted = None if job.words.accept is None else known.read_names(job.words.accept)
    classes = job.classify()
    if job.words.names:
        it: Any
        for it in [*job.failures([]), *(it for it in classes if not (job.words.failing and it.verdict.passes))]:
            output.line(it.line() if isinstance(it, Failure) else Failure(it.name, it.rows).line())
    else:
        empty = job.emptiness()
        notes = [*job.ending, *([empty.words] if empty else []), *job.notes]
        table.write_classes(output, classes, job.base, job.total, job.given, job.words.failing, notes)
    if accepted is None:
        return 0
    return max(known.judged(job.failures(classes), accepted), job.is_empty())


def do_compare(words: argparse.Namespace, output: Output) -> bool:
    """Reads both reports. Ops are named by their texts if both are of applications, otherwise by their numbers. Rows are classed by their heads
    if either report has no more of them."""
    from .comparing import write_changes
    from .job import say

    both = all(it.endswith(APPLICATION) for it in (words.old, words.new))
    jobs = [Job(argparse.Namespace(**{**vars(words), **named(it)}), both) for it in (words.old, words.new)]
    of_heads = [it for it in jobs if it.has_heads_alone or it.is_too_large()]
    for it in jobs:
        it.wants_heads = bool(of_heads)
    if len(of_heads) == 1:
        say(f"of {plain(of_heads[0].name)} heads alone are read, so the rows of both are classed by these")
    old, new = (it.classify() for it in jobs)
    return max(write_changes(output, old, new, jobs[1].given) > 0, jobs[1].is_empty())


def named(name: str) -> Dict[str, Optional[str]]:
    """The words of a report, or of an application whose report the program makes."""
    is_application = name.endswith(APPLICATION)
    return {"application": name if is_application else None, "report": None if is_application else name}


def do_join(words: argparse.Namespace, output: Output) -> None:
    from .joining import join

    join(words.parts, words.of, output)


def do_pairs(words: argparse.Namespace, output: Output) -> None:
    """Writes the points of pairs. How many steps the base run has the program says."""
    from .application import read_application
    from .faults import WordsFault, counted
    from .job import say
    from .made import MadeReport
    from .pairs import write_pairs

    application = read_application(words.application)
    known = list(dict.fromkeys([*application.handlers, TICK]))
    if application.has_campaign:
        say(f"{plain(words.application)} has a [campaign], and a file has one: what is written takes its place")
    unknown = next((it for it in words.handler if it not in known), None)
    if unknown is not None:
        raise WordsFault(f"no handler is called {unknown}; the handlers are {', '.join(application.handlers) or 'none'}, and {TICK} is the tick interrupt")
    last = MadeReport(words.application).base().head.steps if words.last is None else words.last + 1
    steps = range(words.first, last)
    if not steps:
        end = f"the base run has {counted(last, 'step')}" if words.last is None else f"--to is {words.last:,}"
        raise WordsFault(f"no first step is left: --from is {words.first:,}, and {end}")
    write_pairs(output, list(dict.fromkeys(words.handler)), steps, words.within)


def do_show(job: Job, output: Output) -> None:
    from . import show

    run: Any
    run, base = job.wanted_run(job.words.row)
    has_colour = job.words.output is None and sys.stdout.isatty()
    show.write_row(output, run, base, job.words.context, has_colour, job.endings.lines_of(run, base), job.source_map)


def do_explore(job: Job, output: Output) -> None:
    """Explores the application, and shows the least placement of each end."""
    from . import explored

    words = [it for name in ("injections", "handlers") if (value := getattr(job.words, name)) is not None for it in (f"--{name}", str(value))]
    if job.words.pictures is not None:
        os.makedirs(job.words.pictures, exist_ok=True)
    explored.write_ends(output, explored.Explanation(job, words), job.words.pictures)


def do_json(job: Job, output: Output) -> None:
    from . import json_lines

    write = json_lines.write_head if job.has_heads_alone else json_lines.write_run
    for run in job.whole_runs():
        write(output, run, job.source_map)


def do_junit(job: Job, output: Output) -> int:
    from . import junit, known

    accepted = known.Known() if job.words.accept is None else known.read_names(job.words.accept)
    suite = junit.Suite(job.application or job.words.report or "standard input", job.given, accepted)
    classes = job.classify()
    empty = job.faulty_emptiness()
    if job.words.rows and classes:
        junit.write_rows(output, suite, job.heads(), classes, empty)
        return 0
    lone_run = None if job.lone_run is None else junit.LoneRun(job.lone_run, job.ending, job.lone_name)
    junit.write_classes(output, suite, classes, lone_run, empty)
    return 0 if job.words.accept is None else max(known.judged(job.failures(classes), accepted), job.is_empty())


def do_svg(job: Job, output: Output) -> None:
    from . import map_picture, timeline_picture

    if not job.words.campaign:
        timeline_picture.write(output, job.timeline())
        return
    picture = map_picture.Map()
    classes = job.classify(picture.see)
    picture.write(output, classes, job.total.rows, job.base)


def do_perfetto(job: Job, output: Output) -> None:
    from . import perfetto

    perfetto.write(output, job.timeline())


def do_vcd(job: Job, output: Output) -> None:
    from . import value_change_dump

    value_change_dump.write(output, job.timeline())


def workers(word: str) -> str:
    """A number, or `auto`."""
    return word if word == "auto" else str(int(word))


def do_html(job: Job, output: Output) -> None:
    from .page import write_page

    write_page(output, job)


def add_common(parser: argparse.ArgumentParser) -> None:
    parser.add_argument("report", nargs="?", metavar="REPORT", help="a file; else standard input is read")
    help_text = "the application: of its texts, and without REPORT the program is run on it"
    parser.add_argument("--application", metavar="FILE", help=help_text)
    parser.add_argument("--base", metavar="REPORT", help="the report of the base run, as `rtosim run FILE` writes it")
    parser.add_argument("--source", metavar="MAP", help="show lines of C, by the map that `rtosim-from-c --map` writes")
    add_options(parser)


def add_options(parser: argparse.ArgumentParser) -> None:
    parser.add_argument("--workers", type=workers, metavar="N|auto", help="how many workers the program uses")
    parser.add_argument("--partial", action="store_true", help="take the whole rows of a report that is cut off")
    parser.add_argument("--output", "-o", metavar="FILE", help="write to this file, when all of it is there")
    parser.add_argument("--whole", action="store_true", help="read all rows whole, even if there are too many, and for a page also those that pass")
    parser.set_defaults(by=By.DEFAULT, row=None, about_a_run=False, accept=None, asks_for_states=False,
                        allow_empty=False, folds=False, source=None)


def add_classes(commands: Commands) -> None:
    parser = commands.add_parser("classes", help="the rows grouped by cause: which points matter")
    add_common(parser)
    parser.add_argument("--exact", action="store_const", const=By.EXACT, dest="by", help="ticks count too")
    choices = [it for it in By if it is not By.DEFAULT]
    metavar = "|".join(it.value for it in choices)
    parser.add_argument("--by", type=By, choices=choices, metavar=metavar, help="what makes a class; otherwise the cause of those that fail, \
and the outcome of those that pass")
    parser.add_argument("--failing", action="store_true", help="only those that fail")
    parser.add_argument("--names", action="store_true", help="the names of the classes with their numbers of rows, a line each")
    add_accept(parser)
    add_allow_empty(parser)
    parser.set_defaults(do=do_classes, asks_for_states=True)


def add_accept(parser: argparse.ArgumentParser) -> None:
    parser.add_argument("--accept", metavar="FILE", help="names of failures that are known, a line each; status 1 for any other, and for \
more rows of one")


def add_allow_empty(parser: argparse.ArgumentParser) -> None:
    help_text = "a campaign without points, or in which no point is reached, is no failure"
    parser.add_argument("--allow-empty", action="store_true", help=help_text)


def add_compare(commands: Commands) -> None:
    parser = commands.add_parser("compare", help="two versions: which classes are new, gone, larger, smaller")
    parser.add_argument("old", metavar="OLD", help="a report, or an application, FILE.toml, of which the program then writes one")
    parser.add_argument("new", metavar="NEW", help="the same of the new version; status 1 if a failure is new, or has more rows")
    add_options(parser)
    add_allow_empty(parser)
    parser.set_defaults(do=do_compare, by=By.CAUSE, application=None, report=None, base=None)


def add_join(commands: Commands) -> None:
    parser = commands.add_parser("join", help="the report of a campaign, of those of its shards")
    parser.add_argument("parts", nargs="+", metavar="PART", help="the report of a shard, 1 to N in this order")
    parser.add_argument("--of", type=int, metavar="N", help="how many shards there are; else as many as parts are named")
    parser.add_argument("--output", "-o", metavar="FILE", help="write to this file, when all of it is there")
    parser.set_defaults(do=do_join, report=None, application=None, base=None, workers=None, accept=None)


def step(word: str) -> int:
    """A number of a step, or of steps."""
    found = int(word)
    if not 0 <= found <= 1_000_000:
        raise ValueError
    return found


def add_pairs(commands: Commands) -> None:
    parser = commands.add_parser("pairs", help="the points of two interrupts each, as a section for the end of an application")
    parser.add_argument("file", nargs="?", metavar="FILE", help="the application")
    parser.add_argument("--application", metavar="FILE", help="the same")
    parser.add_argument("--handler", action="append", required=True, metavar="H", help="the handler, or tick, that comes twice; or two, in both orders")
    parser.add_argument("--within", type=step, default=10, metavar="N", help="the second comes at most N steps later (10)")
    parser.add_argument("--from", dest="first", type=step, default=0, metavar="STEP", help="the first one's least step (0)")
    parser.add_argument("--to", dest="last", type=step, metavar="STEP", help="its greatest one; else the last one of the base run")
    parser.add_argument("--output", "-o", metavar="FILE", help="write to this file, when all of it is there")
    parser.set_defaults(do=do_pairs, report=None, base=None, workers=None, accept=None, makes_points=True)


def add_show(commands: Commands) -> None:
    parser = commands.add_parser("show", help="a row beside the base run")
    parser.add_argument("row", type=int, metavar="N", help="the row's number")
    add_common(parser)
    parser.add_argument("--context", type=int, metavar="LINES", help="fold what is alike but for so many lines")
    parser.set_defaults(do=do_show, asks_for_states=True)


def add_explore(commands: Commands) -> None:
    parser = commands.add_parser("explore", help="all placements of up to three interrupts: the least one of each end")
    parser.add_argument("file", nargs="?", metavar="FILE", help="the application")
    parser.add_argument("--application", metavar="FILE", help="the same")
    parser.add_argument("--injections", type=int, metavar="K", help="so many injections at most, 0 to 3 (1)")
    parser.add_argument("--handlers", metavar="NAMES", help="of these handlers and tick, joined by commas; else of all handlers")
    parser.add_argument("--pictures", metavar="FOLDER", help="draw the run of the least placement of each end that fails into this folder")
    parser.add_argument("--source", metavar="MAP", help="show lines of C, by the map that `rtosim-from-c --map` writes")
    parser.add_argument("--output", "-o", metavar="FILE", help="write to this file, when all of it is there")
    parser.set_defaults(do=do_explore, report=None, base=None, workers=None, accept=None, by=By.CAUSE, partial=False, whole=False, row=None,
                        about_a_run=False, asks_for_states=True, allow_empty=True, folds=False)


def add_formats(commands: Commands) -> None:
    parser = commands.add_parser("json", help="a JSON object a row, a line each")
    add_common(parser)
    parser.set_defaults(do=do_json)
    parser = commands.add_parser("junit", help="test cases for a build server: a class each")
    add_common(parser)
    parser.add_argument("--rows", action="store_true", help="a test case for each row")
    add_allow_empty(parser)
    add_accept(parser)
    parser.set_defaults(do=do_junit, by=By.CAUSE, asks_for_states=True)
    parser = commands.add_parser("svg", help="a picture of a run, or of a campaign")
    add_common(parser)
    which = parser.add_mutually_exclusive_group()
    which.add_argument("--row", type=int, metavar="N", help="of this row, not of the base run")
    which.add_argument("--campaign", action="store_true", help="of all points, by class")
    parser.set_defaults(do=do_svg, about_a_run=True, asks_for_states=True)
    parser = commands.add_parser("html", help="a page to look through a campaign: the map, the classes, rows beside the base run")
    add_common(parser)
    parser.set_defaults(do=do_html, asks_for_states=True, folds=True)
    for name, do, help_text in (
        ("perfetto", do_perfetto, "a run as a Chrome trace, for ui.perfetto.dev"),
        ("vcd", do_vcd, "a run as a value change dump, for GTKWave and PulseView"),
    ):
        parser = commands.add_parser(name, help=help_text)
        add_common(parser)
        parser.add_argument("--row", type=int, metavar="N", help="of this row, not of the base run")
        parser.set_defaults(do=do, about_a_run=True)


def parsed(words: Optional[Sequence[str]]) -> argparse.Namespace:
    parser = argparse.ArgumentParser(prog="rtosim-report", description=DESCRIPTION)
    commands = parser.add_subparsers(dest="command", metavar="COMMAND", required=True)
    add_classes(commands)
    add_show(commands)
    add_compare(commands)
    add_join(commands)
    add_pairs(commands)
    add_explore(commands)
    add_formats(commands)
    found = parser.parse_args(words)
    if found.command in ("pairs", "explore"):
        if (found.file is None) == (found.application is None):
            parser.error("FILE is named once")
        found.application = found.application or found.file
    if getattr(found, "campaign", False):
        found.about_a_run = False
    if getattr(found, "rows", False):
        found.by = By.VERDICT
    if getattr(found, "names", False) or getattr(found, "rows", False):
        found.asks_for_states = False
    check_together(parser, found)
    return found


def makes_report(found: argparse.Namespace) -> bool:
    """Whether the program makes the report, of the application."""
    return found.report is None and found.application is not None


def check_together(parser: argparse.ArgumentParser, found: argparse.Namespace) -> None:
    """Which words go together."""
    has_made = makes_report(found)
    if found.command == "compare":
        has_made = any(it.endswith(APPLICATION) for it in (found.old, found.new))
    if found.workers is not None and not has_made:
        parser.error("--workers goes with --application, without REPORT")
    if has_made and found.base is not None:
        parser.error("--application makes the base run too: --base doesn't go with it, unless REPORT is there")
    if found.accept is not None and (found.by not in (By.DEFAULT, By.CAUSE) or getattr(found, "rows", False)):
        parser.error("--accept goes with classes by cause")


# These take the words themselves, and not a report.
OF_SEVERAL_REPORTS = (do_compare, do_join, do_pairs)


def output_of(found: argparse.Namespace) -> ContextManager[Output]:
    """Opens what the result is written to. The rows that the program makes may be of any size, so their objects are written as they come."""
    if found.output:
        return output_file(found.output)
    is_direct = found.do is do_join or found.do is do_json and makes_report(found)
    return direct_output() if is_direct else standard_output()


def main(words: Optional[Sequence[str]] = None) -> int:
    """Does what the words ask for, and returns the status."""
    found = parsed(words)
    try:
        with output_of(found) as output:
            status = found.do(found if found.do in OF_SEVERAL_REPORTS else Job(found), output)
        return status or 0
    except ReaderLeft:
        return STATUS_READER_LEFT
    except Fault as fault:
        if str(fault):
            print(f"rtosim-report: {plain(str(fault))}", file=sys.stderr)
        return fault.status
    except OSError as why:
        print(f"rtosim-report: cannot go on: {plain(str(why))}", file=sys.stderr)
        return STATUS_OUTPUT
    except KeyboardInterrupt:
        return 130
