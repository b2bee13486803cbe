"""Cases of tests/check about the words of bin/rtosim-check, its statuses and its output, and what docs/CHECKING.md shows of it."""
import json
import os
import re
import subprocess

from cases import case, equal, holds
from checked import (CHECK, FILE, HAS_PROGRAM, Lines, StandIn, mistakes, program_that, program_that_runs, run, said, shown, skipped,
                     stand_in_for)
from running import HANDLER, PATIENCE, PROGRAM, TASK, points, stored, write

from rtosim_check import checking, writing
from rtosim_check.program import Program

@case
def statuses():
    write("good.toml", TASK)
    write("warned.toml", TASK + HANDLER)
    write("bad.toml", TASK.replace("mark 7", "nop"))
    runs, refuses = program_that_runs(), program_that("rtosim: 4 BadOp: task 0 script 0")
    end = ("1 file: no faults, no warnings\n", "1 file: no faults, 1 warning\n", "1 file: 1 fault, no warnings\n")
    for words, status, last in (
        ((runs, "good.toml"), 0, end[0]), ((runs, "--strict", "good.toml"), 0, end[0]), ((runs, "warned.toml"), 0, end[1]),
        ((runs, "--strict", "warned.toml"), 1, end[1]), ((refuses, "bad.toml"), 1, end[2]),
        ((runs, "good.toml", "warned.toml", "good.toml"), 0, "3 files: no faults, 1 warning\n"),
        ((runs, "good.toml", "absent.toml"), 3, "2 files: 1 fault, no warnings\n"),
        ((runs, "absent.toml", "--strict", "warned.toml"), 3, "2 files: 1 fault, 1 warning\n"),
    ):
        found = run("--program", *words)
        equal((words, found[0], found[1].splitlines(True)[-1], found[2]), (words, status, last, ""))


@case
def words_that_are_refused():
    write("good.toml", TASK)
    for words in ([], ["--format", "xml", "good.toml"], ["--color", "blue", "good.toml"], ["--walk", "good.toml"]):
        status, out, err = run(*words)
        equal((status, out), (2, ""))
        holds(err, "usage: rtosim-check")
    equal(run("--help")[0], 0)


@case
def programs_that_are_none():
    write("good.toml", TASK)
    write("plain", "no program")
    for program, said_of_it in (
        (f"{os.getcwd()}/absent", "cannot run {}: No such file or directory\n"),
        (f"{os.getcwd()}/plain", "cannot run {}: Permission denied\n"),
        (program_that(status=70, name="a"), "{} ends with status 70\n"),
        (program_that(status=0, name="b"), "{} ends with status 0\n"),
        (program_that("rtosim: cannot write", status=5, name="c"), "{} ends with status 5: rtosim: cannot write\n"),
        (program_that("Killed", status=3, name="d"), "{} ends with status 3: Killed\n"),
    ):
        status, out, err = run("--program", program, "good.toml")
        equal((status, out, err), (3, "", "rtosim-check: " + said_of_it.format(program)))
    write("fails", "#!/bin/sh\necho no proof >&2\nexit 70\n")
    os.chmod("fails", 0o755)
    path = f"{os.getcwd()}/fails"
    equal(run("--program", path, "good.toml"), (3, "", f"no proof\nrtosim-check: {path} ends with status 70\n"))


@case
def output_that_cannot_be_written():
    write("good.toml", TASK)
    with open("/dev/full", "wb") as full:
        words = [CHECK, "--program", program_that_runs(), "good.toml"]
        ran = subprocess.run(words, stdout=full, stderr=subprocess.PIPE, check=False)
    equal((ran.returncode, ran.stderr), (5, b"rtosim-check: cannot write: No space left on device\n"))


@case
def a_reader_that_leaves_ends_it_quietly():
    write("good.toml", TASK)
    for words in ([], ["--format", "json"]):
        reader, writer = os.pipe()
        os.close(reader)
        ran = subprocess.run([CHECK, *words, "--program", program_that_runs(), "good.toml"], stdout=writer, stderr=subprocess.PIPE, timeout=PATIENCE)
        os.close(writer)
        equal((ran.returncode, ran.stderr), (141, b""))


def output_of(kind, text, program, name=FILE):
    write(name, text)
    lines = Lines()
    writer = writing.FORMATS[kind](False)
    writer.write(lines, checking.check(name, program))
    writer.end(lines)
    return "".join(lines)


@case
def json_has_what_the_text_has():
    for name, text, wanted in mistakes():
        found = json.loads(output_of("json", text, stand_in_for(wanted)))
        heads = [it for it in wanted.splitlines() if it.startswith(FILE)]
        equal((found["file"], found["checked"]), (FILE, True))
        equal([head_of(it) for it in found["findings"]], heads)
    found = json.loads(output_of("json", TASK.replace("mark 7", "nop 3"), StandIn("rtosim: 4 BadOp: task 0 script 0")))
    first = found["findings"][0]
    equal([first[it] for it in ("severity", "kind", "line", "column", "end_line", "end_column")], ["error", "BadOp", 4, 12, 4, 15])
    equal(first["program"], "rtosim: 4 BadOp: task 0 script 0")
    unreadable = Lines()
    writing.Json(False).write(unreadable, checking.check("absent", StandIn()))
    found = json.loads(unreadable[0])
    equal((found["checked"], found["findings"][0]["line"], found["findings"][0]["kind"]), (False, None, "CannotRead"))


def head_of(finding):
    severity = "warning: " if finding["severity"] == "warning" else ""
    return f'{FILE}:{finding["line"]}:{finding["column"]}: {severity}{finding["message"]}'.replace("\t", "\\t")


@case
def annotations_are_escaped():
    line = "rtosim: 4 BadOp: task 0 script 0"
    name = "a:b,c%d\ne.toml"
    found = output_of("github", TASK.replace("mark 7", "100% off\\n::error::x"), StandIn(line), name)
    equal(found.count("\n"), 1)
    holds(found, "::error file=a%3Ab%2Cc%25d%0Ae.toml,line=4,col=20,endLine=4,endColumn=21,title=BadOp::task \"a\", script 0, ")
    holds(found, "100%25 off\\n::error::x")
    holds(found, f"%0A{line}\n")
    found = output_of("github", TASK + HANDLER, StandIn())
    holds(found, f"::warning file={FILE},line=5,col=1,endLine=5,endColumn=12,title=NoPoints::the file has no points")
    lines = Lines()
    writing.GitHub(False).write(lines, checking.check("absent", StandIn()))
    equal(lines, ["::error file=absent,title=CannotRead::cannot be read: there is no such file%0Artosim: cannot read absent\n"])


@case
def no_control_character_reaches_a_terminal():
    name = "a\x1b[31m\u202e.toml"
    text = TASK.replace("mark 7", "\\u001b[31m\\u009b\\u202e")
    for kind in writing.FORMATS:
        found = output_of(kind, text, StandIn("rtosim: 4 BadOp: task 0 script 0"), name)
        assert not re.search("[\x00-\x09\x0b-\x1f\x7f-\x9f\u202e]", found), (kind, found)
    found = output_of("text", TASK + "# \x1b]0;x\x07\n", StandIn("rtosim: not TOML"))
    holds(found, "   5 | # \\x1b]0;x\\x07\n")


@case
def colours_are_for_terminals():
    write("bad.toml", TASK.replace("mark 7", "nop"))
    words = ("--program", program_that("rtosim: 4 BadOp: task 0 script 0"), "bad.toml")
    assert "\x1b" not in run(*words)[1]
    assert "\x1b" in run("--color", "always", *words)[1]
    clean = {key: value for key, value in os.environ.items() if key not in ("NO_COLOR", "TERM")}
    for choice, more, has_colours in (
        ("auto", {"TERM": "xterm"}, True), ("auto", {"TERM": "dumb"}, False), ("auto", {"TERM": "xterm", "NO_COLOR": "1"}, False),
        ("never", {"TERM": "xterm"}, False), ("always", {"TERM": "xterm", "NO_COLOR": "1"}, True),
    ):
        reader, writer = os.openpty()
        with subprocess.Popen([CHECK, "--color", choice, *words], stdout=writer, env={**clean, **more}) as started:
            equal(started.wait(PATIENCE), 1)
        found = os.read(reader, 10000)
        os.close(writer)
        os.close(reader)
        equal((choice, more, b"\x1b[" in found), (choice, more, has_colours))
    for kind in ("json", "github"):
        assert "\x1b" not in run("--color", "always", "--format", kind, *words)[1]


@case
def too_many_points():
    text = TASK + HANDLER + points("all h", "0 h")
    found = said(text, StandIn(steps=1000000))
    holds(found, f"{FILE}:9:1: campaign, points: 1,000,001 points, and a campaign has at most 1,000,000; the base run has ")
    holds(found, "       rtosim: too many points\n")
    equal(said(TASK + HANDLER + points("all h"), StandIn(steps=1000000)), "")
    most = TASK + HANDLER + points("all h from 1 to 1000000", "all h from 7 to 7")
    equal(said(most, StandIn(steps=1000000)), "")
    holds(said(most.replace("to 7", "to 8"), StandIn(steps=1000000)), "1,000,001 points, and a campaign has at most 1,000,000")
    if HAS_PROGRAM:
        long = TASK.replace('"mark 7"', '"repeat 1000", "work 1000", "end"') + HANDLER
        equal(said(long + points("all h"), Program(PROGRAM)), "")
        holds(said(long + points("all h", "0 h"), Program(PROGRAM)), "1,000,001 points, and a campaign has at most 1,000,000")


@case
def a_long_run_is_checked_soon():
    if not HAS_PROGRAM:
        return skipped("there is no built program")
    write(FILE, TASK.replace('"mark 7"', '"repeat 1000", "repeat 1000", "mark 7", "end", "end"'))
    began = os.times()
    equal(shown(checking.check(FILE, Program(PROGRAM))), "")
    ended = os.times()
    seconds = ended.children_user + ended.children_system - began.children_user - began.children_system
    print(f"   ({seconds:.2f} seconds of the program's for a run of a million steps)")
    assert seconds < 5, seconds


@case
def the_docs_show_what_is_written():
    written = {wanted.replace(FILE, "drv.toml") for _, _, wanted in mistakes()}
    shown = re.findall(r"(?m)^\$ bin/rtosim-check drv\.toml\n((?:.*\n)*?)```", stored("docs/CHECKING.md").decode())
    for block in shown:
        *lines, last = block.splitlines(True)
        assert re.fullmatch(r"1 file: ([12] faults?|no faults), (1 warning|no warnings)\n", last), last
        assert "".join(lines) in written, block
    equal(len(shown), 10)
    name, text, wanted = next(it for it in mistakes() if it[0] == "a typo of an op")
    for kind in ("json", "github"):
        found = output_of(kind, text, stand_in_for(wanted), "drv.toml")
        holds(stored("docs/CHECKING.md").decode(), f"$ bin/rtosim-check --format {kind} drv.toml\n{found}```\n")
