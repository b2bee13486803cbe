"""Readers of the output, or of the faults, who leave: what the program still answers."""
import itertools
import os
import subprocess

from cases import case, equal
from failures import MANY_ROWS, ROWS, is_beginning, rows_report
from running import TASK, TASK_RUNS, run, started_with_small_pipe, write


def with_no_reader(*words, stream="stdout", **how):
    """Runs the program, one of its streams going to a pipe whose reader has left."""
    ours, theirs = os.pipe()
    os.close(ours)
    with os.fdopen(theirs, "wb") as pipe:
        return run(*words, **{**how, stream: pipe})


@case
def a_reader_who_leaves_after_some_bytes_has_a_beginning():
    write("application.toml", MANY_ROWS)
    whole = rows_report(ROWS)
    assert len(whole) > 30_000, len(whole)
    for wanted, workers in itertools.product((0, 1, 2, 100, 4095, 4096, 4097, 8192, 20_000), "13"):
        with started_with_small_pipe("campaign", "--workers", workers, "application.toml") as started:
            found = b""
            while len(found) < wanted:
                found += started.stdout.read(wanted - len(found))
            started.stdout.close()
            equal((started.stderr.read(), started.wait()), (b"", 141))
        is_beginning(found, whole)


@case
def a_reader_who_has_left_before_the_first_byte_is_no_fault():
    write("application.toml", MANY_ROWS)
    run_words = ["run", "application.toml"]
    for words in (
        run_words, [*run_words, "--state"], [*run_words, "--at", "0", "--handler", "h"],
        *(["campaign", "--workers", it, "--block", "7", "application.toml"] for it in "125"), ["explore", "application.toml"],
        ["--help"], ["campaign", "--help"], ["--version"],
    ):
        equal(with_no_reader(*words), (141, None, b""))


@case
def a_fault_that_comes_before_the_output_is_told_though_its_reader_has_left():
    write("application.toml", TASK)
    is_told = lambda found, status, line: equal(found, (status, None, f"rtosim: {line}\n".encode()))
    is_told(with_no_reader("run", "not there"), 3, "cannot read not there")
    is_told(with_no_reader("run", "application.toml", "--at", "0"), 2, "--at and --handler go together")
    is_told(with_no_reader("campaign", "/dev/zero"), 3, "cannot read /dev/zero: larger than 64 MiB")


@case
def a_reader_of_the_faults_who_has_left_changes_no_status():
    write("application.toml", TASK)
    for words, status, wanted in ((["run", "not there"], 3, b""), (["run", "application.toml"], 0, TASK_RUNS)):
        equal(with_no_reader(*words, stream="stderr", stdout=subprocess.PIPE), (status, wanted, None))
