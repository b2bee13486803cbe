"""The program's answers that are in files of examples/, tests/runs/ and tests/words/, and the files that it refuses, which are
in tests/refused/. Each file of answers is a case.

NAME.out is what `rtosim run NAME.toml` writes, and NAME.report what `rtosim campaign NAME.toml` does. NAME.session has commands,
each a line `$ rtosim WORDS` with the lines that come of it, and then its status, as `[2]`, where that isn't 0. With 0 and 1 the
lines go to standard output, with more to standard error.

NAME.faults is a table of texts that are refused. Before its first fault line comes the head of them all. Below a fault line come
those that are refused with it: where the head has `...`, each line is one, and takes that place; otherwise all lines together are one,
and follow the head.

What is stored comes from worked examples and from an independent program."""
import os
import re
import shlex

from cases import case, case_named, equal
from running import ROOT, refused_texts, run, session, stored, write

ENDINGS = (".out", ".report", ".session", ".faults")
OPTIONS = (
    [],
    ["--quiet"],
    ["--workers", "64"],
    ["--workers", "auto"],
    ["--workers=auto", "--stride=65536"],
    ["--block", "1000000", "--stride", "1"],
)


def files():
    """The stored files, by their paths from ROOT."""
    for top in ("examples", "tests/runs", "tests/words", "tests/refused"):
        for folder, _, names in os.walk(f"{ROOT}/{top}"):
            yield from (os.path.relpath(f"{folder}/{name}", ROOT) for name in names)


FILES = sorted(files())


def answers(what, found, wanted):
    """The program's answer to what was asked is the one that is wanted."""
    try:
        equal(found, wanted)
    except AssertionError as why:
        raise AssertionError(f"{what}: {why}") from None


def runs_as_stored(path):
    wanted = stored(path)
    passes = b": pass in " in wanted.partition(b"\n")[0]
    equal(run("run", f"{ROOT}/{path[:-4]}.toml"), (0 if passes else 1, wanted, b""))


def reports_as_stored(path):
    wanted = stored(path)
    rows = re.match(rb"total (\d+): pass (\d+),", wanted.splitlines()[-1])
    for words in OPTIONS:
        found = run("campaign", f"{ROOT}/{path[:-7]}.toml", *words)
        answers(f"with {words}", found, (0 if rows[1] == rows[2] else 1, wanted, b""))


def answers_as_stored(path):
    for words, lines, status in session(path):
        found = run(*words, cwd=os.path.dirname(f"{ROOT}/{path}"))
        answers(f"rtosim {shlex.join(words)}", found, (status, *((lines, b"") if status < 2 else (b"", lines))))


def refuses_as_stored(path):
    for text, fault in refused_texts(path):
        write("refused.toml", text)
        for command in ("run", "campaign"):
            answers(f"{command} of {text[-80:]!r}", run(command, "refused.toml"), (3, b"", f"rtosim: {fault}\n".encode()))


CHECKS = dict(zip(ENDINGS, (runs_as_stored, reports_as_stored, answers_as_stored, refuses_as_stored)))
for each in FILES:
    check = CHECKS.get(os.path.splitext(each)[1])
    if check:
        case_named(each, lambda check=check, each=each: check(each))


@case
def each_stored_application_has_an_answer():
    answered = {os.path.splitext(it)[0] for it in FILES if it.endswith(ENDINGS)}
    applications = [it[:-5] for it in FILES if it.endswith(".toml")]
    assert len(applications) > 190, len(applications)
    equal([it for it in applications if it not in answered], [])
    equal([it for it in FILES if not it.endswith((".toml", ".c", *ENDINGS))], [])
