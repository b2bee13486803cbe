"""Runs the built program on small files, for the cases of tests/program.

The program is crates/rtosim/out/rtosim, or the one that is named as the argument."""
import contextlib
import fcntl
import hashlib
import json
import os
import pty
import re
import select
import shlex
import subprocess
import sys

from cases import equal

ROOT = os.path.dirname(os.path.dirname(os.path.realpath(__file__)))
FLAGS = [it for it in sys.argv[1:] if it.startswith("--")]
NAMED = [it for it in sys.argv[1:] if not it.startswith("--")]
PROGRAM = os.path.abspath(NAMED[0]) if NAMED else f"{ROOT}/crates/rtosim/out/rtosim"
PATIENCE = 60
TASK = '[[task]]\nname = "a"\npriority = 1\nscript = ["mark 7"]\n'
TASK_RUNS = b"base: pass in 1 steps, 0 ticks\n0 0 mark a 7\n0 0 run -\n"
HANDLER = '[[handler]]\nname = "h"\nops = []\n'
F_SETPIPE_SZ = 1031


def run(*words, **how):
    """Runs the program, called rtosim, and returns its status and what it wrote to its two streams."""
    streams = {"stdin": subprocess.DEVNULL, "stdout": subprocess.PIPE, "stderr": subprocess.PIPE}
    ran = subprocess.run(["rtosim", *words], executable=PROGRAM, timeout=PATIENCE, **{**streams, **how})
    return ran.returncode, ran.stdout, ran.stderr


def write(name, text):
    with open(name, "wb") as it:
        it.write(text if isinstance(text, bytes) else text.encode())


def run_text(text, *words, name="application.toml", **how):
    """Runs the program on a file with this text, with these words after its name."""
    write(name, text)
    return run("run", name, *words, **how)


def runs_are(wanted):
    """By a name the parts of a file, what its head line says, and the beginning of the sum of its output."""
    for name, (parts, verdict, digest) in wanted.items():
        _, out, err = run_text("".join(parts))
        found = out.partition(b"\n")[0].decode(), hashlib.sha256(out).hexdigest()[:16], err
        assert found == (f"base: {verdict}", digest, b""), f"{name}: {found}"


def campaign_text(text, *words, **how):
    """Runs the program's campaign on a file with this text, with these words after its name."""
    write("application.toml", text)
    return run("campaign", "application.toml", *words, **how)


def points(*texts):
    """The section of these points."""
    return f"[campaign]\npoints = {json.dumps(texts)}\n"


def is_refused(found, status, line):
    """Nothing on standard output, and this line on standard error."""
    equal(found, (status, b"", f"rtosim: {line}\n".encode()))


def stored(name):
    """The bytes of a file of the repository."""
    with open(f"{ROOT}/{name}", "rb") as it:
        return it.read()


def session(path):
    """Each command of a session: its words, the lines that come of it, and its status."""
    beginning, *commands = re.split(r"(?m)^\$ rtosim\b", stored(path).decode())
    assert commands and not beginning, "a session begins with a command"
    for command in commands:
        words, lines, status = re.fullmatch(r"(.*)\n((?:.*\n)*?)(?:\[(\d+)\]\n)?", command).groups("0")
        yield shlex.split(words), lines.encode(), int(status)


def refused_texts(path):
    """Each text of a table of refused ones, as stored.py has them, and its fault."""
    head, *tables = re.split(r"(?m)^rtosim: (.*)\n", stored(path).decode())
    for fault, texts in zip(tables[::2], tables[1::2]):
        if "..." in head:
            yield from ((head.replace("...", it), fault) for it in texts.splitlines() if it)
        else:
            yield head + texts.lstrip("\n"), fault


def started_with_small_pipe(*words, **how):
    """Starts the program, its output going to a pipe that holds 4096 bytes."""
    reader, writer = os.pipe()
    fcntl.fcntl(writer, F_SETPIPE_SZ, 4096)
    started = subprocess.Popen([PROGRAM, *words], stdout=writer, stderr=subprocess.PIPE, **how)
    os.close(writer)
    started.stdout = os.fdopen(reader, "rb", buffering=0)
    return started


def shown_on_a_terminal(text, seconds, command, *words):
    """What this command shows there first of a file with this text. Nothing, if it ends or this time passes before that."""
    write("application.toml", text)
    ours, its = pty.openpty()
    with subprocess.Popen([PROGRAM, command, "application.toml", *words], stdout=subprocess.DEVNULL, stderr=its) as started:
        os.close(its)
        shown = b""
        if select.select([ours], [], [], seconds)[0]:
            # A terminal that nobody has open any more answers an error.
            with contextlib.suppress(OSError):
                shown = os.read(ours, 100)
        started.kill()
    os.close(ours)
    return shown
