"""Cases of the built program, as bin/rtosim starts it: a campaign that is too large ends with a word of its own."""
import contextlib
import os
import resource
import shutil
import subprocess

from cases import case, equal
from failures import OUT_OF_MEMORY
from running import PATIENCE, PROGRAM, ROOT, write

GIGABYTE = 1 << 30
GROUPS = "/sys/fs/cgroup"
# In each row the task below counts how often it had the processor since the injection, so no two rows ever come to one kernel. The
# rows of 40,206 steps take more than three gigabytes.
APPLICATION = """[[queue]]
name = "q"
length = 1
[[handler]]
name = "h"
ops = ["send q 1"]
[[task]]
name = "a"
priority = 2
script = ["repeat 100", "repeat 100", "mark 1", "delay 1", "end", "end"]
[[task]]
name = "b"
priority = 1
endless = true
script = ["receive q forever", "repeat 1000", "repeat 1000", "work 1", "end", "end"]
[campaign]
points = ["all h"]
"""


def make_checkout():
    """A checkout of the launcher alone, whose program is the tested one."""
    for it in ("bin", "tools", "crates/rtosim/out"):
        os.makedirs(f"checkout/{it}")
    for it in ("bin/rtosim", "tools/memory.sh", "tools/ignored.sh", "tools/plain_application.awk"):
        shutil.copy(f"{ROOT}/{it}", f"checkout/{it}")
    write("checkout/bin/built", "#!/bin/sh\n")
    os.chmod("checkout/bin/built", 0o755)
    os.symlink(PROGRAM, "checkout/crates/rtosim/out/rtosim")


def ends_within_a_gigabyte(*words, memory="", **how):
    make_checkout()
    write("application.toml", APPLICATION)
    streams = {"stdin": subprocess.DEVNULL, "stdout": subprocess.PIPE, "stderr": subprocess.PIPE}
    before = resource.getrusage(resource.RUSAGE_CHILDREN).ru_maxrss
    command = ["checkout/bin/rtosim", "campaign", "application.toml", *words]
    ran = subprocess.run(command, env={**os.environ, "RTOSIM_MEMORY": memory}, timeout=PATIENCE, **{**streams, **how})
    equal((ran.returncode, ran.stdout, ran.stderr), OUT_OF_MEMORY)
    most = resource.getrusage(resource.RUSAGE_CHILDREN).ru_maxrss << 10
    assert most <= max(before << 10, GIGABYTE), most


def says(path, text):
    with open(path, "w", encoding="ascii") as it:
        it.write(text)


@contextlib.contextmanager
def group_of_a_gigabyte():
    """How to start a process in a control group of a gigabyte; where none can be made, with as low a limit from elsewhere."""
    for above, limit in ((f"{GROUPS}/memory", "memory.limit_in_bytes"), (GROUPS, "memory.max")):
        group = f"{above}/rtosim-test-{os.getpid()}"
        try:
            os.mkdir(group)
        except OSError:
            continue
        try:
            if os.access(f"{group}/{limit}", os.W_OK):
                says(f"{group}/{limit}", str(GIGABYTE))
                yield {"preexec_fn": lambda: says(f"{group}/cgroup.procs", "0")}
                return
        finally:
            os.rmdir(group)
    yield {"preexec_fn": lambda: resource.setrlimit(resource.RLIMIT_DATA, (GIGABYTE, GIGABYTE))}


@case
def a_campaign_that_is_too_large_ends_within_the_memory_that_is_asked_for():
    ends_within_a_gigabyte(memory="1G")


@case
def a_campaign_that_is_too_large_ends_within_its_control_group():
    with group_of_a_gigabyte() as how:
        ends_within_a_gigabyte(**how)


@case
def a_campaign_of_four_workers_that_is_too_large_ends_within_its_control_group():
    with group_of_a_gigabyte() as how:
        ends_within_a_gigabyte("--workers", "4", **how)
