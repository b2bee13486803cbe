"""Cases of the built program: shards of a campaign, joined by bin/rtosim-report, which are skipped until the program knows `--shard`; and a
campaign of as many points as there may be, classed by bin/rtosim-report."""
import os
import re
import shutil
import subprocess
import time

from cases import case, equal, long_case
from failures import EXAMPLES
from running import PATIENCE, PROGRAM, ROOT, run, stored

VIEWS = ([], ["--heads"], ["--only", "failing"], ["--only", "pass,check", "--heads"])


def knows_shards():
    is_known = b"--shard" in run("campaign", "--help")[1]
    if not is_known:
        print("   (skipped: the program doesn't know --shard)")
    return is_known


def joined(number, *words):
    """The status of the shards and what they are joined to."""
    statuses, names = set(), []
    for it in range(1, number + 1):
        names.append(f"part.{it}")
        with open(names[-1], "wb") as part:
            status, _, err = run("campaign", *words, "--shard", f"{it}/{number}", stdout=part)
        equal((status in (0, 1), err), (True, b""))
        statuses.add(status)
    ran = subprocess.run([f"{ROOT}/bin/rtosim-report", "join", *names], stdout=subprocess.PIPE, timeout=PATIENCE, check=True)
    return max(statuses), ran.stdout, b""


@case
def shards_of_the_examples_joined_are_their_reports():
    if not knows_shards():
        return
    for at, name in enumerate(EXAMPLES):
        words = [f"{ROOT}/examples/{name}.toml", *VIEWS[at % len(VIEWS)]]
        equal(joined(1 + at % 5, *words), run("campaign", *words))
    words = [f"{ROOT}/examples/late_answer.toml"]
    for number in (1, 7, 69, 100):
        equal(joined(number, *words), run("campaign", *words))


def has_gnu_parallel():
    """Whether the program of this name is GNU's."""
    if shutil.which("parallel") is not None:
        said = subprocess.run(["parallel", "--version"], stdout=subprocess.PIPE, stderr=subprocess.STDOUT, timeout=PATIENCE).stdout
        if said.startswith(b"GNU parallel"):
            return True
    print("   (skipped: there is no GNU parallel)")
    return False


def commands_by_parallel():
    """Those that docs/SCALING.md has for one machine."""
    return re.search(r"(?m)^    export RTOSIM_MEMORY.*\n(?:    .*\n)*", stored("docs/SCALING.md").decode())[0]


@long_case
def sixteen_shards_by_gnu_parallel_joined_are_the_report():
    if not (knows_shards() and has_gnu_parallel()):
        return
    os.mkdir("bin")
    os.symlink(PROGRAM, "bin/rtosim")
    os.symlink(f"{ROOT}/bin/rtosim-report", "bin/rtosim-report")
    environment = {**os.environ, "PATH": f"{os.getcwd()}/bin:{os.environ['PATH']}", "HOME": os.getcwd()}
    for name in EXAMPLES:
        shutil.copy(f"{ROOT}/examples/{name}.toml", "driver.toml")
        commands = ["sh", "-ec", commands_by_parallel()]
        subprocess.run(commands, env=environment, stderr=subprocess.PIPE, timeout=PATIENCE, check=True)
        with open("driver.report", "rb") as it:
            equal(it.read(), run("campaign", "driver.toml")[1])


def a_driver_of_a_million_steps():
    """A driver that loses a wake-up, and a task below it that makes the run nearly as long as it may be."""
    text = stored("examples/lost_wake_up.toml").decode()
    long = '["repeat 499", "repeat 999", "work 1", "end", "end", "waiting rx", "expect 0"]'
    return text.replace('["work 14", "waiting rx", "expect 0"]', long)


@long_case
def a_million_points_are_classed_within_two_minutes():
    shutil.copytree(f"{ROOT}/tools", "tools")
    os.mkdir("bin")
    shutil.copy(f"{ROOT}/bin/rtosim-report", "bin/rtosim-report")
    os.symlink(PROGRAM, "bin/rtosim")
    with open("driver.toml", "w") as it:
        it.write(a_driver_of_a_million_steps())
    began = time.monotonic()
    # nothing goes to the disk: there is no folder for temporary files
    with open("table", "wb") as table:
        words = ["bin/rtosim-report", "classes", "--failing", "--application", "driver.toml"]
        with subprocess.Popen(words, stdout=table, env={**os.environ, "TMPDIR": "/none"}) as started:
            _, status, used = os.wait4(started.pid, 0)
            started.returncode = os.WEXITSTATUS(status)
    equal(started.returncode, 0)
    with open("table") as table:
        rows, passing = map(int, re.match(r"([0-9]+) rows: ([0-9]+) pass 2 fail in 1 class; ", table.read().replace(",", "")).groups())
    assert 990_000 < rows <= 1_000_000 and passing == rows - 2, (rows, passing)
    processors, megabytes = used.ru_utime + used.ru_stime, used.ru_maxrss // 1024
    print(f"   ({time.monotonic() - began:.1f} seconds, {processors:.1f} of processors, the largest process {megabytes} MB)")
    assert processors < 120 and megabytes < 250, (processors, megabytes)
