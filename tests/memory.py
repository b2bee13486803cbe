"""Cases of the launcher: the limit on the program's memory."""
import os
import re
import resource
import subprocess

from cases import case, equal
from checkout import BUILT, PATIENCE, TESTS

TOOL = f"{os.path.dirname(TESTS)}/tools/memory.sh"
REFUSED = "rtosim: RTOSIM_MEMORY must be a size such as 8G (K, M, G, or bytes), and at least 1M\n"
# What a system without a limit says in the file of version 1.
NO_LIMIT = 9223372036854771712
LEAST = 16 << 10
GIGABYTE = 1 << 20


def limits(a, memory="", **how):
    """The limits of the program that bin/rtosim starts, in kilobytes, as the words of ulimit: the one that counts and the highest."""
    status, out, err = a.start(env={**a.environment, "RTOSIM_MEMORY": memory}, **how)
    assert (status, out.startswith(BUILT)) == (0, True), (status, out, err)
    return out[len(BUILT) :].split()


def shows_limits(a):
    a.write(f"{a.stand_in}/program", "ulimit -S -d\nulimit -H -d\n")


@case
def the_program_has_a_limit_on_its_memory_after_a_build_and_without_one(a):
    shows_limits(a)
    with open("/proc/meminfo", encoding="ascii") as file:
        total = int(re.search(r"MemTotal: *(\d+)", file.read())[1])
    for _ in ("after a build", "without"):
        limit, greatest = limits(a)
        assert LEAST <= int(limit) < total, (limit, total)
        equal(greatest, "unlimited")
    a.write("crates/low/src/lib.rt", "lower\n")
    a.write(f"{a.stand_in}/program", "ulimit -S -d\n")
    for _ in ("after a build", "without"):
        status, out, _ = a.start(env={**a.environment, "RTOSIM_MEMORY": "3G"})
        equal((status, out.splitlines()[1]), (0, str(3 * GIGABYTE)))


@case
def the_limit_is_the_one_that_is_asked_for(a):
    shows_limits(a)
    asked = {"8G": 8 * GIGABYTE, "500M": 500 << 10, "70000K": 70000, "1073741824": GIGABYTE}
    for memory, wanted in asked.items():
        equal(limits(a, memory), [str(wanted), "unlimited"])
    for memory, wanted in {**asked, "1M": 1024, "1048576": 1024, "1025K": 1025}.items():
        equal(limit_of(a, machine(LEAST), memory), wanted)
    for memory, wanted in (("G", 10**9 << 20), ("M", 1 << 52), ("K", 10**15 - 1)):
        equal(limits(a, f"999999999999999{memory}"), [str(wanted), "unlimited"])
    assert int(limits(a, "")[0]) >= LEAST


@case
def what_is_no_amount_of_memory_is_refused_and_nothing_is_built(a):
    for memory in ("0", "0G", "08", "G", "x", "1.5G", "-1", "+1", "8 G", " 8G", "8g", "8GB", "8T", "1e9", "0x10", "1048575", "1023K",
                   "1000000000000000", "9" * 40, "8G\n", "$(echo 8G)", "\x1b[1m", "\udcff", "*"):
        equal((memory, *a.start("x", env={**a.environment, "RTOSIM_MEMORY": memory})), (memory, 70, "", REFUSED))
        equal(a.start("--preview", env={**a.environment, "RTOSIM_MEMORY": memory}), (70, "", REFUSED))
    equal(a.read(f"{a.stand_in}/calls"), "")


@case
def a_lower_limit_stays(a):
    shows_limits(a)
    lower = 100_000

    def has(soft, hard):
        return {"preexec_fn": lambda: resource.setrlimit(resource.RLIMIT_DATA, (soft, hard))}

    limits(a)
    equal(limits(a, **has(lower << 10, resource.RLIM_INFINITY)), [str(lower), "unlimited"])
    equal(limits(a, "8G", **has(lower << 10, lower << 10)), [str(lower)] * 2)
    equal(limits(a, "64M", **has(lower << 10, lower << 10)), [str(64 << 10), str(lower)])


def limit_of(a, files, memory=""):
    """The limit on a system that has these files."""
    a.systems = getattr(a, "systems", 0) + 1
    system = f"{a.room}/system {a.systems}"
    os.mkdir(system)
    for name, text in files.items():
        a.write(f"{system}/{name}", text)
    script = '. "$0"; system=$1; read_memory; limit_memory; ulimit -S -d'
    words = ["/bin/sh", "-c", script, TOOL, system]
    both = {"stdout": subprocess.PIPE, "stderr": subprocess.PIPE}
    ran = subprocess.run(words, env={**a.environment, "RTOSIM_MEMORY": memory}, timeout=PATIENCE, check=True, **both)
    equal(ran.stderr, b"")
    return int(ran.stdout)


def machine(available, groups=""):
    text = f"MemTotal:       64000000 kB\nMemFree:        1 kB\nMemAvailable:   {available} kB\nBuffers: 2 kB\n"
    return {"proc/meminfo": text, "proc/self/cgroup": groups}


def of_version_1(path, limit, used, copies=0):
    """The files of a group. What it says of itself alone is less than with the groups in it."""
    folder = f"sys/fs/cgroup/memory{path}"
    half = copies // 2
    stat = f"cache 5\ninactive_file 1\nactive_file 1\ntotal_cache 9\ntotal_inactive_file {half}\ntotal_active_file {copies - half}\n"
    return {f"{folder}/memory.limit_in_bytes": f"{limit}\n", f"{folder}/memory.usage_in_bytes": f"{used}\n", f"{folder}/memory.stat": stat}


def of_version_2(path, limit, used, copies=0):
    folder = f"sys/fs/cgroup{path}"
    half = copies // 2
    stat = f"anon 3\nfile {copies + 4096}\nshmem 4096\ninactive_anon 7\ninactive_file {half}\nactive_file {copies - half}\n"
    return {f"{folder}/memory.max": f"{limit}\n", f"{folder}/memory.current": f"{used}\n", f"{folder}/memory.stat": stat}


def most(kilobytes):
    return kilobytes // 10 * 9


@case
def the_limit_is_most_of_what_the_machine_has_free(a):
    equal(limit_of(a, machine(8 * GIGABYTE)), most(8 * GIGABYTE))
    equal(limit_of(a, machine(1000)), LEAST)
    without = limit_of(a, {})
    assert without > 1 << 40, without


VERSION_1 = "12:pids:/user\n7:cpu,memory,blkio:/a group/of:it\n1:name=systemd:/user\n0::/user\n"
VERSION_2 = "0::/a group/of:it\n"
VERSIONS = ((VERSION_1, of_version_1, NO_LIMIT), (VERSION_2, of_version_2, "max"))


@case
def the_limit_is_most_of_what_a_control_group_has_free(a):
    for groups, group, none in VERSIONS:
        has = machine(8 * GIGABYTE, groups)
        own, above, outermost = "/a group/of:it", "/a group", ""
        for path in (own, above, outermost):
            equal(limit_of(a, {**has, **group(path, 2 << 30, 1 << 30)}), most(GIGABYTE))
            equal(limit_of(a, {**has, **group(path, 2 << 30, 1 << 30, 1 << 29)}), most(GIGABYTE * 3 // 2))
        wide, full = group(above, none, 1 << 30), group(own, 1 << 30, (1 << 30) + 4096)
        equal(limit_of(a, {**has, **wide, **group(own, none, 5)}), most(8 * GIGABYTE))
        equal(limit_of(a, {**has, **wide, **full}), LEAST)
        both = {**group(above, 3 << 30, 1 << 30), **group(own, 4 << 30, 1 << 30)}
        equal(limit_of(a, {**has, **both}), most(2 * GIGABYTE))
        equal(limit_of(a, {**has, **group(own, 64 << 30, 1 << 30)}), most(8 * GIGABYTE))


@case
def groups_of_which_a_container_has_the_outermost_alone_count(a):
    for groups, group, _ in VERSIONS:
        equal(limit_of(a, {**machine(8 * GIGABYTE, groups), **group("", 1 << 30, 0)}), most(GIGABYTE))
    for groups, group in (("3:memory:/\n", of_version_1), ("0::/\n", of_version_2), ("0::/../other\n", of_version_2)):
        equal(limit_of(a, {**machine(8 * GIGABYTE, groups), **group("", 1 << 30, 0)}), most(GIGABYTE))


@case
def a_group_that_says_less_than_all_is_passed_over(a):
    for groups, group, _ in VERSIONS:
        for at in range(2):
            files = group("/a group/of:it", 1 << 30, 0)
            del files[list(files)[at]]
            equal(limit_of(a, {**machine(8 * GIGABYTE, groups), **files}), most(8 * GIGABYTE))
        files = group("/a group/of:it", 1 << 30, 1 << 29)
        del files[list(files)[2]]
        equal(limit_of(a, {**machine(8 * GIGABYTE, groups), **files}), most(GIGABYTE // 2))
