"""A package in an empty root, with libc and Python alone.

That takes a namespace of the caller's own, or a root's rights. Where the system gives neither, the package is run where it is unpacked,
with an empty environment."""
import glob
import os
import re
import shutil
import subprocess
import sys
import sysconfig

from checkout import PATIENCE

# Parts of Python's library that no program needs.
LEFT_OUT = ("site-packages", "dist-packages", "__pycache__", "test", "tests", "idlelib", "tkinter", "turtledemo", "ensurepip", "lib2to3",
            "pydoc_data", "unittest", "distutils", "config-*")
# Gives the root devices and processes, before the words are called in it, in a folder of it.
WITH_DEVICES = """mount --rbind /dev "$1/dev" && mount --rbind /proc "$1/proc" || exit 70
root=$1 folder=$2
shift 2
exec unshare --root="$root" --wd="$folder" "$@"
"""
WAYS = {
    "an empty root with devices, in namespaces of its own": ["--user", "--map-root-user", "--mount"],
    "an empty root with devices, in a namespace of its own": ["--mount"],
    "an empty root": [],
    "an empty root in a namespace of its own": ["--user", "--map-root-user"],
}


def copied(place, root):
    """Puts a copy of the file at its place below the root."""
    to = f"{root}{place}"
    os.makedirs(os.path.dirname(to), exist_ok=True)
    if not os.path.exists(to):
        shutil.copy(place, to)


def libraries_of(places):
    """The shared libraries that these programs and libraries load, and what loads them."""
    ran = subprocess.run(["ldd", *places], stdout=subprocess.PIPE, stderr=subprocess.DEVNULL, text=True)
    return set(re.findall(r"(?m)(?:=> |^\s+)(/\S+) \(0x", ran.stdout))


def put_python(root, python):
    """Puts Python and its library below the root, where they are outside it."""
    copied(python, root)
    library = sysconfig.get_path("stdlib")
    shutil.copytree(library, f"{root}{library}", ignore=shutil.ignore_patterns(*LEFT_OUT))


def made_root(room, package):
    """Makes an empty root with libc and Python, and the package at /package. Returns its path, and Python's in it."""
    root, python = f"{room}/root", os.path.realpath(sys.executable)
    for it in ("dev", "proc", "tmp"):
        os.makedirs(f"{root}/{it}")
    put_python(root, python)
    modules = glob.glob(f"{sysconfig.get_path('stdlib')}/lib-dynload/*.so")
    for it in libraries_of([python, f"{package}/bin/rtosim", *modules]):
        copied(it, root)
    shutil.copytree(package, f"{root}/package")
    return root, python


class Root:
    """An empty root, or the folder where the package is unpacked, in the place of one."""

    def __init__(self, told_as, folder, python, starts):
        self.told_as, self.folder, self.python, self.starts = told_as, folder, python, starts
        self.has_devices = "with devices" in told_as or folder != "/package"

    def run(self, words, folder):
        """Runs the words there, in that folder, with an empty environment, as far as PATH goes."""
        environment = {"PATH": os.environ["PATH"]} if self.folder == "/package" else {}
        how = {"stdin": subprocess.DEVNULL, "stdout": subprocess.PIPE, "stderr": subprocess.PIPE, "timeout": PATIENCE}
        cwd = None if self.folder == "/package" else folder
        return subprocess.run([*self.starts(folder), *words], env=environment, cwd=cwd, **how)


def ways(root, python):
    """Each way into the root that may be there."""
    for told_as, flags in WAYS.items():
        if "with devices" in told_as:
            starts = lambda folder, flags=flags: ["unshare", *flags, "sh", "-c", WITH_DEVICES, "sh", root, folder]
        else:
            starts = lambda folder, flags=flags: ["unshare", *flags, f"--root={root}", f"--wd={folder}"]
        yield Root(told_as, "/package", python, starts)


def is_there(root):
    try:
        return root.run([root.python, "-c", "import argparse, json, subprocess, tempfile"], root.folder).returncode == 0
    except OSError:
        return False


def root(room, package):
    """The first root that can be had."""
    place, python = made_root(room, package)
    outside = Root("no empty root, since the system gives none: where it is unpacked", package, python, lambda _: [])
    return next(filter(is_there, ways(place, python)), outside)
