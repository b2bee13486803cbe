"""The last line that rattle says of each crate that the program builds on, and of its own: what there is to show of a proof. rt keeps
none of them, so they are kept beside the program, each with the sum of the sources that it is about. The toolchain's line is above
them.

A line holds as long as these sources are the same, whoever built what: `rt ci` says nothing of a crate that an earlier run of it proved,
nor does `rt check` of one that is as it was built."""
from __future__ import annotations

import contextlib
import hashlib
import os
import re
import subprocess
from typing import Dict, Iterable, Iterator, List, Optional, Tuple

import proving

RECORD = "crates/rtosim/out/rtosim.proofs"
READ_BY_PROOFS = ("src", "specs", "proofs")
# Ends the line of a crate that was proved over proofs that were kept.
OVER_KEPT = " incremental=trusted"
# Begins what rt says of a crate, or of its tests.
HEADER = re.compile(r"== (\w+)(: its tests)?$")


def names(root: str = proving.ROOT) -> List[str]:
    """The crates that the program builds on, and its own, lowest first."""
    return [*proving.below("rtosim", proving.crates(root)), "rtosim"]


def files_below(folder: str) -> Iterator[str]:
    for at, folders, files in os.walk(folder):
        folders.sort()
        yield from (f"{at}/{it}" for it in sorted(files))


def sums(root: str = proving.ROOT) -> Dict[str, str]:
    """Of each of the crates the sum of all sources that a proof of it reads: its own, and those of the crates below it."""
    stand_on = proving.crates(root)
    found: Dict[str, str] = {}
    for name in names(root):
        total = hashlib.sha256()
        for part in READ_BY_PROOFS:
            for place in files_below(f"{root}/crates/{name}/{part}"):
                with open(place, "rb") as file:
                    its_sum = hashlib.sha256(file.read()).hexdigest()
                total.update(f"{os.path.relpath(place, root)} {its_sum}\n".encode(errors="surrogateescape"))
        for below in stand_on[name]:
            total.update(f"{below} {found[below]}\n".encode())
        found[name] = total.hexdigest()
    return found


def lines_in(said: Iterable[str]) -> Dict[str, str]:
    """The last line of each crate that is proved, out of what rt, or tools/from_nothing, says of several."""
    found, header, name = {}, None, None
    for line in said:
        if begins := HEADER.match(line):
            header, name = (None if begins[2] else begins[1]), None
        elif line.startswith("crate "):
            name = line.split()[1].rstrip(":")
        elif line.startswith(("logic=", "only=")):
            crate = name or header
            if crate and line.startswith("logic=proved ") and " tests=" not in line:
                found[crate] = line
            name = None
    return found


def toolchain() -> str:
    """The toolchain's own line."""
    ran = subprocess.run(["rt", "version"], stdin=subprocess.DEVNULL, capture_output=True, text=True, errors="replace")
    return " ".join(ran.stdout.split())


def record(root: str = proving.ROOT) -> Tuple[Optional[str], Dict[str, Tuple[str, str]]]:
    """The toolchain's line, and of each crate its sum and its line, as they are kept."""
    try:
        with open(f"{root}/{RECORD}", encoding="utf-8") as file:
            by, *lines = file.read().splitlines()
        return by, {it[0]: (it[1], it[2]) for it in (line.split(" ", 2) for line in lines)}
    except (OSError, ValueError, IndexError):
        return None, {}


def with_said(said: Iterable[str], root: str) -> str:
    """The text of the record with the lines that are said. One of a proof over kept proofs takes no other's place."""
    now, (before, lines), its_sums = toolchain(), record(root), sums(root)
    lines = {name: it for name, it in lines.items() if now == before and its_sums.get(name) == it[0]}
    for name, line in lines_in(said).items():
        if name in its_sums and not (name in lines and line.endswith(OVER_KEPT)):
            lines[name] = its_sums[name], line
    return "".join(f"{it}\n" for it in (now, *(f"{name} {' '.join(lines[name])}" for name in its_sums if name in lines)))


def keep(said: Iterable[str], root: str = proving.ROOT) -> None:
    """Keeps the lines that are said of the sources as they are, if that can be written."""
    with contextlib.suppress(OSError):
        text = with_said(said, root)
        with open(f"{root}/{RECORD}.new", "w", encoding="utf-8", errors="surrogateescape") as file:
            file.write(text)
        os.replace(f"{root}/{RECORD}.new", f"{root}/{RECORD}")


def kept(root: str = proving.ROOT) -> Tuple[Optional[str], Dict[str, str]]:
    """The toolchain's line, and the line of each crate whose sources are those that it is about."""
    by, lines = record(root)
    its_sums = sums(root)
    return by, {name: lines[name][1] for name in its_sums if name in lines and lines[name][0] == its_sums[name]}
