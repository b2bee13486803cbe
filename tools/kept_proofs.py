"""What an interrupted build from nothing has proved, so that the next one goes on there. Beside a library lies what rattle said of it, with
the sum of all that its proof reads and of what it is made of. The record is written last, so a library without one is proved anew."""
from __future__ import annotations

import contextlib
import hashlib
import os
import shutil
from typing import Any, Dict, List, Optional

RECORD = "out/proved"


def sum_of(crate: Any) -> str:
    """The sum of the sources of the crate and of those below, of the toolchain, of the handles, and of the sizes of the library's files."""
    sizes = [(os.path.relpath(at, crate.rlib), it, os.path.getsize(f"{at}/{it}"))
             for at, _, names in os.walk(crate.rlib) for it in names]
    return hashlib.sha256(repr((crate.stamp(), crate.allowed, sorted(sizes))).encode()).hexdigest()


def keep(crate: Any, said: str) -> None:
    """Records what was said of the crate, which is proved and built. If that can't be written, the next build proves it anew."""
    record = f"{crate.folder}/{RECORD}"
    with contextlib.suppress(OSError):
        its_sum = sum_of(crate)
        with open(f"{record}.new", "w", encoding="utf-8", errors="surrogateescape") as file:
            file.write(f"{its_sum}\n{said}")
        os.replace(f"{record}.new", record)


def said_of(crate: Any) -> Optional[str]:
    """What was said of the crate when it was proved; None if it isn't, or if anything has changed since."""
    try:
        with open(f"{crate.folder}/{RECORD}", encoding="utf-8", errors="surrogateescape") as file:
            before, _, said = file.read().partition("\n")
    except OSError:
        return None
    return said if os.path.isdir(crate.rlib) and before == sum_of(crate) else None


def proved_before(crates: List[Any]) -> Dict[Any, str]:
    """What was said of each crate that needs no proof, lowest first: such a crate stands on such crates alone. Of the others nothing that was
    built is left."""
    found = {}
    for crate in crates:
        said = said_of(crate) if not crate.is_program and all(it in found for it in crate.deps) else None
        if said is None:
            shutil.rmtree(os.path.dirname(crate.rlib), ignore_errors=True)
        else:
            found[crate] = said
    return found
