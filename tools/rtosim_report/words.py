"""The words by which the program runs one point. It is the one place that knows them: `--at` and `--handler` of a single injection, and
`--point` of several, which not every program has."""
import functools
import subprocess
from typing import Any, List, Optional

from .report import Point
from .source import PROGRAM


@functools.lru_cache(maxsize=1)
def takes_points() -> bool:
    """Whether the program runs a point of several injections."""
    try:
        streams: Any = {"stdin": subprocess.DEVNULL, "stdout": subprocess.PIPE, "stderr": subprocess.DEVNULL}
        return b"--point" in subprocess.run([PROGRAM, "run", "--help"], check=False, **streams).stdout
    except OSError:
        return False


def words_of_point(point: Optional[Point], has_points: bool) -> Optional[List[str]]:
    """The words for a point, none for the base run; None if the program has no words for it."""
    if point is None:
        return []
    if point.is_single:
        return ["--at", str(point[0].step), "--handler", point[0].handler]
    return ["--point", point.text()] if has_points else None
