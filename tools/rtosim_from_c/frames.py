"""Where the translation is: in which call of which function, with which locals in sight, and what a jump does there."""
from dataclasses import dataclass, field, replace
from typing import Callable, Dict, Optional, Tuple

from .paths import Path
from .trees import Node
from .values import Known

Continuation = Callable[[Path], None]


@dataclass(frozen=True)
class Jumps:
    """What `break`, `continue` and `return` do. `break_is_op` if a `break` becomes one of the script; `return_is_op` if a `return`
    leaves a loop of the script by one. Otherwise what comes after the jump is moved into the branches without it."""

    on_return: Callable[[Path, Known], None]
    on_break: Optional[Continuation] = None
    on_continue: Optional[Continuation] = None
    break_is_op: bool = False
    return_is_op: bool = False
    # what comes from each label on that is ahead and in no other loop
    labels: Dict[str, Continuation] = field(default_factory=dict)


@dataclass(frozen=True)
class Frame:
    """A function that is followed: its name, the calls that lead there, and the names in sight, the innermost last."""

    function: str
    jumps: Jumps
    scopes: Tuple[Dict[str, str], ...] = field(default=({},))
    calls: Tuple[int, ...] = ()
    outer: Optional["Frame"] = None

    def local(self, name: str) -> Optional[str]:
        """The key of the local that the name means."""
        return next((scope[name] for scope in reversed(self.scopes) if name in scope), None)

    def inner(self) -> "Frame":
        return replace(self, scopes=(*self.scopes, {}))

    def with_jumps(self, **changes: Node) -> "Frame":
        return replace(self, jumps=replace(self.jumps, **changes))

    def functions(self) -> Tuple[str, ...]:
        return (self.function, *(self.outer.functions() if self.outer else ()))


def both(first: Continuation, then: Continuation) -> Continuation:
    """Does the first on a path, and then the other."""
    def go(path: Path) -> None:
        first(path)
        then(path)
    return go


def nowhere(path: Path, value: Known) -> None:
    """A function that isn't entered is never left."""
    raise AssertionError(path, value)


# before a function is entered
NO_FRAME = Frame("", Jumps(nowhere))
