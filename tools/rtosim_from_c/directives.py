"""Comments for rtosim outside of functions: points, base interrupts, limits, and what has no effect."""
from dataclasses import dataclass, field
from fnmatch import fnmatchcase
from typing import Callable, Dict, Iterable, List, Optional, Set, Tuple, Union

from .refusals import Place, Refusal

FORMS = (
    "points TEXT, TEXT ..", "interrupt TICK HANDLER", "handler FUNCTION ..", "ignore NAME NAME=NUMBER ..", "fails NAME ..", "item MEMBER ..", "limits ticks N",
    "limits steps N", "start N", "tickless",
)
INSTEAD = "one of: " + "; ".join(f"/* rtosim: {it} */" for it in FORMS)


class Ignored:
    """Names of functions and variables that have no effect on tasks, as patterns; and what such a function returns, if that is given."""

    def __init__(self, texts: Iterable[str] = ()) -> None:
        self.patterns: Dict[str, str] = {}
        self.update(texts)

    def update(self, texts: Iterable[str]) -> None:
        """Takes texts as `NAME` or `NAME=NUMBER`; a NAME may have `*` and `?`."""
        for it in texts:
            name, _, value = it.partition("=")
            self.patterns[name] = value

    def __contains__(self, name: str) -> bool:
        return self.pattern(name) is not None

    def pattern(self, name: str) -> Optional[str]:
        """The pattern of a name: the last one that fits, since later ones may say more of some."""
        return next((it for it in reversed(list(self.patterns)) if fnmatchcase(name, it)), None)

    def returns(self, name: str) -> str:
        """What is given for what a function returns; nothing if that isn't known."""
        return self.patterns[self.pattern(name) or ""]


@dataclass
class Directives:
    """What the comments of a file ask for."""

    points: List[Tuple[str, Place]] = field(default_factory=list)
    interrupts: List[Tuple[int, str, Place]] = field(default_factory=list)
    handlers: Set[str] = field(default_factory=set)
    ignored: Ignored = field(default_factory=Ignored)
    failing: Ignored = field(default_factory=Ignored)
    items: Set[str] = field(default_factory=set)
    limits: Dict[str, int] = field(default_factory=dict)
    start: Optional[int] = None
    is_tickless: bool = False

    def take(self, text: str, place: Place) -> None:
        """Takes the text of a comment, without its `rtosim:`."""
        word, _, rest = text.strip().partition(" ")
        taker = TAKERS.get(word)
        if taker is None or not taker(self, rest.strip(), place):
            raise Refusal(place, f"no comment for rtosim is `{text.strip()}` here", INSTEAD)


def number(text: str) -> Optional[int]:
    return int(text) if text.isascii() and text.isdigit() else None


def take_points(found: Directives, rest: str, place: Place) -> bool:
    found.points += [(" ".join(it.split()), place) for it in rest.split(",")]
    return all(it.strip() for it in rest.split(","))


def take_interrupt(found: Directives, rest: str, place: Place) -> bool:
    words = rest.split()
    if len(words) != 2 or number(words[0]) is None:
        return False
    found.interrupts.append((int(words[0]), words[1], place))
    return True


def take_names(of: Callable[[Directives], Union[Set[str], Ignored]]) -> Callable[[Directives, str, Place], bool]:
    def take(found: Directives, rest: str, _: Place) -> bool:
        of(found).update(rest.split())
        return bool(rest)
    return take


def take_limits(found: Directives, rest: str, _: Place) -> bool:
    words = rest.split()
    if len(words) != 2 or words[0] not in ("ticks", "steps") or number(words[1]) is None:
        return False
    found.limits[words[0]] = int(words[1])
    return True


def take_start(found: Directives, rest: str, _: Place) -> bool:
    found.start = number(rest)
    return found.start is not None


def take_tickless(found: Directives, rest: str, _: Place) -> bool:
    found.is_tickless = True
    return not rest


TAKERS: Dict[str, Callable[[Directives, str, Place], bool]] = {
    "points": take_points, "interrupt": take_interrupt, "limits": take_limits, "start": take_start, "tickless": take_tickless,
    "handler": take_names(lambda it: it.handlers), "handlers": take_names(lambda it: it.handlers),
    "ignore": take_names(lambda it: it.ignored), "fails": take_names(lambda it: it.failing),
    "item": take_names(lambda it: it.items),
}
