"""Sets of answers of calls, and the conditions of scripts that pick them.

An answer is a number from 0 to 4294967295, or `none`, which is -1 here."""
from dataclasses import dataclass
from typing import Iterator, List, Optional, Tuple

NONE = -1
GREATEST = (1 << 32) - 1


@dataclass(frozen=True)
class Answers:
    """A set of answers: ranges in rising order that don't touch, each with both of its ends."""

    ranges: Tuple[Tuple[int, int], ...] = ()

    def __bool__(self) -> bool:
        return bool(self.ranges)

    def __and__(self, other: "Answers") -> "Answers":
        pairs = ((max(a, c), min(b, d)) for a, b in self.ranges for c, d in other.ranges)
        return answers(*(it for it in pairs if it[0] <= it[1]))

    def __or__(self, other: "Answers") -> "Answers":
        return answers(*self.ranges, *other.ranges)

    def __sub__(self, other: "Answers") -> "Answers":
        return self & other.others()

    def others(self) -> "Answers":
        """All that are not in it."""
        found, next_one = [], NONE
        for low, high in self.ranges:
            if next_one < low:
                found.append((next_one, low - 1))
            next_one = high + 1
        if next_one <= GREATEST:
            found.append((next_one, GREATEST))
        return Answers(tuple(found))

    def single(self) -> Optional[int]:
        """The one answer that it has; None if there are others or none at all."""
        if len(self.ranges) == 1 and self.ranges[0][0] == self.ranges[0][1]:
            return self.ranges[0][0]
        return None

    def least(self) -> int:
        return self.ranges[0][0]

    def greatest(self) -> int:
        return self.ranges[-1][1]

    def size(self) -> int:
        return sum(high - low + 1 for low, high in self.ranges)

    def __iter__(self) -> Iterator[int]:
        for low, high in self.ranges:
            yield from range(low, high + 1)


def answers(*ranges: Tuple[int, int]) -> Answers:
    """The set of what is in these ranges."""
    joined: List[Tuple[int, int]] = []
    for low, high in sorted(ranges):
        if joined and low <= joined[-1][1] + 1:
            joined[-1] = (joined[-1][0], max(joined[-1][1], high))
        else:
            joined.append((low, high))
    return Answers(tuple(joined))


def only(*numbers: int) -> Answers:
    return answers(*((it, it) for it in numbers))


ALL = answers((NONE, GREATEST))
NUMBERS = answers((0, GREATEST))
NOTHING = answers()


def word(answer: int) -> str:
    return "none" if answer == NONE else str(answer)


def condition_for(wanted: Answers, among: Answers) -> Optional[str]:
    """The condition that holds of the wanted ones among these answers, and of no other of them; None if there is no such."""
    others = among - wanted
    if wanted.single() is not None:
        return word(wanted.least())
    if others.single() is not None:
        return f"not {word(others.least())}"
    if wanted and wanted.least() >= 0:
        numbers = others & NUMBERS
        if not numbers:
            return "not none" if others else None
        if wanted.greatest() < numbers.least():
            return f"below {wanted.greatest() + 1}"
        if wanted.least() > numbers.greatest():
            return f"above {wanted.least() - 1}"
    return None


def segments(wanted: Answers, among: Answers) -> List[Tuple[Answers, bool]]:
    """These answers as parts in rising order, each with whether it is wanted: neighbours differ, except at `none`."""
    cuts = [(low, high, True) for low, high in (wanted & among).ranges]
    cuts += [(low, high, False) for low, high in (among - wanted).ranges]
    parts: List[Tuple[Answers, bool]] = []
    for low, high, is_wanted in sorted(cuts):
        for start, end in [(NONE, NONE), (0, high)] if low == NONE < high else [(low, high)]:
            if parts and parts[-1][1] == is_wanted and parts[-1][0].greatest() != NONE:
                parts[-1] = (parts[-1][0] | answers((start, end)), is_wanted)
            else:
                parts.append((answers((start, end)), is_wanted))
    return parts


def failing(among: Answers) -> Optional[str]:
    """A condition that holds of none of these answers."""
    if NONE not in among.ranges[0]:
        return "none"
    missing = NUMBERS - among
    if not among & NUMBERS:
        return "not none"
    return str(missing.least()) if missing else None
