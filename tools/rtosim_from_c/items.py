"""The ops of a script as a tree, and as the list that a file has."""
from dataclasses import dataclass, field
from typing import List, Optional, Sequence, Tuple, Union

from .answers import Answers, condition_for, segments
from .refusals import Place


@dataclass(frozen=True)
class Op:
    """An op that is no edge of a block."""

    text: str
    place: Place = field(compare=False)


@dataclass(frozen=True)
class If:
    condition: str
    yes: Tuple["Item", ...]
    no: Tuple["Item", ...]
    place: Place = field(compare=False)


@dataclass(frozen=True)
class Repeat:
    """`turns` is a number, or `forever`."""

    turns: str
    body: Tuple["Item", ...]
    place: Place = field(compare=False)


@dataclass(frozen=True)
class Break:
    place: Place = field(compare=False)


TAKE_TIME = ("work", "delay", "delay_until", "suspend", "yield")
MAY_BLOCK = ("send", "send_front", "receive", "peek", "take", "lock", "wait", "notify_take", "notify_wait")

Item = Union[Op, If, Repeat, Break]


@dataclass(frozen=True)
class Line:
    """An op of a script. `is_edge` of an `else` or an `end`, whose place is that of what they belong to."""

    text: str
    place: Place
    is_edge: bool = False


def lines_of(items: Sequence[Item]) -> List[Line]:
    """The script of these items."""
    found: List[Line] = []
    for it in items:
        if isinstance(it, If):
            found += [Line(f"if {it.condition}", it.place), *lines_of(it.yes)]
            if it.no:
                found += [Line("else", it.place, True), *lines_of(it.no)]
            found.append(Line("end", it.place, True))
        elif isinstance(it, Repeat):
            found += [Line(f"repeat {it.turns}", it.place), *lines_of(it.body), Line("end", it.place, True)]
        else:
            found.append(Line("break" if isinstance(it, Break) else it.text, it.place))
    return found


def leaves(items: Sequence[Item]) -> bool:
    """Whether what follows these items is never reached from them: they end with a `break`."""
    last = items[-1] if items else None
    if isinstance(last, If):
        return bool(last.no) and leaves(last.yes) and leaves(last.no)
    return isinstance(last, Break)


def takes_time(items: Sequence[Item]) -> bool:
    """Whether time may pass in these items, or another task of the same priority may run."""
    for it in lines_of(items):
        word, *words = it.text.split()
        if word in TAKE_TIME or word in MAY_BLOCK and words[-1] != "0":
            return True
    return False


def has_break(items: Sequence[Item]) -> bool:
    """Whether a `break` of these items leaves the loop around them."""
    return any(isinstance(it, Break) or isinstance(it, If) and (has_break(it.yes) or has_break(it.no)) for it in items)


def is_test(item: Item) -> bool:
    """Whether the item does nothing but perhaps leave the loop."""
    return isinstance(item, Break) or isinstance(item, If) and all(is_test(it) for it in (*item.yes, *item.no))


def chosen(among: Answers, wanted: Answers, yes: Sequence[Item], no: Sequence[Item], place: Place) -> List[Item]:
    """The items that do `yes` if the last answer is a wanted one among these, and `no` otherwise."""
    if list(yes) == list(no):
        return list(yes)
    if not yes or leaves(no) and not leaves(yes):
        wanted, yes, no = among - wanted, no, yes
    condition = condition_for(wanted, among)
    if condition is not None:
        return [If(condition, tuple(yes), (), place), *no] if leaves(yes) else [If(condition, tuple(yes), tuple(no), place)]
    opposite = condition_for(among - wanted, among)
    if opposite is not None:
        return [If(opposite, tuple(no), (), place), *yes] if leaves(no) else [If(opposite, tuple(no), tuple(yes), place)]
    return chain(parts_of(among, wanted, yes, no), place)


def by_variable(condition: str, yes: Sequence[Item], no: Sequence[Item], place: Place) -> List[Item]:
    """The items that do `yes` if the last answer is as this condition says, which names a variable, and `no` otherwise."""
    if list(yes) == list(no):
        return list(yes)
    opposite = f"not {condition}" if " " not in condition else condition[4:] if condition.startswith("not ") else None
    if opposite is not None and (not yes or leaves(no) and not leaves(yes)):
        condition, yes, no = opposite, no, yes
    return [If(condition, tuple(yes), (), place), *no] if leaves(yes) else [If(condition, tuple(yes), tuple(no), place)]


def parts_of(among: Answers, wanted: Answers, yes: Sequence[Item], no: Sequence[Item]) -> List[Tuple[Answers, Sequence[Item]]]:
    """The answers in parts, each picked by a condition among those that are left; single answers first, if that is all."""
    parts = segments(wanted, among)
    for is_one, items, others in ((True, yes, no), (False, no, yes)):
        singles = [part for part, is_wanted in parts if is_wanted == is_one]
        if all(it.single() is not None for it in singles):
            rest = among - wanted if is_one else among & wanted
            return [*((it, items) for it in singles), (rest, others)]
    return [(part, yes if is_wanted else no) for part, is_wanted in parts]


def chain(parts: Sequence[Tuple[Answers, Sequence[Item]]], place: Place) -> List[Item]:
    """One `if` in another, for answers that no single condition picks."""
    (first, items), *others = parts
    if not others:
        return list(items)
    left = first
    for part, _ in others:
        left = left | part
    return chosen(left, first, list(items), chain(others, place), place)


def folded(items: Sequence[Item]) -> Optional[Tuple[int, Tuple[Item, ...]]]:
    """Equal parts one after another, as how many they are and one of them. What lacks at the end may be tests, which then leave
    the loop at its end in any case."""
    size = len(items)
    for period in range(1, size // 2 + 2):
        part = items[:period]
        lacking = [part[at % period] for at in range(size, -(-size // period) * period)]
        turns = -(-size // period)
        if turns > 1 and all(map(is_test, lacking)) and list(part) * turns == [*items, *lacking]:
            return turns, tuple(part)
    return None


def fused(items: Sequence[Item]) -> List[Item]:
    """The items without a test that asks again what the one before it has asked, as it is after an answer that a variable is given."""
    found: List[Item] = []
    for it in items:
        if isinstance(it, Repeat):
            it = Repeat(it.turns, tuple(fused(it.body)), it.place)
        elif isinstance(it, If):
            it = If(it.condition, tuple(fused(it.yes)), tuple(fused(it.no)), it.place)
        last = found[-1] if found else None
        if isinstance(it, If) and isinstance(last, If) and only_stores(last) and last.condition == it.condition:
            found[-1] = If(it.condition, (*last.yes, *it.yes), it.no, it.place)
        elif isinstance(it, If) and isinstance(last, If) and only_stores(last) and is_opposite(last.condition, it.condition):
            found[-1] = If(it.condition, it.yes, (*last.yes, *it.no), it.place)
        else:
            found.append(it)
    return found


def only_stores(item: If) -> bool:
    """Whether a branch does nothing but give variables the last answer, and its condition names none of them."""
    is_fixed = item.condition.split()[-1] == "none" or item.condition.split()[-1].isdigit()
    return is_fixed and not item.no and all(isinstance(it, Op) and it.text.split()[::2] == ["store", "answer"] for it in item.yes)


def is_opposite(first: str, second: str) -> bool:
    return first == f"not {second}" or second == f"not {first}"
