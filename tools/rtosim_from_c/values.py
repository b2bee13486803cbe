"""What is known of a value of C: a function of the task's last answer, in pieces.

A script keeps nothing but its last answer. So a local may be a constant, it may be the last answer itself, or it may depend on the last
answer in pieces: of `ok = xQueueReceive(..)` it is 0 for `none` and 1 otherwise. After another call only constants are left."""
from dataclasses import dataclass, field, replace
from typing import Callable, Iterable, Iterator, List, Optional, Tuple, Union

from .answers import GREATEST, NONE, NUMBERS, Answers, answers, only
from .integers import ARITHMETIC, BOOL, COMPARISONS, INT, SHIFTS, UNSIGNED, Integer, common, promoted
from .refusals import Lost, Place

MOST_PIECES = 64
NUMBER, ANSWER, LOST = "number", "answer", "lost"


@dataclass(frozen=True)
class Piece:
    """For the answers from `low` to `high`: a number, or the answer and a number, or lost: then one of `among`, if that is known."""

    low: int
    high: int
    kind: str
    number: int = 0
    lost: Optional[Lost] = field(default=None, compare=False)
    among: Optional[Answers] = None

    def at(self, answer: int) -> int:
        return self.number + (answer if self.kind == ANSWER else 0)

    def between(self, low: int, high: int) -> "Piece":
        """The same for these answers."""
        return Piece(low, high, self.kind, self.number, self.lost, self.among)

    def numbers(self) -> Optional[Answers]:
        """The numbers that it may be, if that is known."""
        return self.among if self.kind == LOST else answers((self.at(self.low), self.at(self.high)))


@dataclass(frozen=True)
class Value:
    """An integer of a type, as pieces in rising order."""

    type: Integer
    pieces: Tuple[Piece, ...]

    def among(self, known: Answers) -> "Value":
        """What is left of it if the last answer is one of these."""
        if len(self.pieces) == 1:
            only_one = self.pieces[0]
            if len(known.ranges) == 1 and known.ranges[0] == (only_one.low, only_one.high):
                return self
            parts = ((max(only_one.low, low), min(only_one.high, high)) for low, high in known.ranges)
            return Value(self.type, tuple(only_one.between(low, high) for low, high in parts if low <= high))
        return Value(self.type, joined(
            it.between(max(it.low, low), min(it.high, high))
            for it in self.pieces for low, high in known.ranges if max(it.low, low) <= min(it.high, high)
        ))

    def constant(self) -> Optional[int]:
        """The number that it is, whatever the answer is."""
        first = self.pieces[0] if self.pieces else None
        is_one = first and first.kind != LOST and all(it.kind == NUMBER and it.number == first.number for it in self.pieces)
        if first and first.kind == ANSWER and len(self.pieces) == 1 and first.low == first.high:
            return first.at(first.low)
        return first.number if first and is_one and first.kind == NUMBER else None

    def is_one_piece(self) -> bool:
        """Whether it is the same number, or lost in the same way, whatever the answer is: another answer changes nothing of it."""
        first = self.pieces[0] if len(self.pieces) == 1 else None
        return first is not None and first.kind != ANSWER and first.low == NONE and first.high == GREATEST

    def lost(self) -> Optional[Lost]:
        return next((it.lost for it in self.pieces if it.kind == LOST), None)


@dataclass(frozen=True)
class Handle:
    """An object, an event group or a task, by its name in the application file."""

    kind: str
    name: str


@dataclass(frozen=True)
class Reference:
    """`&x` of a local, by its key."""

    local: str


@dataclass(frozen=True)
class Address:
    """The address of an array or a structure, or of a part of one, by its name. What is followed has a key. An element that an index means
    has the key of the index; an element of an array that isn't followed has the array's name in `Lost`."""

    name: str
    key: Optional[str] = None
    index: Optional[str] = None
    array: Optional[str] = field(default=None, compare=False)


@dataclass(frozen=True)
class Stamp:
    """The time of a `stamp`, the one of this number."""

    number: int


@dataclass(frozen=True)
class Stored:
    """What is in a variable of the application, by its name. `missing` says why the local isn't known if the last answer is `none`."""

    name: str
    type: Integer
    missing: Optional[Lost] = None

    def among(self, known: Answers) -> "Stored":
        """The same if the last answer is one of these."""
        return self if known & only(NONE) else replace(self, missing=None)


@dataclass(frozen=True)
class Text:
    """A text, which only a log can take."""


@dataclass(frozen=True)
class Nothing:
    """What a `void` function returns."""


Known = Union[Value, Handle, Reference, Address, Stamp, Stored, Text, Nothing]


def joined(pieces: Iterable[Piece]) -> Tuple[Piece, ...]:
    """The pieces in rising order; neighbours that are the same are joined."""
    found: List[Piece] = []
    for it in sorted(pieces, key=lambda one: one.low):
        last = found[-1] if found else None
        if last and last.high + 1 == it.low and (last.kind, last.number, last.among) == (it.kind, it.number, it.among):
            found[-1] = last.between(last.low, it.high)
        else:
            found.append(it)
    return tuple(found)


def constant(number: int, type_: Integer = INT) -> Value:
    return Value(type_, (Piece(NONE, GREATEST, NUMBER, type_.wrapped(number)),))


def known(value: Value) -> Optional[Value]:
    """The value, if it is a number whatever the last answer is."""
    return value if value.constant() is not None else None


def is_null(value: Optional[Known]) -> bool:
    """Whether the value is 0, and so NULL as a pointer."""
    return isinstance(value, Value) and value.constant() == 0


def steady(value: Known) -> Known:
    """A constant, whatever a later call returns; any other value as it is."""
    number = value.constant() if isinstance(value, Value) else None
    return constant(number, value.type) if isinstance(value, Value) and number is not None else value


def lost(type_: Integer, why: Lost) -> Value:
    return Value(type_, (Piece(NONE, GREATEST, LOST, 0, why),))


def the_answer(type_: Integer, among: Answers = NUMBERS) -> Value:
    """The last answer, one of these numbers, as a value of this type."""
    pieces = tuple(Piece(low, high, ANSWER) for low, high in (among & NUMBERS).ranges)
    return converted(Value(UNSIGNED, pieces), type_)


def is_received() -> Value:
    """What a call returns whose answer is `none` if it failed: 0 then, otherwise 1."""
    return Value(INT, (Piece(NONE, NONE, NUMBER, 0), Piece(0, GREATEST, NUMBER, 1)))


@dataclass(frozen=True)
class Meeting:
    """The last answers of two ways that meet: those of both, and those of one of them alone."""

    first: Answers
    second: Answers
    both: Answers
    only_first: Answers
    only_second: Answers
    all: Answers


def meeting(first: Answers, second: Answers) -> Meeting:
    return Meeting(first, second, first & second, first - second, second - first, first | second)


def either(first: Known, second: Known, of: Meeting, local: str) -> Known:
    """The value of a local of which one way says the first and another way the second: lost if both may be and differ."""
    if isinstance(first, Stored) and isinstance(second, Stored) and first.name == second.name:
        return replace(first, missing=first.among(of.first).missing or second.among(of.second).missing)
    if not isinstance(first, Value) or not isinstance(second, Value):
        return first if first == second else lost(INT, replace(differs(local), instead="the same statements in each of the branches"))
    if first == second and len(first.pieces) == 1 and first.pieces[0].kind == NUMBER:
        return first.among(of.all)
    pieces = [*first.among(of.only_first).pieces, *second.among(of.only_second).pieces]
    for it, other in overlaid(first.among(of.both), second.among(of.both)):
        is_same = (it.kind, it.number) == (other.kind, other.number)
        if LOST in (it.kind, other.kind) or not is_same:
            reason = it.lost if it.kind == LOST else other.lost if other.kind == LOST else differs(local)
            pieces.append(Piece(it.low, it.high, LOST, 0, reason))
        else:
            pieces.append(it)
    return Value(first.type, joined(pieces))


def differs(local: str) -> Lost:
    return Lost(f"`{local.split('@')[0]}` has different values on two ways to this place", local)


def overlaid(left: Value, right: Value) -> Iterator[Tuple[Piece, Piece]]:
    """The pieces of both, cut so that each pair is of the same answers."""
    for it in left.pieces:
        for other in right.pieces:
            low, high = max(it.low, other.low), min(it.high, other.high)
            if low <= high:
                yield it.between(low, high), other.between(low, high)


def converted(value: Value, type_: Integer) -> Value:
    """The value as this type keeps it."""
    return Value(type_, joined(one for it in value.pieces for one in converted_piece(it, type_)))


def converted_piece(piece: Piece, type_: Integer) -> List[Piece]:
    if piece.kind == LOST:
        return [converted_lost(piece, type_)]
    if piece.kind == NUMBER:
        return [Piece(piece.low, piece.high, NUMBER, type_.wrapped(piece.number))]
    if type_ == BOOL:
        return compared_piece(piece, 0, COMPARISONS["!="])
    size = 1 << type_.bits
    turn_of = lambda answer: (piece.at(answer) - type_.least) // size
    first, last = turn_of(piece.low), turn_of(piece.high)
    if last - first > 2:
        return [Piece(piece.low, piece.high, LOST, 0, Lost("this number may be larger than its type, and a script keeps 32 bits"))]
    cuts = [piece.low, *(type_.least + turn * size - piece.number for turn in range(first + 1, last + 1)), piece.high + 1]
    return [
        Piece(low, end - 1, ANSWER, piece.number - (first + at) * size)
        for at, (low, end) in enumerate(zip(cuts, cuts[1:]))
    ]


def converted_lost(piece: Piece, type_: Integer) -> Piece:
    """What is known of a lost number stays known if its type can keep it."""
    among = piece.among
    if type_ == BOOL and among:
        decided = decide("!=", among, answers((0, 0)))
        return piece if decided is None else Piece(piece.low, piece.high, NUMBER, int(decided))
    is_kept = among and type_.least <= among.least() and among.greatest() <= type_.greatest
    return piece if is_kept else Piece(piece.low, piece.high, LOST, 0, piece.lost)


def decide(operator: str, left: Answers, right: Answers) -> Optional[bool]:
    """Whether a comparison holds of all numbers of these, or of none; None if it depends."""
    if operator in ("==", "!="):
        is_same = True if left.single() is not None and left == right else None if left & right else False
        return None if is_same is None else is_same == (operator == "==")
    holds = COMPARISONS[operator]
    found = {holds(it, other) for it in (left.least(), left.greatest()) for other in (right.least(), right.greatest())}
    return found.pop() if len(found) == 1 else None


def compared_piece(piece: Piece, number: int, holds: Callable[[int, int], bool]) -> List[Piece]:
    """1 for the answers for which the comparison with the number holds, and 0 for the others."""
    at = number - piece.number
    parts = [(piece.low, min(piece.high, at - 1)), (max(piece.low, at), min(piece.high, at)), (max(piece.low, at + 1), piece.high)]
    return [Piece(low, high, NUMBER, int(holds(piece.at(low), number))) for low, high in parts if low <= high]


def binary(operator: str, left: Value, right: Value, known: Answers) -> Value:
    """What C computes; lost if a script can't say it without a variable."""
    left, right = left.among(known), right.among(known)
    if operator in SHIFTS:
        type_ = promoted(left.type)
        left = converted(left, type_)
    else:
        type_ = common(left.type, right.type)
        left, right = converted(left, type_), converted(right, type_)
    pieces = [one for it, other in overlaid(left, right) for one in binary_pieces(operator, it, other, type_)]
    return Value(INT if operator in COMPARISONS else type_, joined(pieces))


def binary_pieces(operator: str, left: Piece, right: Piece, type_: Integer) -> List[Piece]:
    low, high = left.low, left.high
    if LOST in (left.kind, right.kind):
        numbers, others = left.numbers(), right.numbers()
        decided = decide(operator, numbers, others) if operator in COMPARISONS and numbers and others else None
        if decided is not None:
            return [Piece(low, high, NUMBER, int(decided))]
        why = left.lost if left.kind == LOST else right.lost
        return [Piece(low, high, LOST, 0, why)]
    is_fixed = left.kind == NUMBER and right.kind == NUMBER
    if is_fixed or left.kind == right.kind and operator in COMPARISONS:
        return [Piece(low, high, *computed(operator, left.number, right.number, type_))]
    if operator in COMPARISONS:
        holds = COMPARISONS[operator]
        if left.kind == ANSWER:
            return compared_piece(left, right.number, holds)
        return compared_piece(right, left.number, lambda answer, number: holds(number, answer))
    if operator == "+" and right.kind != left.kind or operator == "-" and right.kind == NUMBER:
        shift = left.number + (right.number if operator == "+" else -right.number)
        return converted_piece(Piece(low, high, ANSWER, shift), type_)
    if high - low < MOST_PIECES:
        return [Piece(it, it, *computed(operator, left.at(it), right.at(it), type_)) for it in range(low, high + 1)]
    return [Piece(low, high, LOST, 0, Lost(f"`{operator}` with the answer of a call needs a variable"))]


def computed(operator: str, left: int, right: int, type_: Integer) -> Tuple[str, int, Optional[Lost]]:
    """The kind of the piece that this makes, its number, and why it is lost."""
    if operator in COMPARISONS:
        return NUMBER, int(COMPARISONS[operator](left, right)), None
    if operator in "/%" and right == 0:
        return LOST, 0, Lost("a division by 0")
    if operator in SHIFTS:
        if not 0 <= right < type_.bits:
            return LOST, 0, Lost(f"a shift by {right} bits")
        return NUMBER, type_.wrapped(SHIFTS[operator](left, right)), None
    return NUMBER, type_.wrapped(ARITHMETIC[operator](left, right)), None


def unary(operator: str, value: Value, known: Answers) -> Value:
    if operator == "!":
        return binary("==", value, constant(0), known)
    if operator == "-":
        return binary("-", constant(0), value, known)
    if operator == "~":
        return binary("^", value, constant(-1), known)
    return converted(value, promoted(value.type))


def truth(value: Value, known: Answers) -> Answers:
    """The answers for which the value isn't 0."""
    found = converted(value.among(known), BOOL)
    return answers(*((it.low, it.high) for it in found.pieces if it.kind == NUMBER and it.number))


def after_an_answer(known: Known, before: Answers, local: str, by: str, at: Place) -> Known:
    """What is left of a local after another call, at this place: constants."""
    if isinstance(known, Stored):
        missing = known.among(before).missing
        return replace(known, missing=None) if missing is None else lost(known.type, missing)
    if not isinstance(known, Value) or known.is_one_piece():
        return known
    now = known.among(before)
    number = now.constant()
    if number is not None:
        return constant(number, known.type)
    reason = now.lost()
    if reason is None or reason.local is None and any(it.kind != LOST for it in now.pieces):
        name = local.split("@")[0]
        reason = Lost(f"`{name}` holds an answer from before {by}, and a script keeps its last answer only", local, at,
                      "a test right after its call; for a time, `xTaskGetTickCount() - t` in the test itself")
    sets = [it.numbers() for it in now.pieces]
    among = answers(*(one for it in sets if it for one in it.ranges)) if all(sets) else None
    return Value(known.type, (Piece(NONE, GREATEST, LOST, 0, reason, among),))


def numbers_of(value: Value) -> Answers:
    """All answers for which it is known."""
    return answers(*((it.low, it.high) for it in value.pieces if it.kind != LOST))

