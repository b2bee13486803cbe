"""The integer types of C on a machine with 32 bits, and how constants of these types are computed."""
from dataclasses import dataclass
from typing import Callable, Dict, Optional, Sequence


@dataclass(frozen=True)
class Integer:
    """An integer type: its bits, and whether it has a sign. That of `bool` has one bit."""

    bits: int
    is_signed: bool

    @property
    def least(self) -> int:
        return -(1 << (self.bits - 1)) if self.is_signed else 0

    @property
    def greatest(self) -> int:
        return (1 << (self.bits - self.is_signed)) - 1

    def wrapped(self, number: int) -> int:
        """The number as this type keeps it."""
        if self == BOOL:
            return int(number != 0)
        return (number - self.least) % (1 << self.bits) + self.least


BOOL = Integer(1, False)
INT, UNSIGNED = Integer(32, True), Integer(32, False)
LONG_LONG = Integer(64, True)

# The operators of assignments, each with that of the arithmetic that it does.
WRITTEN: Dict[str, Optional[str]] = {
    "=": None, "+=": "+", "-=": "-", "*=": "*", "/=": "/", "%=": "%", "&=": "&", "|=": "|", "^=": "^", "<<=": "<<", ">>=": ">>",
}

# The names in a declaration, sorted, without `int` if another name is there.
NAMED: Dict[str, Integer] = {
    "_Bool": BOOL, "bool": BOOL,
    "char": Integer(8, False), "char signed": Integer(8, True), "char unsigned": Integer(8, False),
    "short": Integer(16, True), "short signed": Integer(16, True), "short unsigned": Integer(16, False),
    "int": INT, "signed": INT, "unsigned": UNSIGNED, "long": INT, "long signed": INT, "long unsigned": UNSIGNED,
    "long long": LONG_LONG, "long long signed": LONG_LONG, "long long unsigned": Integer(64, False),
}


def named(names: Sequence[str]) -> Optional[Integer]:
    """The type that these words of a declaration name; None if it is none of integers."""
    words = sorted(it for it in names if it != "int") or ["int"]
    return NAMED.get(" ".join(words))


def promoted(type_: Integer) -> Integer:
    return INT if type_.bits < 32 else type_


def common(left: Integer, right: Integer) -> Integer:
    """The type in which an operator computes with two operands."""
    left, right = promoted(left), promoted(right)
    if left.bits != right.bits:
        return left if left.bits > right.bits else right
    return right if left.is_signed else left


def quotient(left: int, right: int) -> int:
    """As C divides: rounded toward 0."""
    whole = abs(left) // abs(right)
    return whole if (left < 0) == (right < 0) else -whole


ARITHMETIC: Dict[str, Callable[[int, int], int]] = {
    "+": lambda a, b: a + b, "-": lambda a, b: a - b, "*": lambda a, b: a * b,
    "/": quotient, "%": lambda a, b: a - quotient(a, b) * b,
    "&": lambda a, b: a & b, "|": lambda a, b: a | b, "^": lambda a, b: a ^ b,
}
SHIFTS: Dict[str, Callable[[int, int], int]] = {"<<": lambda a, b: a << b, ">>": lambda a, b: a >> b}
COMPARISONS: Dict[str, Callable[[int, int], bool]] = {
    "==": lambda a, b: a == b, "!=": lambda a, b: a != b, "<": lambda a, b: a < b,
    "<=": lambda a, b: a <= b, ">": lambda a, b: a > b, ">=": lambda a, b: a >= b,
}
