"""Variables: globals, and locals that the last answer doesn't keep well enough. It is for a program that knows them (`families.py`).

A read is `load`, a write `store`; arithmetic is done with the last answer and a number or a variable."""
import re
from dataclasses import replace
from typing import Dict, Iterable, List, Optional, Set, Tuple, Union

from . import trees
from .answers import GREATEST, NONE, NUMBERS, Answers, answers, only
from .calls import Argument
from .cells import NotKnown
from .core import Compared, Test
from .expressions import NOT_SET, Written
from .families import Family, Target
from .frames import both
from .integers import BOOL, COMPARISONS, INT, UNSIGNED, Integer, common, promoted
from .items import If, Op
from .loops import Loops
from .paths import Path
from .refusals import Lost, LostUse, Refusal
from .statements import MIRRORED
from .trees import MaybeNode, Node
from .unit import GLOBAL, Handler, Task, Unit
from .values import ANSWER, LOST, NUMBER, Handle, Known, Piece, Stored, Value, binary, constant, converted, lost, steady, the_answer

SIZE = 1 << 32
SIGN = 1 << 31
OPS = {"+": "add", "-": "sub", "*": "mul", "/": "div", "%": "mod", "&": "and", "|": "or", "^": "xor"}
COMMUTATIVE = "+*&|^"
# The condition of the last answer and a variable, and whether the comparison holds if that condition does.
CONDITIONS = {"==": ("{}", True), "!=": ("{}", False), "<": ("below {}", True), ">=": ("below {}", False), ">": ("above {}", True),
              "<=": ("above {}", False)}


class Memory(Loops):
    """What needs variables, if the program knows them. Without that everything here is left to the refusals."""

    # Whether a local may be a variable; otherwise ways go on apart when another answer overwrites it.
    uses_memory = False
    # The comparison that is a condition, and what it asks for.
    testing: MaybeNode = None
    tested: Optional[Compared] = None

    def __init__(self, unit: Unit, target: Target, owner: Union[Task, Handler]) -> None:
        super().__init__(unit, target, owner)
        # The variables that others may change.
        self.shared: Set[str] = set()

    @property
    def has_variables(self) -> bool:
        return Family.VARIABLES in self.target

    def test(self, node: Node, path: Path) -> Test:
        """What a condition asks of the last answer: a comparison with a variable is a condition of its own."""
        before, self.testing = self.testing, node
        try:
            value = self.evaluate(node, path)
        finally:
            self.testing = before
        found, self.tested = self.tested, None
        return self.truth(value, node, path) if found is None else found

    def variable(self, key: str, type_: Integer, initial: int = 0) -> Stored:
        """The variable of a local, a global or a value between."""
        scope, shown = "" if key.startswith(GLOBAL) else self.owner.name, key.split("@")[0].replace(GLOBAL, "")
        root, *members = re.sub(r"\[(\d+)\]", r"_\1", shown).split(".")
        shown = ".".join((self.unit.shown.get(root, root), *members))
        name = self.unit.names.name(f"variable {scope}", key, shown if shown.replace(".", "_").isidentifier() else "t")
        if key.startswith(GLOBAL):
            self.shared.add(name)
        if type_.bits > UNSIGNED.bits and not 0 <= type_.wrapped(initial) <= GREATEST:
            raise Refusal(self.owner.place, f"`{shown}` has more than 32 bits at reset, and a script has 32", "types of 32 bits")
        self.unit.variables.setdefault(name, UNSIGNED.wrapped(type_.wrapped(initial)))
        return Stored(name, type_)

    # -- reads and writes

    def load(self, stored: Stored, node: Node, path: Path) -> Value:
        self.there(stored, node, path)
        if self.is_answer_now(stored, path):
            return the_answer(stored.type, path.state.answers)
        self.op(f"load {stored.name}", node, path)
        return self.is_answered(numbers_in_memory(stored.type), stored.type, node, path)

    def is_answer_now(self, stored: Stored, path: Path) -> bool:
        """Whether the last op has stored or loaded this variable, and nobody else changes it: it is one of a local."""
        last = path.items[-1] if path.items else None
        words = last.text.split() if isinstance(last, Op) else []
        return stored.name not in self.shared and words[:1] in (["store"], ["load"]) and words[1] == stored.name

    def is_answered(self, among: Answers, type_: Integer, node: Node, path: Path) -> Value:
        """The last answer is one of these now, and a value of this type."""
        path.state = path.state.answered(among, f"what line {self.place(node).line} reads", self.place(node))
        return the_answer(type_, among)

    def store(self, stored: Stored, value: Known, node: Node, path: Path) -> None:
        """Gives the variable a value, which is the last answer then."""
        value = self.within(self.known(self.integer(value, node), node, path), node, path)
        if value.constant() is not None:
            number = UNSIGNED.wrapped(value.constant() or 0)
            self.op(f"store {stored.name} {number}", node, path)
            self.is_answered(only(number), stored.type, node, path)
            return
        self.each_part(value, node, path, stored)

    def to_answer(self, value: Value, node: Node, path: Path) -> None:
        """Makes the last answer the value, with 32 bits."""
        self.each_part(self.within(self.known(value, node, path), node, path), node, path, None)

    def within(self, value: Known, node: Node, path: Path, least: int = 0, greatest: int = GREATEST) -> Known:
        """The value, if an op keeps all of its bits: one of 64 bits must be a number of 32 bits without a sign."""
        found = bounds(value, path) if value.type.bits > UNSIGNED.bits else None
        if found is not None and not least <= found[0] <= found[1] <= greatest:
            raise self.too_large(node)
        return value

    def too_large(self, node: Node) -> Refusal:
        return self.refuse(node, "this may need more than 32 bits, and a script has 32",
                           "types of 32 bits; or --ignore NAME for a variable on which nothing depends")

    def each_part(self, value: Value, node: Node, path: Path, stored: Optional[Stored]) -> None:
        """Makes the last answer a value that is known, for each answer by which it is another one; and perhaps gives it to a variable."""
        parts: Dict[Tuple[str, int], List[Tuple[int, int]]] = {}
        for it in value.pieces:
            is_answer = it.kind == NUMBER and it.low == it.high == it.number
            parts.setdefault((ANSWER, 0) if is_answer else (it.kind, it.number % SIZE), []).append((it.low, it.high))

        def set_part(fork: Path) -> None:
            kind, number = next(part for part, ranges in parts.items() if answers(*ranges) & fork.state.answers)
            if kind == NUMBER:
                self.answer_number(number, node, fork, stored)
                return
            if number:
                among = fork.state.answers
                self.op(f"add {number}", node, fork)
                self.is_answered(shifted(among, number), UNSIGNED, node, fork)
            if stored is not None:
                self.op(f"store {stored.name} answer", node, fork)
        if len(parts) == 1:
            return set_part(path)
        if stored is not None and cut_alike(parts, stored.type):
            return self.store_cut(next(iter(parts))[1], stored, node, path)
        self.meet(path, lambda end: self.split(path, [answers(*it) for it in parts.values()], both(set_part, end), node))
        return None

    def store_cut(self, number: int, stored: Stored, node: Node, path: Path) -> None:
        """Gives a variable the last answer and a number, without the bits that its type doesn't keep."""
        greatest = (1 << stored.type.bits) - 1
        if number & greatest:
            self.op(f"add {number & greatest}", node, path)
            self.is_answered(NUMBERS, UNSIGNED, node, path)
        self.op(f"and {greatest}", node, path)
        self.is_answered(answers((0, greatest)), UNSIGNED, node, path)
        self.op(f"store {stored.name} answer", node, path)

    def answer_number(self, number: int, node: Node, path: Path, stored: Optional[Stored]) -> None:
        """Makes the last answer a number, which a variable is given; a spare one, if none is."""
        if stored is None and path.state.answers == only(number):
            return
        name = (stored or self.variable("spare", UNSIGNED)).name
        self.op(f"store {name} {number}", node, path)
        self.is_answered(only(number), UNSIGNED, node, path)

    def is_variable(self, name: str) -> bool:
        return self.has_variables and self.unit.is_followed(name) and isinstance(self.unit.constants.type_of(self.unit.globals[name]), Integer)

    def can_mark(self) -> bool:
        return self.has_variables and not self.is_handler

    def mark_way(self, node: Node, path: Path, is_return: bool) -> None:
        number = self.marks[node][not is_return] if node in self.marks else None
        if number is not None and not path.is_over:
            self.answer_number(number, node, path, None)

    def read_global(self, node: Node, path: Path) -> Known:
        why = self.unit.fields.why_not(node.name) if self.is_variable(node.name) else None
        if why is not None:
            return lost(INT, why)
        stored = self.stored_global(node)
        return super().read_global(node, path) if stored is None else self.load(stored, node, path)

    def stored_global(self, node: Node) -> Optional[Stored]:
        """The variable of a global; None if it is none."""
        declaration = self.unit.globals.get(getattr(node, "name", None)) if self.has_variables else None
        type_ = self.unit.constants.type_of(declaration) if declaration is not None else None
        if not isinstance(type_, Integer) or self.is_ignored(node) or self.unit.fields.why_not(node.name) is not None:
            return None
        initial = self.unit.reset.value(node.name)
        why = self.unit.reset.why(node.name)
        if why is not None:
            self.note(node, f"`{node.name}` isn't known at reset, where it is 0 here: in line {why.place.line} {why.why}", True)
        return self.variable(GLOBAL + node.name, type_, (initial.constant() or 0) if isinstance(initial, Value) else 0)

    def write_global(self, target: Node, value: Value, node: Node, path: Path) -> Known:
        if self.is_variable(target.name) and self.unit.fields.why_not(target.name) is not None:
            self.note(target, f"`{target.name}` isn't followed: this write is left out")
            return value
        stored = self.stored_global(target)
        if stored is None:
            return super().write_global(target, value, node, path)
        why = value.among(path.state.answers).lost() if isinstance(value, Value) else None
        if why is not None and why.local is None and target.name not in self.unit.names_read():
            self.note(target, f"`{target.name}` is read nowhere, and {why.why}: this write is left out")
            return value
        self.store(stored, self.fitted(value, stored.type, node, path), node, path)
        return the_answer(stored.type, path.state.answers)

    def put(self, key: str, value: Known, node: Node, path: Path) -> None:
        """Keeps a value under this key: a variable if the last answer doesn't keep it."""
        if key not in self.in_memory or not isinstance(value, Value):
            return super().put(key, value, node, path)
        type_ = self.types.get(key)
        stored = self.variable(key, type_ if isinstance(type_, Integer) else value.type)
        now = value.among(path.state.answers)
        if not all(it.kind == LOST for it in now.pieces):
            self.store(stored, value, node, path)
        elif now.lost() != NOT_SET:
            return self.put_lost(key, value, now.lost(), node, path)
        path.state = path.state.with_local(key, stored)
        return None

    def put_lost(self, key: str, value: Value, why: Lost, node: Node, path: Path) -> None:
        """A value that isn't known: it may be known in a variable the next time."""
        if why.local is not None:
            raise LostUse(self.place(node), why)
        return super().put(key, value, node, path)

    def read_local(self, key: str, node: Node, path: Path) -> Known:
        found = super().read_local(key, node, path)
        return self.load(found, node, path) if isinstance(found, Stored) else found

    def taken(self, key: str, path: Path, node: MaybeNode = None) -> Known:
        found = super().taken(key, path)
        return self.load(found, node, path) if isinstance(found, Stored) and node is not None else found

    def written(self, key: str, value: Known, path: Path) -> Known:
        found = path.state.locals.get(key)
        return the_answer(found.type, path.state.answers) if isinstance(found, Stored) else value

    def static(self, node: Node, type_: Integer, path: Path) -> None:
        """A static local is a variable of its function."""
        if not self.has_variables:
            return super().static(node, type_, path)
        before = self.unit.reset.cells.get(f"{node.name}@{self.frame.function}")
        if isinstance(before, NotKnown):
            self.note(node, f"`{node.name}` isn't known at reset, where it is as declared here: in line {before.place.line} {before.why}", True)
        declared = self.unit.constants.value(node.init) if node.init is not None else None
        initial = before if isinstance(before, Value) else declared
        key = f"{GLOBAL}{node.name}@{self.frame.function}"
        self.frame.scopes[-1][node.name] = key
        self.types[key] = type_
        self.in_memory.add(key)
        stored = self.variable(key, type_, (initial.constant() or 0) if initial is not None else 0)
        path.state = path.state.with_local(key, stored)
        return None

    def operand(self, node: Node, path: Path) -> Known:
        """An operand of arithmetic: a variable is left where it is, since an op can name it."""
        inner = trees.plain(node)
        if inner is not node or trees.kind(inner) != "ID" or not self.has_variables:
            return self.evaluate(node, path)
        key = self.frame.local(inner.name)
        found = path.state.locals.get(key) if key is not None else self.stored_global(inner) if self.is_global(inner) else None
        return self.there(found, node, path) if isinstance(found, Stored) else self.evaluate(node, path)

    def there(self, stored: Stored, node: Node, path: Path) -> Stored:
        """A variable that has what its local is in C, whatever the last answer is."""
        found = stored.among(path.state.answers)
        if found.missing is not None:
            raise LostUse(self.place(node), found.missing)
        return found

    def is_global(self, node: Node) -> bool:
        return node.name in self.unit.globals and node.name not in self.unit.constants.numbers

    # -- arithmetic

    def arithmetic(self, node: Node, left: Known, right: Known, path: Path) -> Value:
        if not self.has_variables:
            return super().arithmetic(node, left, right, path)
        left, right = steady(left), steady(right)
        left = self.loaded_if_alone(left, right, node, path)
        right = self.loaded_if_alone(right, left, node, path)
        if isinstance(left, Value) and isinstance(right, Value):
            found = binary(node.op, left, right, path.state.answers)
            if found.lost() is None:
                return found
        reasons = [it.among(path.state.answers).lost() for it in (left, right) if isinstance(it, Value)]
        why = next((it for it in reasons if it is not None), None)
        if why is not None:
            return lost(INT if node.op in COMPARISONS else common(left.type, right.type), why)
        return self.compared(node, left, right, path) if node.op in COMPARISONS else self.computed(node, left, right, path)

    def loaded_if_alone(self, value: Known, other: Known, node: Node, path: Path) -> Known:
        """A variable beside a constant is loaded; beside another value it stays, so that both are known at once."""
        is_alone = isinstance(value, Stored) and isinstance(other, Value) and other.constant() is not None
        return self.load(value, node, path) if is_alone else value

    def computed(self, node: Node, left: Known, right: Known, path: Path) -> Value:
        operator = node.op
        if operator in ("<<", ">>"):
            return self.shift(node, left, right, path)
        type_ = common(left.type, right.type)
        self.check_bits(operator, left, right, type_, node, path)
        number = right.constant() if isinstance(right, Value) else None
        if operator in "/%" and (type_.is_signed or left.type.is_signed):
            return self.signed_division(node, left, number, path)
        if number is None and not isinstance(right, Stored):
            if operator in COMMUTATIVE:
                left, right = right, left
                number = right.constant() if isinstance(right, Value) else None
            if number is None and not isinstance(right, Stored):
                right = self.set_aside("right", right, node, path)
        self.bring(left, node, path)
        by = None if number is None else UNSIGNED.wrapped(number)
        self.op(f"{OPS[operator]} {right.name if isinstance(right, Stored) else by}", node, path)
        return self.is_answered(results(operator, by), type_, node, path)

    def check_bits(self, operator: str, left: Known, right: Known, type_: Integer, node: Node, path: Path) -> None:
        """Refuses what C computes with 64 bits, unless all numbers of it surely have 32 bits and no sign."""
        if type_.bits <= UNSIGNED.bits:
            return
        (low, high), (least, most) = bounds(left, path), bounds(right, path)
        highest = {"+": high + most, "-": high, "*": high * most, "<<": high << min(most, 64), "|": high + most, "^": high + most}.get(operator, high)
        lowest = low - most if operator == "-" else min(low, least)
        is_signed = operator in "/%" and (type_.is_signed or left.type.is_signed)
        if lowest < 0 or max(high, most, highest) > (INT.greatest if is_signed else GREATEST):
            raise self.too_large(node)

    def of_BinaryOp(self, node: Node, path: Path) -> Known:
        """What is multiplied with 64 bits and divided by the same number is as before, as `pdMS_TO_TICKS` has it."""
        product = trees.plain(node.left)
        numbers = [self.unit.constants.value(it.right) if trees.kind(it) == "BinaryOp" else None for it in (node, product)]
        is_same = node.op == "/" and getattr(product, "op", "") == "*" and all(numbers) and numbers[0].constant() == numbers[1].constant()
        if is_same and numbers[0].constant() and numbers[0].type.bits > UNSIGNED.bits and self.unit.constants.value(node) is None:
            value = self.evaluate(product.left, path)
            if isinstance(value, Value) and value.type.bits > UNSIGNED.bits:
                return value
            return super().arithmetic(node, value, constant(1), path)
        return super().of_BinaryOp(node, path)

    def bring(self, value: Known, node: Node, path: Path) -> None:
        """Makes a value the last answer."""
        if isinstance(value, Stored):
            self.load(value, node, path)
        else:
            self.to_answer(value, node, path)

    def set_aside(self, name: str, value: Known, node: Node, path: Path) -> Stored:
        stored = self.variable(f"{name}@{self.spot(node)}", value.type)
        self.store(stored, value, node, path)
        return stored

    def shift(self, node: Node, left: Known, right: Known, path: Path) -> Value:
        number = right.constant() if isinstance(right, Value) else None
        type_ = promoted(left.type)
        if number is None or not 0 <= number < 32 or node.op == ">>" and left.type.is_signed:
            raise self.refuse(node, "a shift by what isn't constant, or of what may be negative, has no op", "unsigned types and constants")
        self.check_bits(node.op, left, right, type_, node, path)
        self.bring(left, node, path)
        self.op(f"{'mul' if node.op == '<<' else 'div'} {1 << number}", node, path)
        return self.is_answered(NUMBERS, type_, node, path)

    def signed_division(self, node: Node, left: Known, number: Optional[int], path: Path) -> Value:
        """A division by a positive constant, rounded toward 0."""
        if number is None or number <= 0:
            raise self.refuse(node, "a division of signed numbers by what is no positive constant has no op", "unsigned types")
        self.bring(left, node, path)

        def negative(fork: Path) -> None:
            for op in (f"mul {GREATEST}", f"{OPS[node.op]} {number}", f"mul {GREATEST}"):
                self.op(op, node, fork)
            self.is_answered(NUMBERS, INT, node, fork)

        def positive(fork: Path) -> None:
            self.op(f"{OPS[node.op]} {number}", node, fork)
            self.is_answered(results(node.op, number) & answers((0, SIGN - 1)), INT, node, fork)
        wanted = answers((SIGN, GREATEST))
        self.meet(path, lambda end: self.branch(
            path, wanted, both(negative, end), both(positive, end), node))
        return the_answer(INT, path.state.answers)

    def compared(self, node: Node, left: Known, right: Known, path: Path) -> Value:
        """A comparison of two values that aren't constant: 1 or 0 as the last answer; of a condition what that asks for."""
        operator = node.op
        self.check_bits(operator, left, right, common(left.type, right.type), node, path)
        if isinstance(left, Stored) and isinstance(right, Value):
            operator, left, right = MIRRORED[operator], right, left
        may_be_negative = not (never_negative(left, path) and never_negative(right, path))
        is_signed = common(left.type, right.type).is_signed and operator not in ("==", "!=") and may_be_negative
        if is_signed or not isinstance(right, Stored):
            right = self.biased("right", right, is_signed, node, path, left)
            left = self.left_of_two
        if is_signed:
            left = self.biased("left", left, True, node, path, None)
        self.bring(left, node, path)
        condition, holds = CONDITIONS[operator]
        if node is self.testing:
            self.tested = Compared(condition.format(right.name), holds)
            return constant(1)
        spare = self.variable("spare", UNSIGNED)
        place = self.place(node)
        ways = tuple((Op(f"store {spare.name} {int(it)}", place),) for it in (holds, not holds))
        path.items.append(If(condition.format(right.name), *ways, place))
        return self.is_answered(only(0, 1), INT, node, path)

    def biased(self, name: str, value: Known, is_signed: bool, node: Node, path: Path, other: Optional[Known]) -> Stored:
        """A value in a variable, for a comparison as of unsigned numbers; the other one is set aside first if this would take it."""
        if other is not None:
            self.left_of_two = other
            if isinstance(other, Value) and other.constant() is None:
                self.left_of_two = self.both_aside(other, value, node, path)
                value = self.right_of_two
        self.bring(value, node, path)
        if is_signed:
            self.op(f"xor {SIGN}", node, path)
            self.is_answered(NUMBERS, UNSIGNED, node, path)
        return self.set_aside(name, the_answer(UNSIGNED, path.state.answers), node, path)

    def both_aside(self, left: Value, right: Known, node: Node, path: Path) -> Stored:
        """Two values of one answer, each in a variable: the answer itself is set aside for the second."""
        if isinstance(right, Stored):
            self.right_of_two = right
            return self.set_aside("first", left, node, path)
        raise self.refuse(node, "a comparison of two values of one answer has no op", "a local for one of them")

    def unary(self, node: Node, value: Value, path: Path) -> Value:
        if self.has_variables and node.op == "~":
            return self.arithmetic(Written("^", node), value, constant(-1), path)
        if self.has_variables and node.op == "-":
            return self.arithmetic(Written("*", node), value, constant(-1), path)
        return super().unary(node, value, path)

    def fitted(self, value: Value, type_: Integer, node: Node, path: Path) -> Value:
        """The value as its type keeps it: what is too large loses its upper bits."""
        found = converted(value, type_)
        before = value.among(path.state.answers).lost()
        if not self.has_variables or before is not None or found.among(path.state.answers).lost() is None or type_ == BOOL:
            return found
        self.to_answer(value, node, path)
        self.op(f"and {(1 << type_.bits) - 1}", node, path)
        self.is_answered(answers((0, (1 << type_.bits) - 1)), UNSIGNED, node, path)
        if type_.is_signed:
            half = 1 << (type_.bits - 1)
            self.op(f"xor {half}", node, path)
            self.op(f"sub {half}", node, path)
            self.is_answered(numbers_in_memory(type_), UNSIGNED, node, path)
        return the_answer(type_, path.state.answers)

    # -- items and marks

    def number_or_answer(self, value: Known, argument: Argument, node: Node, path: Path) -> str:
        if not self.has_variables or isinstance(value, Value) and value.among(path.state.answers).constant() is not None:
            return super().number_or_answer(value, argument, node, path)
        self.bring(self.integer(value, node), node, path)
        return "answer"

    def item_of_answer(self, value: Value, queue: Handle, node: Node, path: Path) -> str:
        if not self.has_variables:
            return super().item_of_answer(value, queue, node, path)
        self.to_answer(value, node, path)
        self.unit.with_large_items.add(queue.name)
        return "answer"

    def keep_received(self, key: str, missing: Piece, node: Node, path: Path) -> None:
        """Puts what was received into a variable, unless nothing was. After a wait for a notification the variable is then not what
        the local is in C, so it isn't known as long as the last answer may be `none`."""
        if key not in self.in_memory:
            return super().keep_received(key, missing, node, path)
        keeps = isinstance(path.state.locals.get(key), Stored) and missing.lost is not None and missing.lost.local == key
        stored = self.variable(key, self.types[key])

        def keep(fork: Path) -> None:
            self.op(f"store {stored.name} answer", node, fork)
        self.meet(path, lambda end: self.branch(path, NUMBERS, both(keep, end), end, node))
        path.state = path.state.with_local(key, stored if keeps else replace(stored, missing=missing.lost))
        return None

    def learns(self, why: Lost) -> bool:
        """A value that the last answer doesn't keep is a variable the next time."""
        if not self.has_variables or not self.uses_memory or why.local is None:
            return super().learns(why)
        is_new = why.local not in self.in_memory
        self.in_memory.add(why.local)
        return is_new


def bounds(value: Known, path: Path) -> Tuple[int, int]:
    """The least and the greatest number that a value may be."""
    if isinstance(value, Stored):
        return max(0, value.type.least) if value.type.bits > UNSIGNED.bits else value.type.least, min(GREATEST, value.type.greatest)
    numbers = [it for it in (one.numbers() for one in value.among(path.state.answers).pieces) if it]
    return min((it.least() for it in numbers), default=0), max((it.greatest() for it in numbers), default=0)


def results(operator: str, number: Optional[int]) -> Answers:
    """What an op on 32 bits and this number may be."""
    if number and operator == "%":
        return answers((0, number - 1))
    if number and operator == "/":
        return answers((0, GREATEST // number))
    return answers((0, number)) if number is not None and operator == "&" else NUMBERS


def cut_alike(parts: Iterable[Tuple[str, int]], type_: Integer) -> bool:
    """Whether these parts of a value are the last answer and a number, and an unsigned type keeps the same bits of them."""
    is_small = not type_.is_signed and 1 < type_.bits < UNSIGNED.bits
    return is_small and all(kind == ANSWER for kind, _ in parts) and len({number % (1 << type_.bits) for _, number in parts}) == 1


def never_negative(value: Known, path: Path) -> bool:
    """Whether it is surely none of the numbers that are below 0."""
    if isinstance(value, Stored):
        return not value.type.is_signed and value.type.bits < UNSIGNED.bits
    numbers = [it.numbers() for it in value.among(path.state.answers).pieces]
    return all(it is not None and bool(it) and it.least() >= 0 and it.greatest() <= INT.greatest for it in numbers)


def numbers_in_memory(type_: Integer) -> Answers:
    """The 32 bits that a variable of this type may have."""
    if not type_.is_signed:
        return answers((0, min(GREATEST, type_.greatest)))
    return answers((0, type_.greatest), (SIZE + type_.least, GREATEST)) if type_.bits <= 32 else NUMBERS


def shifted(among: Answers, number: int) -> Answers:
    """These answers and a number, with 32 bits."""
    found = []
    for low, high in among.ranges:
        first, last = low + number, high + number
        if first // SIZE == last // SIZE:
            found.append((first % SIZE, last % SIZE))
        else:
            found += [(first % SIZE, GREATEST), (0, last % SIZE)]
    return answers(*(it for it in found if it[0] > NONE))
