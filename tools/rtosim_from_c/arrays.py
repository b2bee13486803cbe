"""Which global arrays are followed element by element, and how large an index may be by all that gives it a value."""
import re
import sys
from typing import TYPE_CHECKING, Dict, FrozenSet, Iterator, List, Optional, Set, Tuple

from . import trees
from .integers import WRITTEN, Integer
from .refusals import Lost
from .trees import MaybeNode, Node

if TYPE_CHECKING:
    from .unit import Unit

# How many elements an array has at most that a variable index is followed in, and one of constants.
MOST_FOLLOWED, MOST_CONSTANTS = 16, 64
INDEX = re.compile(r"\[[^\]]*\]")
ONE_ARRAY = "an index, or a pointer that has the address of one array wherever it is used"
STEPS = ("++", "--", "p++", "p--")
# A local by its function, a global, or a member of any structure.
Name = Tuple[str, str]
# What a function gives a name: an expression, or None if that can't be said.
Gift = Tuple[str, MaybeNode]


def shape(name: str) -> str:
    """The name of an array, whichever elements it is in itself: `lines[].data` of `lines[1].data`."""
    return INDEX.sub("[]", name)


class Arrays:
    """The arrays of a file that are followed, by their shapes; and the bounds of what may be an index of them."""

    def __init__(self, unit: "Unit") -> None:
        self.unit = unit
        self.followed: Set[str] = set()
        self.given: Optional[Dict[Name, List[Gift]]] = None

    def follow(self, array: str) -> bool:
        """Follows the elements of this global array from now on; false if that was so before."""
        if array in self.followed:
            return False
        self.followed.add(array)
        self.unit.fields.follow_again(array)
        return True

    def is_followed(self, name: str) -> bool:
        return bool(self.followed) and shape(name) in self.followed and self.unit.fields.why_not(name) is None

    def led_to(self, member: Optional[str]) -> List[str]:
        """The arrays that are followed and that a pointer may lead to which isn't known, or those that are members of this name."""
        found = [it for it in sorted(self.followed) if member is None or it.split(".")[-1] == member]
        names = [it if "[" not in it else trees.root(it) for it in found]
        return [it for it in names if self.unit.fields.why_not(it) is None]

    def unfollow_all(self, member: Optional[str], line: int) -> bool:
        """Follows none of these arrays any more; false if there was none."""
        why, names = f"line {line} writes by a pointer that isn't known", self.led_to(member)
        return any([self.unit.fields.unfollow(it, Lost(f"`{it}` isn't followed: {why}", instead=ONE_ARRAY)) for it in names])

    def is_named(self, node: Node) -> bool:
        """Whether a node names an array that is followed."""
        if not self.followed or trees.kind(node) not in ("ID", "StructRef"):
            return False
        is_member = trees.kind(node) == "StructRef"
        found = (it.split(".")[-1] if is_member else trees.root(it) for it in self.followed if ("." in it) >= is_member)
        return (node.field.name if is_member else node.name) in found

    # -- bounds

    def bound(self, function: str, node: Node) -> Optional[int]:
        """The greatest number that an index may be, if it and all that gives its names values say so; None otherwise."""
        return self.greatest(function, node, frozenset())

    def name_of(self, function: str, node: Node) -> Optional[Name]:
        if trees.kind(node) == "StructRef":
            return ".", node.field.name
        if trees.kind(node) != "ID":
            return None
        return (function if function and self.unit.is_local(function, node.name) else ""), node.name

    def bound_of(self, name: Name, seen: FrozenSet[Name]) -> Optional[int]:
        if name in seen:
            return 0
        if self.given is None:
            self.given = self.all_given()
        given = self.given.get(name, [("", None)])
        found = [self.greatest(function, it, seen | {name}) if it is not None else None for function, it in given]
        return None if None in found else max((it for it in found if it is not None), default=0)

    def greatest(self, function: str, node: Node, seen: FrozenSet[Name]) -> Optional[int]:
        """The greatest number that an expression may be; None if that isn't known, or if it may be negative."""
        value = self.unit.constants.value(node)
        if value is not None:
            return value.constant() if (value.constant() or 0) >= 0 else None
        kind = trees.kind(node)
        if kind == "Cast":
            type_, found = self.unit.constants.type_of(node.to_type), self.greatest(function, node.expr, seen)
            return found if found is not None and isinstance(type_, Integer) and found <= type_.greatest else None
        if kind == "TernaryOp":
            ways = [self.greatest(function, it, seen) for it in (node.iftrue, node.iffalse)]
            return None if None in ways else max(it for it in ways if it is not None)
        number = self.unit.constants.value(node.right) if kind == "BinaryOp" and node.op in ("%", "&") else None
        if number is not None and (number.constant() or 0) > 0 and (node.op == "&" or self.is_positive(function, node.left, seen)):
            return (number.constant() or 0) - (node.op == "%")
        name = self.name_of(function, node)
        return self.bound_of(name, seen) if name is not None else None

    def is_positive(self, function: str, node: Node, seen: FrozenSet[Name]) -> bool:
        """Whether an expression is surely not negative: a sum of what isn't."""
        node = trees.plain(node)
        value = self.unit.constants.value(node)
        if value is not None:
            return (value.constant() or 0) >= 0
        if trees.kind(node) == "BinaryOp" and node.op == "+":
            return self.is_positive(function, node.left, seen) and self.is_positive(function, node.right, seen)
        name = self.name_of(function, node)
        return name is not None and (name in seen or not self.has_sign(name))

    def has_sign(self, name: Name) -> bool:
        """Whether a name may be negative by its type."""
        where, text = name
        if where == ".":
            nodes = [it for it in self.members() if it.name == text]
        elif not where:
            nodes = [self.unit.globals[text]] if text in self.unit.globals else []
        else:
            body = self.unit.functions[where]
            nodes = [it for it in trees.walk(body) if trees.kind(it) == "Decl" and it.name == text]
        types = [self.unit.constants.type_of(it) for it in nodes]
        return not types or any(not isinstance(it, Integer) or it.is_signed for it in types)

    def members(self) -> Iterator[Node]:
        """The declarations of the members of all structures of the file."""
        constants = self.unit.constants
        for it in (*constants.structures.values(), *constants.typedefs.values(), *self.unit.globals.values()):
            whole = constants.structure(it)
            yield from (one for one in trees.walk(whole) if trees.kind(one) == "Decl") if whole is not None else ()

    def all_given(self) -> Dict[Name, List[Gift]]:
        """All that names and members are given."""
        found: Dict[Name, List[Gift]] = {}
        for name, it in self.unit.globals.items():
            found["", name] = [("", it.init)] if it.init is not None else []
            whole = self.unit.constants.structure(it) or self.unit.constants.structure(trees.element(it))
            if it.init is not None and whole is not None and not self.is_zeros(it.init):
                found.update({(".", one.name): [("", None)] for one in trees.walk(whole) if trees.kind(one) == "Decl"})
        for function, definition in self.unit.functions.items():
            for it in trees.parameters_of(definition):
                found[function, it.name] = [("", None)]
            for it in trees.walk(definition.body):
                given = self.given_by(function, it)
                if given is not None:
                    found.setdefault(given[0], []).append((function, given[1]))
        return found

    def is_zeros(self, node: Node) -> bool:
        """Whether an initializer is `{ 0 }`."""
        given = node.exprs if trees.kind(node) == "InitList" else []
        return len(given) == 1 and self.unit.is_zero(given[0], given)

    def given_by(self, function: str, node: Node) -> Optional[Tuple[Name, MaybeNode]]:
        """What a node gives a name or a member; None if it gives nothing."""
        kind = trees.kind(node)
        if kind == "Decl":
            return ((function, node.name), node.init) if node.name and node.init is not None else None
        target = node.lvalue if kind == "Assignment" else node.expr if kind == "UnaryOp" and node.op in (*STEPS, "&") else None
        name = self.name_of(function, target) if target is not None else None
        if name is None:
            return None
        if kind != "Assignment" or WRITTEN.get(node.op) not in (None, "&", "%"):
            return name, None
        return name, node.rvalue if node.op == "=" else less(node)


def less(node: Node) -> Node:
    """What `&=` and `%=` give, as an expression."""
    return sys.modules[type(node).__module__].BinaryOp(node.op[0], node.lvalue, node.rvalue, node.coord)
