"""Elements of arrays: each is a variable or a local of its own. An index that isn't constant chooses among them by branches.

An array is followed so only if what is read from it decides something. Until then it is left out, as `addresses.py` says."""
import contextlib
from dataclasses import replace
from typing import Callable, Dict, Iterator, List, Optional, Set, Tuple, Union

from . import trees
from .addresses import NOWHERE, SOMEWHERE, Escaped, is_address
from .answers import NOTHING, Answers
from .arrays import MOST_CONSTANTS, MOST_FOLLOWED, ONE_ARRAY, STEPS, shape
from .families import Target
from .integers import INT, UNSIGNED, Integer
from .paths import Path
from .pointees import OF_ITS_TYPE, Pointees
from .refusals import Lost, LostUse
from .shared import ANY, is_shared
from .structures import STRUCTURE
from .trees import MaybeNode, Node
from .unit import Handler, Task, Unit
from .values import Address, Known, Reference, Stored, Value, binary, constant, converted, lost, the_answer, truth

SMALLER = "an array with fewer elements, by `#ifdef RTOSIM`"
HELD = "held@"
MOVED = ("is led to by a pointer that was moved", "a constant index, or the array itself with an index")
MOST_CASES = 8
# The last answers for each element that an index means; None for what is beyond the array.
Part = Tuple[Answers, Optional[int]]


class Elements(Pointees):
    """Arrays of integers and of structures."""

    def __init__(self, unit: Unit, target: Target, owner: Union[Task, Handler]) -> None:
        super().__init__(unit, target, owner)
        # Arrays that are locals, or members of locals, and are followed.
        self.local_arrays: Set[str] = set()
        # Indices that are computed once for a read and a write.
        self.held: Dict[Node, str] = {}
        # Arrays in which an index that isn't constant was followed.
        self.arrays_named: List[str] = []
        # What an index is at most, by its key, if that is known.
        self.bounds: Dict[str, Optional[int]] = {}

    # -- which arrays are followed

    def name_of_array(self, where: Address) -> Optional[str]:
        """What an array is called among those that are followed: with its local's key, if it is one."""
        if where.array is not None:
            return where.array
        if where.key is not None and not is_shared(where):
            return f"{shape(where.name)}@{where.key}"
        return shape(where.name) if trees.root(where.name) in self.unit.globals else None

    def declared_array(self, where: Address) -> MaybeNode:
        """The declaration of an array of integers or structures; None for anything else."""
        key = (where.array or "").partition("@")[2]
        declaration = self.declarations.get(key) if key and where.key is None else self.declared_at(where)
        element = trees.element(declaration) if declaration is not None else None
        if element is None or not isinstance(self.unit.constants.type_of(element), Integer) and self.unit.constants.structure(element) is None:
            return None
        length = self.unit.constants.length(declaration)
        return declaration if length is not None and length > 0 else None

    def is_followed_array(self, where: Known) -> bool:
        name = self.name_of_array(where) if isinstance(where, Address) and where.key is not None and where.index is None else None
        is_there = name is not None and (name in self.local_arrays or self.unit.arrays.is_followed(name))
        return is_there and self.declared_array(where) is not None

    def length_of(self, where: Address) -> int:
        return self.unit.constants.length(self.declared_array(where)) or 0

    def elements(self, where: Address) -> int:
        return self.length_of(where) if self.is_followed_array(where) and self.length_of(where) <= MOST_CONSTANTS else 0

    def opaque(self, name: str) -> Optional[Address]:
        found, key = super().opaque(name), self.frame.local(name)
        if found is None or key is None or found.key is not None or self.types.get(key) != "an array":
            return found
        return Address(name, key) if f"{name}@{key}" in self.local_arrays else replace(found, array=f"{name}@{key}")

    def has_followed(self) -> bool:
        return bool(self.local_arrays or self.unit.arrays.followed)

    def follows(self, why: Lost) -> bool:
        """Follows an array from now on, if that is why a value isn't known; false if it was followed before."""
        if why.array is None or not self.has_variables:
            return False
        if "@" not in why.array:
            return self.unit.arrays.follow(why.array)
        is_new = why.array not in self.local_arrays
        self.local_arrays.add(why.array)
        return is_new

    def with_array(self, found: Known, where: Union[Address, Reference]) -> Known:
        """What is read from an array that isn't followed, with the array that would have to be."""
        why = found.lost() if isinstance(found, Value) and isinstance(where, Address) else None
        if why is None or why.local is not None or why.array is not None or len(found.pieces) != 1:
            return found
        inner = replace(where, name=where.name.partition(ANY)[0])
        if inner.name.endswith("]") and self.declared_array(inner) is None:
            inner = replace(inner, name=inner.name.rpartition("[")[0])
        name = where.array
        if name is None and where.name not in NOWHERE and not self.is_followed_array(inner) and self.declared_array(inner) is not None:
            name = self.name_of_array(inner)
        reason = self.unit.fields.why_not(inner.name) if name is not None and "@" not in name else None
        return lost(found.type, reason or replace(why, array=name))

    # -- where an element is

    def led_to(self, value: Known, node: Node, path: Path) -> Union[Address, Reference]:
        found = super().led_to(value, node, path)
        if isinstance(found, Address) and found.name in NOWHERE and isinstance(value, Value):
            why = value.lost()
            return replace(found, array=why.array) if why is not None else found
        if not self.is_followed_array(found):
            if isinstance(found, Address) and trees.kind(node) != "ArrayRef":
                self.check_end(found, node)
            is_first = trees.kind(node) != "ArrayRef" and is_shared(found) and self.length_of_table(found) is not None
            return replace(found, name=f"{found.name}[0]") if is_first else found
        pointer = node.expr if trees.kind(node) == "UnaryOp" else node.name
        wanted = self.unit.types.pointee(self.unit.types.of(pointer, self.declaration_of))
        if wanted is None or not self.is_alike(trees.element(self.declared_array(found)), wanted):
            self.forget_array(found, node, "is led to by a pointer of another type", OF_ITS_TYPE)
        return found if trees.kind(node) == "ArrayRef" else replace(found, name=f"{found.name}[0]")

    def forget_array(self, where: Address, node: Node, what: str, instead: str) -> None:
        """An array isn't followed any more."""
        if not is_shared(where):
            self.let_go(where)
        elif self.unit.fields.unfollow(where.name, Lost(f"`{where.name}` isn't followed: in line {self.place(node).line} it {what}", instead=instead)):
            raise Escaped()

    def let_go(self, value: Known) -> None:
        """With an element its array may be changed."""
        is_part = isinstance(value, Address) and value.key is not None and not is_shared(value) and "[" in value.name
        super().let_go(replace(value, name=value.name.partition("[")[0]) if is_part else value)

    def let_addresses_go(self, node: Node, path: Path) -> None:
        for it in self.arrays_in(node):
            self.let_go(it)
        super().let_addresses_go(node, path)

    def arrays_in(self, node: Node) -> Iterator[Address]:
        """The local arrays whose addresses an expression has. What is read from one is no address."""
        kind, name = trees.kind(node), trees.dotted(node)
        key = self.frame.local(trees.root(name)) if name is not None else None
        where = Address(name, key) if name is not None and key is not None else None
        if where is not None and self.is_followed_array(where):
            yield where
        elif kind == "UnaryOp" and node.op == "&":
            inner = node.expr
            while trees.kind(inner) in ("ArrayRef", "StructRef") and trees.dotted(inner) is None:
                inner = inner.name
            yield from self.arrays_in(inner)
        elif kind == "ArrayRef":
            yield from self.arrays_in(node.subscript)
        elif not (kind == "UnaryOp" and node.op == "sizeof"):
            for it in trees.children(node):
                yield from self.arrays_in(it)

    def lose_behind(self, where: Union[Address, Reference], node: Node) -> None:
        target = getattr(node, "lvalue", None) or getattr(node, "expr", None)
        if isinstance(where, Address) and where.name == SOMEWHERE and trees.kind(target) in ("ArrayRef", "UnaryOp"):
            array = target.name if trees.kind(target) == "ArrayRef" else None
            member = array.field.name if trees.kind(array) == "StructRef" else None
            if self.has_other_forms and self.unit.arrays.led_to(member):
                raise LostUse(self.place(node), Lost("what this pointer leads to isn't known", instead=ONE_ARRAY))
            if self.unit.arrays.unfollow_all(member, self.place(node).line):
                raise Escaped()
        super().lose_behind(where, node)

    def member(self, inner: Union[Address, Reference], node: Node) -> Address:
        found = super().member(inner, node)
        return found if isinstance(inner, Reference) else replace(found, index=inner.index, array=inner.array)

    def element(self, inner: Union[Address, Reference], index: Known, node: Node, path: Path) -> Union[Address, Reference]:
        number = index.among(path.state.answers).constant() if isinstance(index, Value) else None
        beside = self.beside(inner, number, node)
        if beside is not None:
            return beside
        if not self.is_followed_array(inner):
            found = super().element(inner, index, node, path)
            is_there = isinstance(found, Address) and isinstance(inner, Address) and inner.name not in NOWHERE and found.key is None
            return replace(found, array=self.name_of_array(inner)) if is_there and self.declared_array(inner) is not None else found
        length = self.length_of(inner)
        if number is not None:
            if not 0 <= number < length:
                raise self.refuse(node, f"`{inner.name}` has {length} elements, and this is {number}", f"an index from 0 to {length - 1}")
            return replace(inner, name=f"{inner.name}[{number}]")
        most = MOST_CONSTANTS if trees.is_const(self.unit.globals.get(trees.root(inner.name))) else MOST_FOLLOWED
        if length > most or ANY in inner.name:
            raise self.refuse(node, f"`{inner.name}` has {length} elements, and a variable index is followed among {most} at most", SMALLER)
        key = self.held.get(node, f"index@{self.spot(node)}")
        self.bounds[key] = self.unit.arrays.bound(self.frame.function, node.subscript)
        if not key.startswith(HELD):
            self.put(key, index, node.subscript, path)
        self.arrays_named.append(inner.name)
        return replace(inner, name=f"{inner.name}{ANY}", index=key)

    def beside(self, inner: Union[Address, Reference], number: Optional[int], node: Node, is_moved: bool = False) -> Optional[Address]:
        """The element beside another one whose address a pointer has; None for anything else. A pointer that is moved may lead
        to the end of the array."""
        array = replace(inner, name=inner.name.rpartition("[")[0]) if isinstance(inner, Address) and inner.name.endswith("]") else None
        if array is None or inner.index is not None or not self.is_followed_array(array) or self.declared_array(inner) is not None:
            return None
        at = int(inner.name.rpartition("[")[2][:-1]) + number if number is not None else -1
        if not 0 <= at < self.length_of(array) + is_moved:
            self.forget_array(array, node, *MOVED)
        return replace(array, name=f"{array.name}[{at}]")

    def check_end(self, where: Address, node: Node) -> None:
        """Refuses what is read or written at the end of an array."""
        array = replace(where, name=where.name.rpartition("[")[0]) if where.name.endswith("]") else None
        at = int(where.name.rpartition("[")[2][:-1]) if array is not None and self.is_followed_array(array) else -1
        if array is not None and at >= 0 and at == self.length_of(array):
            raise self.refuse(node, f"`{array.name}` has {at} elements, and this is beyond them", f"an index from 0 to {at - 1}")

    def pointer_arithmetic(self, node: Node, left: Known, right: Known, path: Path) -> Known:
        one, other = (left, right) if isinstance(left, Address) else (right, left)
        if node.op not in ("+", "-") or not isinstance(one, Address) or is_address(other):
            return super().pointer_arithmetic(node, left, right, path)
        number = other.among(path.state.answers).constant() if isinstance(other, Value) else None
        number = -number if number is not None and node.op == "-" else number
        if self.is_followed_array(one):
            if number is None or not 0 <= number <= self.length_of(one):
                self.forget_array(one, node, *MOVED)
            return replace(one, name=f"{one.name}[{number}]")
        return self.beside(one, number, node, True) or super().pointer_arithmetic(node, left, right, path)

    def address(self, node: Node, path: Path) -> Known:
        found = super().address(node, path)
        if not isinstance(found, Address) or found.index is None:
            return found
        path.state = path.state.without(found.index)
        if not is_shared(found):
            self.let_go(found)
        return Address(found.name)

    # -- what is there

    def of_constants(self, array: Optional[Known], node: Node, path: Path) -> Optional[Value]:
        return None if self.is_followed_array(array) else super().of_constants(array, node, path)

    def content(self, where: Union[Address, Reference], node: Node, path: Path) -> Known:
        if self.is_followed_array(where):
            return where
        is_local = isinstance(where, Address) and where.key in self.declarations and where.index is None
        if is_local and self.has_followed() and self.declared_array(where) is not None:
            return replace(where, key=None, array=self.name_of_array(where))
        if not isinstance(where, Address) or where.index is None:
            return self.with_array(super().content(where, node, path), where)
        why = self.unknown_index(where, path)
        if why is not None:
            return lost(INT, why)
        declaration = self.declared_element(where)
        if self.unit.constants.structure(declaration) is not None:
            return self.whole_element(where, declaration, node, path)
        key, is_long = f"element@{self.spot(node)}", self.length_of(self.array_of(where)) > MOST_CASES

        def read(fork: Path, there: Address) -> None:
            found = self.content(there, node, fork)
            if is_long and isinstance(found, Value) and found.constant() is not None:
                # to tell so many numbers apart later by the index would be too deep
                self.to_answer(found, node, fork)
                found = the_answer(found.type, fork.state.answers)
            self.put(key, found, node, fork)
        self.by_index(where, node, path, read)
        return constant(0) if path.is_over else self.taken(key, path, node)

    def declared_element(self, where: Address) -> MaybeNode:
        """The declaration of what is there for each index."""
        return self.declared_at(replace(where, name=where.name.replace(ANY, "[0]"), index=None))

    def whole_element(self, where: Address, declaration: Node, node: Node, path: Path) -> Address:
        """A structure that an index means, as a local of its own."""
        found = Address("element", f"element@{self.spot(node)}")
        self.declarations[found.key], self.types[found.key] = declaration, STRUCTURE

        def read(fork: Path, there: Address) -> None:
            self.copy(found, there, node, fork)
        self.by_index(where, node, path, read)
        return found

    def write_part(self, target: Node, value: Known, node: Node, path: Path) -> Known:
        if trees.find(target, lambda it: trees.kind(it) == "ArrayRef") is None:
            return super().write_part(target, value, node, path)
        key, after = f"written@{self.spot(node)}", f"assigned@{self.spot(node)}"
        self.put(key, value, node, path)
        where = self.whole(target, path)
        if not isinstance(where, Address) or where.index is None:
            return self.write_there(where, self.taken(key, path, node), node, path)
        self.check_known(where, path.state.locals[key], node, path)
        self.keep_in_memory(self.array_of(where))

        def write(fork: Path, there: Address) -> None:
            self.put(after, self.write_there(there, self.taken(key, fork, node), node, fork), node, fork)
        self.by_index(where, node, path, write)
        return constant(0) if path.is_over else self.taken(after, path, node)

    def keep_in_memory(self, array: Address) -> None:
        """The elements of a local array are variables if any of them may be given a value."""
        keys = set() if is_shared(array) else {key for _, key in self.fields(array) if isinstance(self.types[key], Integer)}
        if keys - self.in_memory:
            self.in_memory |= keys
            raise Escaped()

    def unknown_index(self, where: Address, path: Path) -> Optional[Lost]:
        """Why an index isn't known, if no local says it."""
        found = path.state.locals[where.index or ""]
        why = found.among(path.state.answers).lost() if isinstance(found, Value) else None
        return why if why is not None and why.local is None else None

    def check_known(self, where: Address, value: Known, node: Node, path: Path) -> None:
        """An array isn't followed any more if one of its elements is given what isn't known."""
        why = value.among(path.state.answers).lost() if isinstance(value, Value) else None
        is_number = isinstance(self.unit.constants.type_of(self.declared_element(where)), Integer)
        why = Lost("an address as a number isn't known") if is_address(value) and is_number else self.unknown_index(where, path) or why
        if why is None or why.local is not None or not is_shared(where):
            return
        name = where.name.partition(ANY)[0]
        reason = f"`{name}` isn't known: line {self.place(node).line} gives an element a value, and {why.why}"
        if self.unit.fields.unfollow(name, Lost(reason, instead=why.instead, array=why.array)):
            raise Escaped()

    def by_index(self, where: Address, node: Node, path: Path, go: Callable[[Path, Address], None]) -> None:
        """Goes on for each element that an index may mean, and where these ways meet. Beyond the array a check fails."""
        if not self.uses_memory:
            # to let ways go on apart for each element would be too many
            self.uses_memory, self.splits, self.parted = True, set(), set()
            raise Escaped()
        index = self.known(self.index_of(where, node, path), node, path)
        path.state = path.state.among(self.within_bound(index, self.bounds[where.index or ""], path))
        parts = parts_of(index, self.length_of(self.array_of(where)), path)

        def part(end: Callable[[Path], None]) -> None:
            def choose(some: List[Part], fork: Path) -> None:
                if len(some) > 1:
                    ways = (some[:len(some) // 2], some[len(some) // 2:])
                    self.branch(fork, union(ways[0]), *(self.later(lambda it, one=way: choose(one, it)) for way in ways), node)
                elif some[0][1] is None:
                    self.fail(node, fork)
                else:
                    go(fork, replace(where, name=where.name.replace(ANY, f"[{some[0][1]}]"), index=None))
                    end(fork)
            choose(parts, path)
        self.meet(path, part)

    def array_of(self, where: Address) -> Address:
        """The array of an element that an index means."""
        return replace(where, name=where.name.partition(ANY)[0], index=None)

    def index_of(self, where: Address, node: Node, path: Path) -> Value:
        """An index, which was computed where its element was named."""
        key = where.index or ""
        found = path.state.locals[key]
        if not key.startswith(HELD):
            path.state = path.state.without(key)
        return self.load(found, node, path) if isinstance(found, Stored) else self.integer(found, node)

    def within_bound(self, index: Value, bound: Optional[int], path: Path) -> Answers:
        """The last answers for which an index is at most this; all of them if that isn't known."""
        if bound is None:
            return path.state.answers
        found = truth(binary("<=", converted(index, UNSIGNED), constant(bound, UNSIGNED), path.state.answers), path.state.answers)
        return found or path.state.answers

    # -- an index that is computed once

    @contextlib.contextmanager
    def holding(self, target: Node, path: Path) -> Iterator[None]:
        """Computes the indices of what is read and then written, as `count[at]++` has it, once."""
        has_followed = self.has_followed()
        found = [it for it in trees.walk(target) if trees.kind(it) == "ArrayRef" and self.unit.constants.value(it.subscript) is None]
        found = [it for it in found if has_followed or trees.find(it.subscript, changes) is not None]
        before = dict(self.held)
        for it in found:
            key = f"{HELD}{self.spot(it)}"
            index = self.operand(it.subscript, path)
            is_shared_one = isinstance(index, Stored) and index.name in self.shared
            self.put(key, self.load(index, it, path) if is_shared_one else index, it.subscript, path)
            self.held[it] = key
        try:
            yield
        finally:
            self.held = before
            for it in found:
                path.state = path.state.without(f"{HELD}{self.spot(it)}")

    def operand(self, node: Node, path: Path) -> Known:
        key = next((key for it, key in self.held.items() if it.subscript is node), None)
        return super().operand(node, path) if key is None else path.state.locals[key]

    def of_Assignment(self, node: Node, path: Path) -> Known:
        if node.op == "=":
            return super().of_Assignment(node, path)
        with self.holding(node.lvalue, path):
            return super().of_Assignment(node, path)

    def step(self, node: Node, path: Path) -> Known:
        with self.holding(node.expr, path):
            return super().step(node, path)


def changes(node: Node) -> bool:
    """Whether an expression calls something, or gives something a new value."""
    return trees.kind(node) in ("FuncCall", "Assignment") or trees.kind(node) == "UnaryOp" and node.op in STEPS


def parts_of(index: Value, length: int, path: Path) -> List[Part]:
    """The last answers for each element, in their order, and those for what is beyond the array."""
    left, found = path.state.answers, []
    for at in range(length):
        wanted = truth(binary("==", index, constant(at, UNSIGNED), left), left)
        found += [(wanted, at)] if wanted else []
        left = left - wanted
    parts: List[Part] = sorted(found, key=lambda it: it[0].least())
    return parts + [(left, None)] if left else parts


def union(parts: List[Part]) -> Answers:
    found = NOTHING
    for it, _ in parts:
        found = found | it
    return found
