"""Arrays, structures and what pointers lead to: a script has nothing of it. It is passed on, what is written there is left out, and what is
read isn't known; so it is refused if it decides something. A local whose address goes there isn't known either."""
from typing import Optional, Union

from . import trees
from .constants import POINTER
from .core import Core
from .integers import INT, Integer
from .paths import Path
from .refusals import Lost
from .trees import Node
from .values import Address, Handle, Known, Reference, Value, constant, lost

OPAQUE = ("an array", "a structure", "a union")
A_CONSTANT = "a constant in its place, by `#ifdef RTOSIM`; or, as the first in the branch of an `if`, /* rtosim: holds */"
SOMEWHERE = "what a pointer leads to"
REGISTER = "a register of the hardware"
NOWHERE = (SOMEWHERE, REGISTER)
ONE_INDEX = "an array with one index, such as `table[row * COLUMNS + column]`; or " + A_CONSTANT
A_STUB = "a stub of it, as `static TIM_TypeDef rtosim_TIM2;` and `#define TIM2 (&rtosim_TIM2)`; or " + A_CONSTANT


def has_two_indexes(node: Node) -> bool:
    """Whether it is an element of an array's element."""
    return trees.kind(node) == "ArrayRef" and trees.kind(node.name) == "ArrayRef"


class Escaped(Exception):
    """The address of a local goes where it isn't followed: the translation begins anew, with the local not known."""


class Addresses(Core):
    """Expressions with addresses."""

    def opaque(self, name: str) -> Optional[Address]:
        """The array or the structure of this name; None if it is none."""
        key = self.frame.local(name)
        declaration = self.unit.globals.get(name)
        type_ = self.types.get(key) if key is not None else self.unit.constants.type_of(declaration) if declaration is not None else None
        return Address(name) if type_ in OPAQUE else None

    def address(self, node: Node, path: Path) -> Known:
        inner = node.expr
        name = inner.name if trees.kind(inner) == "ID" else None
        if name is not None and self.opaque(name) is None:
            key = self.frame.local(name)
            if key is not None:
                return Reference(key)
            if self.is_variable(name):
                return self.unit.followed(Address(name))
            if not self.is_left_out(name):
                raise self.refuse(node, "an address has no op", "a local of its own, whose address a call may take")
        return self.opaque(name) or Address(name) if name is not None else self.whole(inner, path)

    def is_variable(self, name: str) -> bool:
        """Whether a global is an integer that has a variable in the script."""
        return False

    def is_left_out(self, name: str) -> bool:
        """Whether a global is no integer that the script could have."""
        declaration = self.unit.globals.get(name)
        is_integer = declaration is not None and isinstance(self.unit.constants.type_of(declaration), Integer)
        return name in self.unit.directives.ignored or not is_integer and declaration is not None

    def whole(self, node: Node, path: Path) -> Union[Address, Reference]:
        """Where a member, an element or what a pointer leads to is."""
        name = trees.kind(node)
        if name == "StructRef" and node.type == ".":
            return self.member(self.whole(node.name, path), node)
        if name == "StructRef":
            return self.member(self.led_to(self.evaluate(node.name, path), node, path), node)
        if name == "ArrayRef":
            inner = self.led_to(self.evaluate(node.name, path), node, path)
            return self.element(inner, self.operand(node.subscript, path), node, path)
        if name == "UnaryOp" and node.op == "*":
            return self.led_to(self.evaluate(node.expr, path), node, path)
        found = self.opaque(node.name) if name == "ID" else self.evaluate(node, path) if name == "FuncCall" else None
        return found if isinstance(found, Address) else Address(SOMEWHERE)

    def element(self, inner: Union[Address, Reference], index: Known, node: Node, path: Path) -> Union[Address, Reference]:
        """Where an element is of an array, or of what a pointer leads to."""
        if isinstance(inner, Reference) and not (isinstance(index, Value) and index.constant() == 0):
            raise self.refuse(node, "what is beside a local isn't known", "an array")
        return inner

    def member(self, inner: Union[Address, Reference], node: Node) -> Address:
        if isinstance(inner, Reference):
            raise self.refuse(node, "a part of a local has no op", "a local of its own")
        return inner if inner.name in NOWHERE else Address(f"{inner.name}.{node.field.name}")

    def led_to(self, value: Known, node: Node, path: Path) -> Union[Address, Reference]:
        if isinstance(value, (Address, Reference)):
            return value
        if isinstance(value, Value) and value.among(path.state.answers).constant() == 0:
            raise self.refuse(node, "this pointer is NULL")
        return Address(REGISTER if isinstance(value, Value) and value.constant() is not None else SOMEWHERE)

    def content(self, where: Union[Address, Reference], node: Node, path: Path) -> Known:
        """What is read there."""
        if isinstance(where, Reference):
            return self.read_local(where.local, node, path)
        if where.name == SOMEWHERE and self.is_of_union(node):
            return self.unknown("a union isn't followed", "its members as variables of their own; or " + A_CONSTANT)
        if where.name == SOMEWHERE and has_two_indexes(node):
            return self.unknown("an array with two indexes isn't followed", ONE_INDEX)
        return self.handle_named(where.name) or self.unknown(f"{shown(where)} isn't known here", A_STUB if where.name == REGISTER else A_CONSTANT)

    def is_of_union(self, node: Node) -> bool:
        """Whether it is a part of a global union."""
        while trees.kind(node) in ("StructRef", "ArrayRef"):
            node = node.name
        declaration = self.unit.globals.get(node.name) if trees.kind(node) == "ID" else None
        return declaration is not None and self.unit.constants.type_of(declaration) == "a union"

    def handle_named(self, name: str) -> Optional[Known]:
        """The handle that a global, or a member of one, has from reset on."""
        return self.unit.handles.get(("", name)) or self.unit.handles.get((self.frame.function, name))

    def unknown(self, why: str, instead: str = A_CONSTANT, array: Optional[str] = None) -> Value:
        return lost(INT, Lost(why, instead=instead, array=array))

    def of_StructRef(self, node: Node, path: Path) -> Known:
        name = trees.dotted(node)
        found = self.handle_named(name) if name is not None else None
        return self.content(self.whole(node, path), node, path) if found is None else found

    def of_ArrayRef(self, node: Node, path: Path) -> Known:
        return self.content(self.whole(node, path), node, path)

    def write_there(self, where: Union[Address, Reference], value: Known, node: Node, path: Path) -> Known:
        """A write to what isn't followed is left out."""
        if isinstance(where, Reference):
            return self.write_local(where.local, value, node, path)
        self.let_go(value)
        self.note(node, f"{shown(where)} isn't followed: this write is left out")
        return value

    def let_go(self, value: Known) -> None:
        """The address of a local goes where it isn't followed."""
        if isinstance(value, Reference) and value.local not in self.escaped:
            self.escaped.add(value.local)
            raise Escaped()

    def let_arguments_go(self, call: Node, path: Path) -> None:
        """The locals whose addresses a call takes that is left out."""
        for argument in trees.arguments(call):
            self.let_addresses_go(argument, path)

    def let_parameters_go(self, call: Node, path: Path) -> None:
        """The locals whose addresses a function of the file takes that can't be followed."""
        self.let_arguments_go(call, path)

    def changes_globals(self, call: Node, path: Path) -> bool:
        """Whether a function of the file may change variables of a script by what it is given."""
        return False

    def let_addresses_go(self, node: Node, path: Path) -> None:
        """The locals whose addresses are in an expression that isn't followed."""
        for it in trees.walk(node):
            key = self.frame.local(it.name) if trees.kind(it) == "ID" else None
            self.let_go(path.state.locals.get(key) if key is not None else None)
            inner = it.expr if trees.kind(it) == "UnaryOp" and it.op == "&" else None
            key = self.frame.local(inner.name) if trees.kind(inner) == "ID" else None
            if key is not None and self.types.get(key) not in OPAQUE:
                self.let_go(Reference(key))

    def pointer_arithmetic(self, node: Node, left: Known, right: Known, path: Path) -> Known:
        """Of an address: with NULL it is compared, and what is beside it is as little known as itself."""
        one, other = (left, right) if isinstance(left, (Address, Reference)) else (right, left)
        if node.op in ("==", "!=") and isinstance(other, Value) and other.among(path.state.answers).constant() == 0:
            return constant(int(node.op == "!="))
        if node.op in ("+", "-") and isinstance(one, Address) and isinstance(other, Value):
            return one
        why = other.among(path.state.answers).lost() if isinstance(other, Value) else None
        return self.unknown("an address as a number isn't known") if why is None else lost(INT, why)

    def size(self, node: Node) -> Optional[Value]:
        """The size of a name's type, if that is a number or an array of numbers."""
        key = self.frame.local(node.name) if trees.kind(node) == "ID" else None
        declaration = self.declarations.get(key) if key is not None else self.unit.globals.get(getattr(node, "name", None))
        found = self.unit.constants.size_of(declaration) if trees.kind(node) == "ID" else self.unit.constants.size_of(node)
        return None if found is None else constant(found, POINTER)


def shown(where: Address) -> str:
    return where.name if where.name in NOWHERE else f"`{where.name}`"


def is_address(value: Known) -> bool:
    return isinstance(value, (Address, Reference))


def never_null(value: Known) -> bool:
    return isinstance(value, (Address, Handle, Reference))
