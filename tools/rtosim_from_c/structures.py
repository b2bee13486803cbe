"""Structures that are locals: their integer members are followed one by one, as locals are. A queue passes one member of a structure."""
import re
from dataclasses import replace
from typing import Dict, Iterator, List, Optional, Set, Tuple, Union

from . import trees
from .addresses import Escaped
from .calls import Argument, Call
from .cells import PART
from .constants import Type
from .expressions import NOT_SET, not_set
from .frames import Continuation
from .initializers import Initializers
from .integers import INT, Integer
from .memory import Memory
from .paths import Path
from .refusals import Lost, LostUse
from .trees import MaybeNode, Node
from .values import Address, Handle, Known, Reference, Value, constant, lost

STRUCTURE = "a structure"


class Structures(Memory):
    """If a local structure is named, its address has the key of the local."""

    # The type of the member that is received, if that is smaller than the item.
    received: Optional[Integer] = None

    def opaque(self, name: str) -> Optional[Address]:
        found, key = super().opaque(name), self.frame.local(name)
        if found is None or key is None or self.types.get(key) != STRUCTURE or "static" in getattr(self.declarations[key], "storage", []):
            return found
        return Address(name, key)

    def member(self, inner: Union[Address, Reference], node: Node) -> Address:
        found = super().member(inner, node)
        return replace(found, key=inner.key) if isinstance(inner, Address) else found

    def element(self, inner: Union[Address, Reference], index: Known, node: Node, path: Path) -> Union[Address, Reference]:
        found = super().element(inner, index, node, path)
        return Address(found.name) if isinstance(found, Address) else found

    def pointer_arithmetic(self, node: Node, left: Known, right: Known, path: Path) -> Known:
        found = super().pointer_arithmetic(node, left, right, path)
        return Address(found.name) if isinstance(found, Address) else found

    # -- members

    def declaration(self, where: Address) -> MaybeNode:
        """The declaration of what is there, in a local structure."""
        found = self.declarations.get(where.key)
        for member, _ in PART.findall(where.name[len(trees.root(where.name)):]):
            found = self.unit.constants.members(found).get(member) if member else trees.element(found)
        return found

    def field(self, where: Known) -> Optional[str]:
        """The key of an integer, a handle or a pointer that is a member of a local structure; None if it isn't followed."""
        is_part = isinstance(where, Address) and where.key is not None and where.name != trees.root(where.name)
        declaration = self.declaration(where) if is_part else None
        if declaration is None or getattr(declaration, "bitsize", None) is not None:
            return None
        type_, key = self.unit.constants.type_of(declaration), f"{where.name}@{where.key}"
        if not (isinstance(type_, Integer) or is_pointer(type_)) or self.may_be_changed(where):
            return None
        self.types[key] = type_
        return key

    def may_be_changed(self, where: Address) -> bool:
        """Whether the address of what is there goes where it isn't followed."""
        ends = [*(it.start() for it in re.finditer(r"[.\[]", where.name)), len(where.name)]
        return any(f"{where.name[:at]}@{where.key}" in self.escaped for at in ends)

    def inner(self, where: Address) -> Iterator[Address]:
        """Each member of a structure, and each element of an array that is followed."""
        for name in self.unit.constants.members(self.declaration(where)):
            if name:
                yield replace(where, name=f"{where.name}.{name}")
        for at in range(self.elements(where)):
            yield replace(where, name=f"{where.name}[{at}]")

    def elements(self, where: Address) -> int:
        """How many elements of an array are followed."""
        return 0

    def fields(self, where: Address) -> Iterator[Tuple[str, str]]:
        """The path and the key of each integer, handle and pointer in a structure."""
        for it in self.inner(where):
            key = self.field(it)
            found = [("", key)] if key is not None else self.fields(it)
            yield from ((it.name[len(where.name):] + rest, key) for rest, key in found)

    def content(self, where: Union[Address, Reference], node: Node, path: Path) -> Known:
        key = self.field(where)
        if key is None and isinstance(where, Address) and where.key in self.declarations and self.is_whole(where):
            return where
        return super().content(where, node, path) if key is None or key not in path.state.locals else self.read_local(key, node, path)

    def is_whole(self, where: Address) -> bool:
        """Whether a whole structure is there."""
        return where.index is None and self.unit.constants.structure(self.declaration(where)) is not None

    def write_there(self, where: Union[Address, Reference], value: Known, node: Node, path: Path) -> Known:
        key = self.field(where)
        if key is not None and isinstance(self.types[key], Integer) and isinstance(value, (Address, Reference)):
            self.let_go(value)
            value = self.unknown("an address as a number isn't known")
        if key is not None:
            return self.write_local(key, value, node, path)
        if isinstance(where, Address) and where.key is not None and list(self.inner(where)):
            return self.copy(where, value, node, path)
        return super().write_there(where, value, node, path)

    def write_local(self, key: str, value: Known, node: Node, path: Path) -> Known:
        if self.types[key] != STRUCTURE:
            return super().write_local(key, value, node, path)
        return self.copy(Address(key.split("@")[0], key), value, node, path)

    def copy(self, where: Address, value: Known, node: Node, path: Path) -> Known:
        """Gives each integer of a structure the value that it has in another one."""
        why = value.lost() if isinstance(value, Value) else None
        for rest, key in list(self.fields(where)):
            source = replace(value, name=value.name + rest) if isinstance(value, Address) else None
            found = self.unknown(f"`{where.name}{rest}` isn't known here", array=why.array if why is not None else None)
            found = found if source is None else self.content(source, node, path)
            self.write_local(key, self.integer(found, node) if isinstance(self.types[key], Integer) else found, node, path)
        self.let_pointers_go(value, {rest for rest, _ in self.fields(where)}, path)
        return value

    def let_pointers_go(self, where: Known, kept: Set[str], path: Path) -> None:
        """What the pointers of a local structure lead to goes where it isn't followed, except for the members that are kept."""
        if isinstance(where, Address) and where.key in self.declarations:
            for rest, key in self.fields(where):
                if rest not in kept:
                    self.let_go(path.state.locals.get(key))

    def returned(self, value: Known, definition: Node, node: Node, path: Path) -> Known:
        """A structure that a function returns is kept by itself, since another call of the function uses the same locals."""
        if self.unit.constants.type_of(definition.decl.type.type) != STRUCTURE:
            return super().returned(value, definition, node, path)
        where = Address("returned", f"returned@{self.spot(node)}")
        self.declarations[where.key], self.types[where.key] = definition.decl.type.type, STRUCTURE
        self.copy(where, value, node, path)
        return where

    # -- declarations

    def initial(self, node: Node, type_: Type, path: Path) -> Optional[Known]:
        return None if type_ == STRUCTURE and "static" not in node.storage else super().initial(node, type_, path)

    def do_Decl(self, node: Node, path: Path, rest: Optional[Continuation]) -> None:
        super().do_Decl(node, path, rest)
        where = self.opaque(node.name) if node.name is not None else None
        if where is None or where.key is None:
            return
        for _, key in self.fields(where):
            path.state = path.state.without(key)
            if isinstance(self.types[key], Integer):
                self.put(key, not_set(self.types[key]), node, path)
        if trees.kind(node.init) == "InitList":
            self.begin(where, node.init.exprs, path)
        elif node.init is not None:
            self.copy(where, self.evaluate(node.init, path), node, path)

    def begin(self, where: Address, given: List[Node], path: Path) -> None:
        """A structure that begins with these values, and otherwise with 0."""
        members = list(self.inner(where))
        declaration, initializers = self.declaration(where), Initializers(self.unit.constants, self.is_structure)
        of_members = initializers.of_members(declaration, given)
        for at, it in enumerate(members):
            is_element = it.name.endswith("]")
            node = initializers.of_element(declaration, given, at) if is_element else of_members.get(it.name.split(".")[-1])
            key = self.field(it)
            is_structure = key is None and bool(list(self.inner(it)))
            is_whole = node is not None and trees.kind(node) != "InitList"
            if is_structure and is_whole:
                self.begin_with(it, node, path)
            elif is_structure:
                self.begin(it, node.exprs if trees.kind(node) == "InitList" else [], path)
            elif key is None and node is not None:
                self.let_addresses_go(node, path)
            elif key is not None:
                self.write_local(key, constant(0) if node is None else self.evaluate(node, path), node or self.declaration(it), path)

    def declaration_of(self, name: str) -> MaybeNode:
        """The declaration of what is named here."""
        key = self.frame.local(name)
        return self.declarations.get(key) if key is not None else self.unit.globals.get(name)

    def is_structure(self, node: Node) -> bool:
        """Whether an expression is a whole structure."""
        return self.unit.types.is_structure(node, self.declaration_of)

    def begin_with(self, where: Address, node: Node, path: Path) -> None:
        """A structure in another one that begins as a third one."""
        value = self.evaluate(node, path)
        if not isinstance(value, Address):
            raise self.refuse(node, f"the values of `{where.name}` have no braces around them", "braces")
        self.copy(where, value, node, path)

    # -- where addresses go

    def let_go(self, value: Known) -> None:
        if isinstance(value, Address) and value.key is not None and not self.may_be_changed(value):
            self.escaped.add(f"{value.name}@{value.key}")
            raise Escaped()
        super().let_go(value)

    def let_addresses_go(self, node: Node, path: Path) -> None:
        for it in trees.walk(node):
            self.let_pointers_go(self.opaque(it.name) if trees.kind(it) == "ID" else None, set(), path)
            name = trees.dotted(it.expr) if trees.kind(it) == "UnaryOp" and it.op == "&" else None
            where = self.opaque(name.split(".")[0]) if name else None
            self.let_go(replace(where, name=name) if where is not None else None)
        super().let_addresses_go(node, path)

    # -- items

    def carried(self, where: Known) -> Optional[Address]:
        """The integer of a structure that a queue passes: the one that a comment names, or else the first one."""
        if self.is_number(where):
            return where
        members = [it for it in self.inner(where) if self.is_number(it)] if isinstance(where, Address) and where.key is not None else []
        named = [it for it in members if it.name.split(".")[-1] in self.unit.directives.items]
        return (named or members or [None])[0]

    def is_number(self, where: Known) -> bool:
        """Whether it is an integer that is a member of a local structure."""
        key = self.field(where)
        return key is not None and isinstance(self.types[key], Integer)

    def item(self, value: Known, queue: Handle, node: Node, path: Path) -> str:
        member = self.carried(value)
        if member is None:
            return super().item(value, queue, node, path)
        key = self.field(member)
        found = path.state.locals.get(key)
        if found is None or isinstance(found, Value) and found.lost() == NOT_SET:
            raise LostUse(self.place(node), Lost(f"`{member.name}` isn't known here", instead="a value for it before"))
        self.note(node, f"of `{value.name}` the queue has `{member.name.split('.')[-1]}`")
        return super().item(Reference(key), queue, node, path)

    def answered(self, call: Call, values: Dict[Argument, Known], texts: Dict[str, str], node: Node, path: Path) -> Known:
        storage = values.get(Argument.STORAGE, values.get(Argument.VALUE_STORAGE))
        member = self.carried(storage)
        if member is None:
            return super().answered(call, values, texts, node, path)
        taken, name = self.field(member), member.name.split(".")[-1]
        for rest, key in self.fields(storage):
            why = Lost(f"`{storage.name}{rest}` isn't known: of a structure a queue has one number, here `{name}`",
                       instead="/* rtosim: item NAME */ for another member, outside of functions, or a queue of numbers")
            if key != taken:
                type_ = self.types[key]
                path.state = path.state.with_local(key, lost(type_ if isinstance(type_, Integer) else INT, why))
        if taken not in path.state.locals:
            path.state = path.state.with_local(taken, not_set(self.types[taken]))
        which = Argument.STORAGE if Argument.STORAGE in values else Argument.VALUE_STORAGE
        self.received = None if self.types[taken].is_signed else self.types[taken]
        try:
            return super().answered(call, {**values, which: Reference(taken)}, texts, node, path)
        finally:
            self.received = None

    def item_type(self, queue: Handle) -> Integer:
        return self.received or super().item_type(queue)


def is_pointer(type_: Type) -> bool:
    """Whether it is the type of a pointer or a handle."""
    return isinstance(type_, str) and (type_ == "a pointer" or type_.startswith("handle"))
