"""What pointers lead to, by their types: an integer of the same size, the same structure, or one that begins with it. A pointer of another
type, and one that was moved, aren't followed; nor is then what they led to."""
from typing import Optional, Union

from . import trees
from .addresses import NOWHERE, SOMEWHERE, Escaped
from .calls import COPIES
from .integers import Integer
from .paths import Path
from .refusals import Lost
from .shared import Shared, is_shared
from .trees import MaybeNode, Node
from .values import Address, Known, Reference, Value, converted

OF_ITS_TYPE = "a pointer of the type of what it leads to"


class Pointees(Shared):
    """Pointers, by their types."""

    def led_to(self, value: Known, node: Node, path: Path) -> Union[Address, Reference]:
        found = super().led_to(value, node, path)
        pointer = node.expr if trees.kind(node) == "UnaryOp" else node.name
        wanted = self.unit.types.pointee(self.unit.types.of(pointer, self.declaration_of))
        if wanted is None or isinstance(found, Address) and found.name in NOWHERE:
            return found
        return self.as_number(found, wanted, node) if isinstance(found, Reference) else self.as_part(found, wanted, node)

    def as_number(self, where: Reference, wanted: Node, node: Node) -> Reference:
        """A local that a pointer to an integer leads to."""
        type_, own = self.unit.constants.type_of(wanted), self.types.get(where.local)
        if isinstance(type_, Integer) and isinstance(own, Integer) and type_.bits == own.bits or not isinstance(own, Integer):
            return where
        shown = type_.bits if isinstance(type_, Integer) else "other"
        raise self.refuse(node, f"a pointer to {shown} bits leads to `{where.local.split('@')[0]}`, which has {own.bits}", OF_ITS_TYPE)

    def as_part(self, where: Address, wanted: Node, node: Node) -> Address:
        """The part of a structure that a pointer of this type leads to."""
        declaration = self.declared_at(where)
        own = self.unit.constants.type_of(declaration) if declaration is not None else ""
        if own not in ("a structure", "a union") and not isinstance(own, Integer):
            return where
        found = self.same_place(where, declaration, wanted)
        if found is not None:
            return found
        self.forget(where, node, "is led to by a pointer of another type")
        return Address(SOMEWHERE)

    def declared_at(self, where: Address) -> MaybeNode:
        if where.key is not None and not is_shared(where):
            return self.declaration(where)
        return self.unit.reset.declaration(where.name)

    def same_place(self, where: Address, declaration: Node, wanted: Node) -> Optional[Address]:
        """What is of the wanted type at this place: this itself, what it begins with, or what begins with it."""
        found, inner = where, declaration
        while inner is not None:
            if self.is_alike(inner, wanted):
                return found
            whole = self.unit.constants.structure(inner)
            first = whole.decls[0] if whole is not None else None
            found, inner = (Address(f"{found.name}.{first.name}", found.key), first) if first is not None and first.name else (found, None)
        name, _, member = where.name.rpartition(".")
        outside = self.declared_at(Address(name, where.key)) if name else None
        whole = self.unit.constants.structure(outside) if outside is not None else None
        is_first = whole is not None and whole.decls[0].name == member
        return self.same_place(Address(name, where.key), outside, wanted) if is_first and self.is_alike(outside, wanted) else None

    def is_alike(self, declaration: Node, wanted: Node) -> bool:
        """Whether what is declared so has the type of what a pointer leads to."""
        one, other = self.unit.constants.structure(declaration), self.unit.constants.structure(wanted)
        if one is not None or other is not None:
            return one is other
        types = [self.unit.constants.type_of(it) for it in (declaration, wanted)]
        return all(isinstance(it, Integer) for it in types) and types[0].bits == types[1].bits

    def forget(self, where: Address, node: Node, what: str) -> None:
        """What is there isn't followed any more, nor what is beside it."""
        root = trees.root(where.name)
        if where.key is None:
            return
        if not is_shared(where):
            self.let_go(Address(root, where.key))
        elif self.unit.fields.unfollow(root, Lost(f"`{root}` isn't followed: in line {self.place(node).line} it {what}", instead=OF_ITS_TYPE)):
            raise Escaped()

    def pointer_arithmetic(self, node: Node, left: Known, right: Known, path: Path) -> Known:
        one, other = (left, right) if isinstance(left, Address) else (right, left)
        is_moved = node.op in ("+", "-") and isinstance(one, Address) and isinstance(other, Value)
        if is_moved and other.among(path.state.answers).constant() != 0:
            array = self.unit.constants.type_of(self.declared_at(one)) == "an array" if self.declared_at(one) is not None else True
            if not array or is_shared(one):
                self.forget(one, node, "is led to by a pointer that was moved")
        return super().pointer_arithmetic(node, left, right, path)

    # -- what is there

    def of_UnaryOp(self, node: Node, path: Path) -> Known:
        found = super().of_UnaryOp(node, path)
        return self.as_declared(found, node) if node.op == "*" else found

    def of_ArrayRef(self, node: Node, path: Path) -> Known:
        return self.as_declared(super().of_ArrayRef(node, path), node)

    def as_declared(self, found: Known, node: Node) -> Known:
        """What a pointer leads to, with the sign that its type has."""
        wanted = self.unit.types.of(node, self.declaration_of)
        type_ = self.unit.constants.type_of(wanted) if wanted is not None else None
        is_other = isinstance(found, Value) and isinstance(type_, Integer) and found.type != type_ and found.type.bits == type_.bits
        return converted(found, type_) if is_other else found

    # -- functions of memory

    def left_out(self, name: str, node: Node, path: Path) -> Known:
        found = self.cleared(node, path) if name == "memset" else None
        return self.copied(name, node, path) if found is None else found

    def cleared(self, node: Node, path: Path) -> Optional[Known]:
        """`memset` of a whole structure to 0; None for any other."""
        words = trees.arguments(node)
        value = self.unit.constants.value(words[1]) if len(words) == 3 and not trees.calls_in(words[0]) else None
        where = self.evaluate(words[0], path) if value is not None and value.constant() == 0 else None
        declaration = self.declared_at(where) if isinstance(where, Address) and where.key is not None else None
        if declaration is None or not self.unit.fills(declaration, words[2], self.declaration_of):
            return None
        self.begin(where, [], path)
        return self.unknown("what memset returns isn't known")

    def copied(self, name: str, node: Node, path: Path) -> Known:
        """`memcpy` of a whole structure; any other call is left out."""
        words = trees.arguments(node)
        if name not in COPIES or len(words) != 3 or any(trees.calls_in(it) for it in words):
            return super().left_out(name, node, path)
        places = [self.evaluate(it, path) for it in words[:2]]
        if not all(isinstance(it, Address) and it.key is not None for it in places):
            return super().left_out(name, node, path)
        declared = [self.declared_at(it) for it in places]
        is_all = all(it is not None for it in declared) and self.is_alike(declared[0], declared[1])
        if not is_all or not self.unit.fills(declared[0], words[2], self.declaration_of):
            return super().left_out(name, node, path)
        self.note(node, f"{name} copies `{places[1].name}`")
        self.copy(places[0], places[1], node, path)
        return places[0]
