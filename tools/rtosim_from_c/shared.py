"""Global structures: an integer member is a variable, as a global is, if each access of it is followed. The key of their addresses says so."""
from dataclasses import replace
from typing import Dict, Iterator, List, Optional, Union

from . import trees
from .addresses import SOMEWHERE, Escaped, is_address, shown
from .answers import NUMBERS
from .arrays import shape
from .calls import Argument, Call
from .expressions import not_set
from .fields import ONE_TARGET, Member
from .frames import both
from .integers import INT, Integer
from .paths import Path
from .refusals import Lost, LostUse, Refusal
from .initializers import MOST_ELEMENTS
from .structures import Structures, is_pointer
from .trees import MaybeNode, Node
from .unit import GLOBAL
from .values import ANSWER, Address, Handle, Known, NUMBER, Piece, Reference, Stored, Value, constant, is_null, joined, lost, the_answer


# An element that isn't known.
ANY = "[?]"
KNOWN_INDEX = "an index that is a constant, or that counts the turns of a loop"


class Shared(Structures):
    """If a global structure is named, its address has the key of the global."""

    def opaque(self, name: str) -> Optional[Address]:
        found = super().opaque(name)
        is_local = self.frame.local(name) is not None
        return self.unit.followed(found) if found is not None and found.key is None and not is_local else found

    def element(self, inner: Union[Address, Reference], index: Known, node: Node, path: Path) -> Union[Address, Reference]:
        found = super().element(inner, index, node, path)
        if not isinstance(inner, Address) or not isinstance(found, Address):
            return found
        number = index.among(path.state.answers).constant() if isinstance(index, Value) else None
        length = self.length_of_table(inner)
        if length is None:
            return self.unit.followed(found) if number == 0 and is_shared(inner) else found
        if number is None:
            return Address(f"{inner.name}{ANY}")
        if not 0 <= number < length:
            raise self.refuse(node, f"`{inner.name}` has {length} elements, and this is {number}", f"an index from 0 to {length - 1}")
        return replace(inner, name=f"{inner.name}[{number}]")

    def length_of_table(self, where: Address) -> Optional[int]:
        """How many elements an array of structures has that is followed; None for anything else."""
        declaration = self.unit.reset.declaration(where.name) if is_shared(where) else None
        is_table = declaration is not None and self.unit.constants.structure(trees.element(declaration)) is not None
        return self.unit.constants.length(declaration) if is_table else None

    def of_ArrayRef(self, node: Node, path: Path) -> Known:
        """A handle in an array, at an index that is known."""
        array = self.evaluate(node.name, path) if trees.kind(node.name) in ("ID", "StructRef") else None
        if not isinstance(array, Address) or not any(trees.is_element(it, array.name) for _, it in self.unit.handles):
            return self.of_constants(array, node, path) or super().of_ArrayRef(node, path)
        index = self.operand(node.subscript, path)
        number = self.number(index, node.subscript, path) if isinstance(index, Value) else None
        if number is None:
            why = f"which handle of `{array.name}` this is isn't known"
            raise LostUse(self.place(node.subscript), Lost(why, instead="an index that is a constant, or a `switch`"))
        return self.handle_named(f"{array.name}[{number}]") or self.unknown(f"`{array.name}[{number}]` isn't known here")

    def of_constants(self, array: Optional[Known], node: Node, path: Path) -> Optional[Value]:
        """An element of a constant array of integers, by an index that is known for each last answer; None otherwise."""
        declaration = self.unit.reset.declaration(array.name) if isinstance(array, Address) and array.name in self.unit.globals else None
        type_ = self.unit.constants.type_of(trees.element(declaration)) if trees.element(declaration) is not None else None
        if self.frame.local(getattr(array, "name", "")) is not None or not isinstance(type_, Integer) or not trees.is_const(declaration):
            return None
        index = self.operand(node.subscript, path)
        now = index.among(path.state.answers) if isinstance(index, Value) else None
        if now is None or now.lost() is not None or sum(it.high - it.low + 1 for it in now.pieces if it.kind == ANSWER) > MOST_ELEMENTS:
            return None
        found: List[Piece] = []
        for it in now.pieces:
            for low, high in [(it.low, it.high)] if it.kind == NUMBER else [(one, one) for one in range(it.low, it.high + 1)]:
                value = self.unit.reset.initial(f"{array.name}[{it.at(low)}]") if it.at(low) >= 0 else None
                if not isinstance(value, Value):
                    return None
                found.append(Piece(low, high, NUMBER, value.constant() or 0))
        return Value(type_, joined(found))

    def any_element(self, where: Known, node: Node) -> None:
        """An element that isn't known may be changed: another form of the loop may say which it is; otherwise the array isn't followed."""
        if not isinstance(where, Address) or ANY not in where.name or not self.has_variables:
            return
        array = where.name.partition(ANY)[0]
        leaves = list(self.unit.reset.leaves(where.name.replace(ANY, "[0]")))
        if not any(isinstance(self.unit.fields.of(it), (Member, Value)) for it in leaves):
            return
        why = Lost(f"`{array}` isn't followed: in line {self.place(node).line} which element this is isn't known", instead=KNOWN_INDEX,
                   array=None if self.unit.arrays.is_followed(array) else shape(array))
        if self.has_other_forms:
            raise LostUse(self.place(node), why)
        if self.unit.fields.unfollow(array, why):
            raise Escaped()

    # -- what is there

    def member_of_global(self, where: Known) -> Union[None, Lost, Value, Member]:
        """What a member of a global structure is; None if it is none, or is left out."""
        if not self.has_variables or not is_shared(where):
            return None
        return self.unit.fields.of(where.name)

    def variable_at(self, where: Known) -> Optional[Stored]:
        found = self.member_of_global(where)
        return self.variable(GLOBAL + where.name, found.type, found.initial) if isinstance(found, Member) else None

    def content(self, where: Union[Address, Reference], node: Node, path: Path) -> Known:
        if not is_shared(where):
            is_any = isinstance(where, Address) and ANY in where.name
            return self.unknown(f"{shown(where)} isn't known here", KNOWN_INDEX) if is_any else super().content(where, node, path)
        stored, found = self.variable_at(where), self.member_of_global(where)
        if stored is not None:
            return self.load(stored, node, path)
        if isinstance(found, Value):
            return found
        if isinstance(found, Lost):
            return lost(INT, found)
        declaration = self.unit.reset.declaration(where.name)
        type_ = self.unit.constants.type_of(declaration) if declaration is not None else ""
        if type_ in ("an array", "a structure"):
            return where if type_ == "a structure" or self.length_of_table(where) is not None else Address(where.name)
        return self.handle_named(where.name) or self.kept(where.name) or super().content(where, node, path)

    def kept(self, name: str) -> Optional[Known]:
        """The handle or the pointer that a global always is; None if nothing is said of it."""
        found = self.unit.fields.kept(name)
        if isinstance(found, Lost):
            return lost(INT, found)
        return self.unit.followed(found) if isinstance(found, Address) else found

    def handle_named(self, name: str) -> Optional[Known]:
        found = super().handle_named(name)
        if not isinstance(found, Handle) or found.kind == "task" or ("", name) not in self.unit.handles:
            return found
        kept = self.kept(name)
        return kept if isinstance(kept, Value) else found

    def read_global(self, node: Node, path: Path) -> Known:
        found = self.kept(node.name) if not self.is_ignored(node) else None
        is_null = isinstance(found, Value) and found.constant() == 0
        type_ = self.unit.constants.type_of(self.unit.globals[node.name])
        if found is None or is_null and type_ != "a pointer":
            return super().read_global(node, path)
        return found

    def write_there(self, where: Union[Address, Reference], value: Known, node: Node, path: Path) -> Known:
        if not is_shared(where):
            self.any_element(where, node)
            self.lose_behind(where, node)
            return super().write_there(where, value, node, path)
        found = self.member_of_global(where)
        if isinstance(found, Value):
            self.unit.fields.is_written(where.name)
            raise Escaped()
        if isinstance(found, Member):
            return self.write_member(where, value, node, path)
        if list(self.inner(where)):
            return self.copy(where, value, node, path)
        super().let_go(value)
        self.note(node, f"{shown(where)} isn't followed: this write is left out")
        return value

    def write_member(self, where: Address, value: Known, node: Node, path: Path) -> Known:
        stored = self.variable_at(where)
        assert stored is not None
        number = self.unknown("an address as a number isn't known") if is_address(value) else self.integer(value, node)
        why = number.among(path.state.answers).lost() if isinstance(number, Value) else None
        if why is not None and why.local is None:
            line = self.place(node).line
            reason = f"`{where.name}` isn't known: line {line} gives it a value, and {why.why}"
            self.unit.fields.unfollow(where.name, Lost(reason, instead=why.instead, array=why.array))
            raise Escaped()
        self.store(stored, self.fitted(number, stored.type, node, path), node, path)
        return the_answer(stored.type, path.state.answers)

    def lose_behind(self, where: Union[Address, Reference], node: Node) -> None:
        """A write by a pointer that isn't followed: the members that it may lead to aren't followed any more."""
        target = getattr(node, "lvalue", None) or getattr(node, "expr", None)
        if not isinstance(where, Address) or where.key is not None or ANY in where.name or trees.root(where.name) not in (SOMEWHERE, *self.unit.globals):
            return
        is_beside = where.name != SOMEWHERE and not self.unit.is_followed(trees.root(where.name))
        declaration = self.unit.reset.declaration(where.name) if where.name != SOMEWHERE else None
        is_element = declaration is not None and self.unit.constants.type_of(declaration) == "an array"
        if target is None or is_beside or is_element:
            return
        line, is_member = self.place(node).line, trees.kind(target) == "StructRef"
        is_new = self.unit.fields.lose_members({target.field.name} if is_member else self.unit.fields.addressed, line)
        for it in set() if is_member else self.unit.fields.integers_addressed:
            why = Lost(f"`{it}` isn't followed: line {line} writes by a pointer that isn't known", instead=ONE_TARGET)
            is_new |= self.unit.fields.unfollow(it, why)
        if is_new:
            raise Escaped()

    def operand(self, node: Node, path: Path) -> Known:
        inner = trees.plain(node)
        if inner is node and trees.kind(node) == "StructRef" and all(trees.kind(it) in ("StructRef", "ID") for it in trees.walk(node)):
            where = self.whole(node, path)
            stored = self.variable_at(where)
            if stored is not None:
                return stored
        return super().operand(node, path)

    def pointer_arithmetic(self, node: Node, left: Known, right: Known, path: Path) -> Known:
        """Addresses of two structures are the same, or they aren't."""
        if node.op not in ("==", "!=") or not self.is_exact(left) or not self.is_exact(right):
            return super().pointer_arithmetic(node, left, right, path)
        first, second = sorted((left.name, right.name), key=len)
        if first != second and second.startswith(f"{first}."):
            return self.unknown("whether this is the first member isn't known")
        return constant(int((first == second) == (node.op == "==")))

    def is_exact(self, where: Known) -> bool:
        """Whether an address is that of one structure, and of no element of an array."""
        declaration = self.unit.globals.get(where.name) if isinstance(where, Address) else None
        return is_shared(where) or declaration is not None and self.unit.constants.type_of(declaration) == "a structure"

    # -- whole structures

    def declaration(self, where: Address) -> MaybeNode:
        return self.unit.reset.declaration(where.name) if is_shared(where) else super().declaration(where)

    def field(self, where: Known) -> Optional[str]:
        return None if is_shared(where) else super().field(where)

    def leaves(self, where: Address) -> Iterator[Address]:
        """The members of a global structure that are no structures."""
        yield from (replace(where, name=it) for it in self.unit.reset.leaves(where.name))

    def copy(self, where: Address, value: Known, node: Node, path: Path) -> Known:
        if not is_shared(where):
            return super().copy(where, value, node, path)
        for it in self.leaves(where):
            if self.member_of_global(it) is None:
                self.keep_pointer(it, replace(value, name=value.name + it.name[len(where.name):]) if isinstance(value, Address) else None, node, path)
                continue
            source = replace(value, name=value.name + it.name[len(where.name):]) if isinstance(value, Address) else None
            why = value.lost() if isinstance(value, Value) else None
            found = self.unknown(f"{shown(it)} isn't known here", array=why.array if why is not None else None)
            found = found if source is None else self.content(source, node, path)
            self.write_there(it, found, node, path)
        return value

    def keep_pointer(self, where: Address, source: Optional[Address], node: Node, path: Path) -> None:
        """A copy of a whole structure leaves its handles and pointers as they are, or it is refused."""
        if not is_pointer(self.unit.constants.type_of(self.unit.reset.declaration(where.name))):
            return
        found = self.content(source, node, path) if source is not None else constant(0)
        before = self.content(where, node, path)
        if found != before and not (is_null(found) and is_null(before)):
            raise self.refuse(node, f"this gives `{where.name}` another value, and a handle or a pointer has one", "an assignment of each member")

    def begin(self, where: Address, given: list, path: Path) -> None:
        if not is_shared(where):
            super().begin(where, given, path)
            return
        for it in self.leaves(where):
            if self.member_of_global(it) is None:
                self.keep_pointer(it, None, self.declaration(it), path)
            else:
                self.write_there(it, constant(0), self.declaration(it), path)

    def item(self, value: Known, queue: Handle, node: Node, path: Path) -> str:
        if not is_shared(value):
            return super().item(value, queue, node, path)
        member = self.carried_of_global(value)
        if member is None:
            return super().item(value, queue, node, path)
        if "." in member.name and self.unit.fields.is_read(member.name):
            raise Escaped()
        if "." in member.name:
            self.note(node, f"of `{value.name}` the queue has `{member.name.split('.')[-1]}`")
        return self.item_of(self.content(member, node, path), queue, node, path)

    def carried_of_global(self, where: Address) -> Optional[Address]:
        """The integer of a global structure that a queue passes."""
        members = [it for it in self.leaves(where) if self.unit.fields.is_integer(it.name)]
        named = [it for it in members if it.name.split(".")[-1] in self.unit.directives.items]
        return (named or members or [None])[0]

    def answered(self, call: Call, values: Dict[Argument, Known], texts: Dict[str, str], node: Node, path: Path) -> Known:
        for it in (values.get(Argument.WOKEN), values.get(Argument.WAKE_TIME)):
            why = f"what {call.function} gives `{it.name}` isn't known" if is_shared(it) else ""
            if why and self.unit.fields.unfollow(it.name, Lost(why, instead="a local for it")):
                raise Escaped()
        storage = values.get(Argument.STORAGE)
        member = self.carried_of_global(storage) if is_shared(storage) else None
        if member is None:
            return super().answered(call, values, texts, node, path)
        for it in self.leaves(storage):
            why = f"`{it.name}` isn't known: of a structure a queue has one number, and line {self.place(node).line} receives one"
            instead = "/* rtosim: item NAME */ for another member, outside of functions, or a queue of numbers"
            if it != member and self.unit.fields.is_integer(it.name) and self.unit.fields.unfollow(it.name, Lost(why, instead=instead)):
                raise Escaped()
        if isinstance(self.member_of_global(member), Value):
            self.unit.fields.is_written(member.name)
            raise Escaped()
        key, stored = f"{member.name}@{self.spot(node)}", self.variable_at(member)
        self.types[key] = self.unit.constants.type_of(self.unit.reset.declaration(member.name))
        path.state = path.state.with_local(key, not_set(self.types[key]))
        found = super().answered(call, {**values, Argument.STORAGE: Reference(key)}, texts, node, path)
        path.state = path.state.without(key)

        def keep(fork: Path) -> None:
            self.op(f"store {stored.name} answer", node, fork)
        if stored is not None:
            self.meet(path, lambda end: self.branch(path, NUMBERS, both(keep, end), end, node))
        return found

    # -- where addresses go

    def let_go(self, value: Known) -> None:
        if not is_shared(value):
            super().let_go(value)

    def let_arguments_go(self, call: Node, path: Path) -> None:
        super().let_arguments_go(call, path)
        for at, it in enumerate(trees.arguments(call)):
            where = self.address_of(it, path) if not self.unit.keeps(call, at) else None
            if where is None:
                continue
            line, name = self.place(call).line, trees.called(call)
            self.any_element(where, it)
            why = Lost(f"`{where.name}` isn't followed: in line {line} {name} is given its address",
                       instead=f"the body of {name}, or `const` in its prototype if it changes nothing")
            if self.unit.fields.unfollow(where.name, why):
                raise Escaped()

    def changes_globals(self, call: Node, path: Path) -> bool:
        words, name = trees.arguments(call), trees.called(call) or ""
        return any(self.unit.may_write(name, at) and is_shared(self.address_of(it, path)) for at, it in enumerate(words))

    def let_parameters_go(self, call: Node, path: Path) -> None:
        super().let_parameters_go(call, path)
        name, line = trees.called(call) or "", self.place(call).line
        for at, it in enumerate(trees.arguments(call)):
            where = self.address_of(it, path) if self.unit.may_write(name, at) else None
            self.any_element(where, it)
            reason = f"`{where.name}` isn't followed: in line {line} {name} is given its address, and can't be followed" if where else ""
            why = Lost(reason, instead="`const` for its parameter if it changes nothing there") if where else None
            if why is not None and self.unit.fields.unfollow(where.name, why):
                raise Escaped()

    def address_of(self, node: Node, path: Path) -> Optional[Address]:
        """The address of a global structure, or of a part of it, that an argument is."""
        if trees.calls_in(node):
            return None
        notes, fork = dict(self.notes), path.fork(path.state.answers)
        try:
            found = self.evaluate(node, fork)
        except Refusal:
            found = None
        self.notes = notes
        return found if is_shared(found) or isinstance(found, Address) and ANY in found.name else None


def is_shared(where: Optional[Known]) -> bool:
    """Whether it is the address of a global structure that is followed, or of a part of it."""
    return isinstance(where, Address) and where.key is not None and where.key.startswith(GLOBAL)
