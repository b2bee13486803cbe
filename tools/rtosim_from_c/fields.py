"""Which members of global structures are variables, and what is known of handles and pointers that are global or a member of a global.

A member is followed if it is an integer that something reads, and if nothing changes it by a way that isn't followed."""
import re
from dataclasses import dataclass
from typing import TYPE_CHECKING, Dict, FrozenSet, Iterator, List, Optional, Set, Tuple, Union

from . import trees
from .calls import CREATORS, SETUP, SILENT, TASK_CREATORS
from .cells import Content
from .integers import Integer
from .refusals import Lost, Place
from .trees import Node
from .values import Address, Handle, Value, is_null

if TYPE_CHECKING:
    from .unit import Unit

ONE_TARGET = "a pointer that has the address of one structure wherever it is used"
CALLER = "xTaskGetCurrentTaskHandle"
STEPS = ("++", "--", "p++", "p--")
BLOCKS = ("Compound", "Case", "Default", "Label", "If", "While", "DoWhile", "For", "ExprList")


@dataclass(frozen=True)
class Member:
    """A member that is a variable: its type, and its number at reset."""

    type: Integer
    initial: int


@dataclass(frozen=True)
class Assigned:
    """What a task or a handler gives a global: the function, the expression, and its place."""

    function: str
    value: Node
    place: Place


class Fields:
    """The members of a file's global structures, by their names with dots."""

    def __init__(self, unit: "Unit") -> None:
        self.unit = unit
        # counts what is learned while functions are followed: those that were followed before are followed anew
        self.version = 0
        self.found: Dict[Tuple[str, int], Union[None, Lost, Value, Member]] = {}
        self.kept_found: Dict[str, Union[None, Content, Lost]] = {}
        self.unfollowed: Dict[str, Lost] = {}
        self.lost_members: Dict[str, Lost] = {}
        self.running: FrozenSet[str] = frozenset(unit.reached([*(it.function for it in unit.tasks), *(it.function for it in unit.handlers)])) - set(SETUP)
        self.read = self.members_read()
        self.written, self.addressed = self.members_written()
        self.assigned, self.assigned_somewhere = self.assignments()
        names = [it for name in unit.globals if unit.is_followed(name) for it in unit.reset.leaves(name)]
        self.of_globals: Set[str] = {it.split(".")[-1] for it in names if "." in it} & self.read
        nodes = [it for one in (*unit.functions.values(), *unit.globals.values()) for it in trees.walk(one)]
        self.integers_addressed = {it.expr.name for it in nodes if trees.kind(it) == "UnaryOp" and it.op == "&" and trees.kind(it.expr) == "ID"
                                   and isinstance(unit.constants.type_of(unit.globals.get(it.expr.name)), Integer)}

    # -- what the file does with members

    def members_read(self) -> Set[str]:
        """The members that decide something: not those that are only given values, counted or logged."""
        found: Set[str] = set()
        for function in self.unit.functions.values():
            self.add_read(function.body, True, found)
        return found

    def add_read(self, node: Node, is_statement: bool, found: Set[str]) -> None:
        name = trees.kind(node)
        called = trees.called(node)
        if called is not None and (called in SILENT or called in self.unit.directives.ignored):
            return
        target = node.lvalue if name == "Assignment" else node.expr if name == "UnaryOp" and node.op in STEPS else None
        is_only_written = trees.kind(target) == "StructRef" and (is_statement or getattr(node, "op", "") == "=")
        if name == "StructRef":
            found.add(node.field.name)
        for it in trees.children(node):
            if it is target and is_only_written:
                self.add_read(it.name, False, found)
            elif not (name == "StructRef" and it is node.field):
                self.add_read(it, name in BLOCKS and it is not getattr(node, "cond", None), found)

    def members_written(self) -> Tuple[Set[str], Set[str]]:
        """The members that a task or a handler gives values, and those whose address is taken."""
        written: Set[str] = set()
        addressed: Set[str] = set()
        for name, definition in self.unit.functions.items():
            for node in trees.walk(definition.body):
                target = node.lvalue if trees.kind(node) == "Assignment" else node.expr if trees.kind(node) == "UnaryOp" else None
                if trees.kind(target) != "StructRef":
                    continue
                if trees.kind(node) == "UnaryOp" and node.op == "&":
                    addressed.add(target.field.name)
                elif name in self.running and (trees.kind(node) == "Assignment" or node.op in STEPS):
                    written.add(target.field.name)
        addressed |= {it.expr.field.name for one in self.unit.globals.values() for it in trees.walk(one)
                      if trees.kind(it) == "UnaryOp" and it.op == "&" and trees.kind(it.expr) == "StructRef"}
        return written | addressed, addressed

    def assignments(self) -> Tuple[Dict[str, List[Assigned]], Dict[str, List[Assigned]]]:
        """What tasks and handlers give globals and members, by their names; and by the name of the member, if its structure isn't known."""
        found: Dict[str, List[Assigned]] = {}
        others: Dict[str, List[Assigned]] = {}
        for function in sorted(self.running):
            for node in trees.walk(self.unit.functions[function].body):
                if trees.kind(node) != "Assignment" or node.op != "=":
                    continue
                given = Assigned(function, trees.plain(node.rvalue), self.unit.place(node))
                names = [it for it in self.unit.given.names(function, node.lvalue) if self.is_global(function, it)]
                for it in names:
                    found.setdefault(it, []).append(given)
                if not names and trees.kind(node.lvalue) == "StructRef":
                    others.setdefault(node.lvalue.field.name, []).append(given)
        return found, others

    def is_global(self, function: str, name: str) -> bool:
        root = trees.root(name)
        return root in self.unit.globals and not ("." not in name and self.unit.is_local(function, root))

    # -- members

    def of(self, name: str) -> Union[None, Lost, Value, Member]:
        """What a member is: a constant, a variable, or why it isn't known. None if it is left out."""
        if (name, self.version) not in self.found:
            self.found[name, self.version] = self.of_member(name)
        return self.found[name, self.version]

    def of_member(self, name: str) -> Union[None, Lost, Value, Member]:
        declaration = self.unit.reset.declaration(name)
        type_ = self.unit.constants.type_of(declaration) if declaration is not None else None
        if name in self.unit.globals and isinstance(type_, Integer):
            return self.of_integer(name, type_)
        is_element = name.endswith("]")
        member = trees.root(name.split(".")[-1])
        is_left_out = not self.unit.arrays.is_followed(name.rpartition("[")[0]) if is_element else member not in self.read
        if not isinstance(type_, Integer) or is_left_out:
            return None
        why = self.why_not(name)
        if getattr(declaration, "bitsize", None) is not None:
            why = Lost(f"`{name}` is a bit field, and isn't followed", instead="a member of its own, without a number of bits")
        if why is not None:
            return why
        number = self.unit.reset.value(name)
        if not isinstance(number, Value):
            return self.not_at_reset(name)
        is_fixed = not is_element and member not in self.written and not is_volatile(declaration) or trees.is_const(self.unit.globals.get(trees.root(name)))
        return number if is_fixed else Member(type_, number.constant() or 0)

    def of_integer(self, name: str, type_: Integer) -> Union[Lost, Member]:
        """A global that is an integer, by its address."""
        found, number = self.why_not(name), self.unit.reset.value(name)
        return Member(type_, (number.constant() or 0) if isinstance(number, Value) else 0) if found is None else found

    def not_at_reset(self, name: str) -> Lost:
        why = self.unit.reset.why(name)
        if why is None:
            return Lost(f"what `{name}` has at reset isn't in this file", instead="a definition of it, or its value in `main`")
        return Lost(f"what `{name}` has at reset isn't known: in line {why.place.line} {why.why}",
                    instead="a constant, before the scheduler starts; or --ignore NAME=NUMBER for what a function returns")

    def why_not(self, name: str) -> Optional[Lost]:
        """Why a member isn't followed; None if it is."""
        ends = [*(it.start() for it in re.finditer(r"[.\[]", name)), len(name)]
        whole = (self.unfollowed.get(name[:at]) for at in ends)
        return next((it for it in whole if it is not None), self.lost_members.get(name.split(".")[-1]) if "." in name else None)

    def unfollow(self, name: str, why: Lost) -> bool:
        """Doesn't follow what is there any more; false if it wasn't followed."""
        if self.why_not(name) is not None:
            return False
        self.unfollowed[name] = why
        self.version += 1
        return True

    def follow_again(self, array: str) -> None:
        """An array is followed by its elements, and wasn't before."""
        for it in [name for name, why in self.unfollowed.items() if why.array == array]:
            del self.unfollowed[it]
        self.unit.silent.clear()
        self.kept_found.clear()
        self.version += 1

    def lose_members(self, names: Set[str], line: int) -> bool:
        """Doesn't follow any member of these names; false if there is none that was followed."""
        new = (names & self.of_globals) - self.lost_members.keys()
        for it in new:
            why = f"`{it}` isn't followed: line {line} writes a member of this name by a pointer that isn't known"
            self.lost_members[it] = Lost(why, instead=ONE_TARGET)
        self.version += bool(new)
        return bool(new)

    def is_written(self, name: str) -> None:
        """A member that was taken for a constant is given a value."""
        self.written.add(name.split(".")[-1])
        self.version += 1

    def is_read(self, name: str) -> bool:
        """A member is read without an expression that names it; false if others do so."""
        member = name.split(".")[-1]
        if member in self.read:
            return False
        self.read.add(member)
        self.of_globals.add(member)
        self.unit.silent.clear()
        self.version += 1
        return True

    def is_integer(self, name: str) -> bool:
        declaration = self.unit.reset.declaration(name)
        return declaration is not None and isinstance(self.unit.constants.type_of(declaration), Integer)

    # -- handles and pointers

    def kept(self, name: str) -> Union[None, Content, Lost]:
        """What a handle or a pointer always is, or why that isn't known; None if nothing is said of it."""
        if name not in self.kept_found:
            self.kept_found[name] = self.kept_in(name)
        return self.kept_found[name]

    def kept_in(self, name: str) -> Union[None, Content, Lost]:
        declaration = self.unit.reset.declaration(name)
        type_ = self.unit.constants.type_of(declaration) if declaration is not None else ""
        if type_ != "a pointer" and not (isinstance(type_, str) and type_.startswith("handle")):
            return None
        first, handle = self.unit.reset.value(name), self.unit.handles.get(("", name))
        if handle is not None and (first is None or is_null(first) or handle.kind == "task"):
            first = handle
        if handle is not None and handle.kind == "task":
            return first
        later = [*self.assigned.get(name, []), *(self.assigned_somewhere.get(name.split(".")[-1], []) if "." in name else [])]
        given = [(it, self.contents(it.function, it.value)) for it in later]
        changes = [it for it, found in given if found is None or any(one != first for one in found)]
        if not changes:
            return first if first is not None else self.not_at_reset(name)
        line = changes[0].place.line
        if first is None or is_null(first):
            return Lost(f"`{name}` is given its value by a task or a handler, in line {line}, so it isn't known from reset on",
                        instead="the same in `main` or an init function, before the scheduler starts")
        return Lost(f"`{name}` has another value from line {line} on, and it is followed only if it has one",
                    instead="a variable for each of them")

    def contents(self, function: str, node: Node, seen: FrozenSet[str] = frozenset()) -> Optional[List[Content]]:
        """What an expression may be, by all calls of its function; None if that isn't known. What is created is no change."""
        node = trees.plain(node)
        called = trees.called(node)
        if called in CREATORS or called in TASK_CREATORS:
            return []
        if called == CALLER:
            return [Handle("task", it.name) for it in self.unit.tasks if function in self.unit.reached([it.function])]
        value = self.unit.constants.value(node)
        if value is not None:
            return [value]
        if trees.kind(node) == "UnaryOp" and node.op == "&":
            return [Address(it) for it in self.unit.given.names(function, node.expr)] or None
        given = list(self.given(function, node)) if trees.kind(node) == "ID" and function not in seen else []
        if given:
            found = [self.contents(caller, it, seen | {function}) for caller, it in given]
            return None if any(it is None for it in found) else [one for it in found for one in it or []]
        handle = self.unit.handle(function, node)
        if handle is not None:
            return [handle]
        names = [it for it in self.unit.given.names(function, node) if self.is_global(function, it)]
        values = [self.unit.reset.value(it) for it in names]
        if any(it is None or it_changes(self, one) for it, one in zip(values, names)):
            return None
        return [it for it in values if it is not None] or None

    def given(self, function: str, node: Node) -> Iterator[Tuple[str, Node]]:
        """What the parameter, or the local, of this name is given."""
        local = trees.find(self.unit.functions[function].body, lambda it: trees.kind(it) == "Decl" and it.name == node.name)
        if local is not None and local.init is not None:
            yield function, local.init
        parameters = [it.name for it in trees.parameters_of(self.unit.functions[function])]
        if local is None and node.name in parameters:
            at = parameters.index(node.name)
            for caller, words in [*self.unit.given.calls.get(function, []), *self.unit.given.tasks.get(function, [])]:
                yield from ((caller, it) for it in words[at:at + 1])

    def tasks_given(self, function: str, node: Node) -> Optional[List[str]]:
        """The tasks whose handle an expression is; None if it isn't known to be one."""
        found = self.contents(function, node) or []
        tasks = [it.name for it in found if isinstance(it, Handle) and it.kind == "task"]
        return tasks if tasks and len(tasks) == len(found) else None


def it_changes(fields: Fields, name: str) -> bool:
    return name in fields.assigned or "." in name and name.split(".")[-1] in fields.assigned_somewhere


def is_volatile(declaration: Node) -> bool:
    return any("volatile" in (getattr(it, "quals", None) or []) for it in trees.walk(declaration.type))
