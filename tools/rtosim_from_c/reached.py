"""What the functions of a file read, call and may change."""
from typing import TYPE_CHECKING, Dict, FrozenSet, Iterator, List, Optional, Sequence, Set, Tuple

from . import trees
from .calls import ABORT, CALLS, CREATORS, KNOWN, SETUP, SILENT, TASK_CREATORS, WITHOUT_OP
from .constants import Constants
from .directives import Directives
from .integers import Integer
from .refusals import Place
from .static_types import DeclarationOf, PointerTo, StaticTypes
from .trees import MaybeNode, Node

if TYPE_CHECKING:
    from .arrays import Arrays
    from .fields import Fields
    from .unit import Handler, Task


class Reached:
    """Questions about the functions of a file."""

    functions: Dict[str, Node]
    globals: Dict[str, Node]
    prototypes: Dict[str, Node]
    constants: Constants
    directives: Directives
    types: StaticTypes
    tasks: "List[Task]"
    handlers: "List[Handler]"
    fields: "Fields"
    arrays: "Arrays"
    silent: Dict[str, bool]
    # the handles that tasks and handlers give other values, once these are asked for
    changing: Optional[Dict[str, FrozenSet[str]]] = None

    def place(self, node: Node) -> Place:
        raise NotImplementedError

    # -- what is read, and which functions call which

    def fails(self, name: str) -> bool:
        """Whether a function is called only if something is wrong: a call of it is a check that fails."""
        return name in self.directives.failing or name == ABORT and name not in self.functions

    def names_read(self) -> Set[str]:
        """The names that decide something: not those that are only given values, or counted."""
        written = {id(it.lvalue) for it in self.nodes() if trees.kind(it) == "Assignment"}
        for it in self.nodes():
            if trees.kind(it) == "UnaryOp" and it.op in ("++", "--", "p++", "p--"):
                written.add(id(it.expr))
        return {it.name for it in self.nodes() if trees.kind(it) == "ID" and id(it) not in written}

    def nodes(self) -> Iterator[Node]:
        return (it for function in self.functions.values() for it in trees.walk(function))

    def reached(self, roots: Sequence[str]) -> List[str]:
        """These functions and all that they call, each once, in the order of the calls."""
        found: List[str] = []
        waiting = [it for it in reversed(roots) if it in self.functions]
        while waiting:
            name = waiting.pop()
            if name not in found:
                found.append(name)
                waiting += [it for it in reversed(trees.calls_in(self.functions[name])) if it in self.functions]
        return found

    def calls_of_others(self, root: str) -> Iterator[Tuple[str, Place]]:
        """The functions without a body that a function calls, itself or by others, each with its place; not those of FreeRTOS."""
        for name in self.reached([root]):
            for node in trees.walk(self.functions[name].body):
                called = trees.called(node)
                if called and not (called in self.functions or called in self.directives.ignored or self.fails(called) or called in KNOWN):
                    yield called, self.place(node)

    def has_no_op(self, name: str) -> bool:
        """Whether nothing that a function does is an op: it only computes, with its own locals."""
        if name not in self.functions:
            return False
        if name not in self.silent:
            nodes = [it for function in self.reached([name]) for it in trees.walk(self.functions[function].body)]
            called = {it for it in map(trees.called, nodes) if it}
            is_alone = all(it in self.functions or it in self.directives.ignored or it in WITHOUT_OP for it in called)
            named = {it.name for it in nodes if trees.kind(it) == "ID"}
            is_alone = is_alone and not any(trees.kind(it) == "StructRef" and it.field.name in self.fields.of_globals for it in nodes)
            is_alone = is_alone and not any(map(self.arrays.is_named, nodes))
            shared = [it for it in named if it in self.globals and isinstance(self.constants.type_of(self.globals[it]), Integer)]
            has_comment = any(trees.kind(it) == "Pragma" for it in nodes)
            is_own = all(it in self.constants.numbers or it in self.directives.ignored for it in shared)
            self.silent[name] = is_alone and is_own and not has_comment
        return self.silent[name]

    def ordered_functions(self) -> List[str]:
        """All functions, those of `main` first, in the order of their calls."""
        first = self.reached(SETUP)
        return [*first, *(it for it in self.functions if it not in first)]

    def unreached(self) -> Iterator[str]:
        """Functions that no task, no handler and no `main` calls."""
        roots: Set[str] = {it.function for it in self.tasks} | {it.function for it in self.handlers} | set(SETUP)
        seen = set(self.reached(sorted(roots)))
        creating = [name for name, it in self.functions.items() if set(trees.calls_in(it)) & {*CREATORS, *TASK_CREATORS}]
        seen |= set(self.reached(creating))
        return (it for it in self.functions if it not in seen)

    # -- what a call may change

    def keeps(self, call: Node, at: int) -> bool:
        """Whether a call leaves as it is what its argument at this place leads to: it says so by `const`, it is followed, or it is given
        a function of the file too, for which it keeps the argument."""
        name, words = trees.called(call), trees.arguments(call)
        if name in self.functions and name not in self.directives.ignored or name in SILENT or name in CALLS:
            return True
        names = [getattr(it.expr if trees.kind(it) == "UnaryOp" else trees.plain(it), "name", None) for it in words]
        if any(isinstance(it, str) and it in self.functions for it in names):
            return True
        declared = self.prototypes.get(name or "")
        found = (declared.type.args.params if declared is not None and declared.type.args else [])[at:at + 1]
        pointed = getattr(found[0], "type", None) if found else None
        return points_to_const(pointed)

    def fills(self, declaration: Node, size: Node, declaration_of: DeclarationOf) -> bool:
        """Whether this many bytes are all of what is declared so."""
        if trees.kind(size) == "UnaryOp" and size.op == "sizeof":
            inner = size.expr
            type_ = self.types.resolved(inner) if trees.kind(inner) == "Typename" else self.types.of(inner, declaration_of)
            if type_ is None:
                return False
            whole = self.constants.structure(type_)
            if whole is not None:
                return whole is self.constants.structure(declaration)
            found = self.constants.bytes_of(type_) if not isinstance(type_, PointerTo) else None
        else:
            value = self.constants.value(size)
            found = value.constant() if value is not None else None
        return found is not None and found == self.constants.bytes_of(declaration)

    def may_write(self, function: str, at: int) -> bool:
        """Whether a function may change what its argument at this place leads to, by itself or by what it calls."""
        definition = self.functions[function]
        parameter = (trees.parameters_of(definition)[at:at + 1] or [None])[0]
        if parameter is None or trees.kind(parameter.type) not in ("PtrDecl", "ArrayDecl") or points_to_const(parameter.type):
            return False
        nodes = list(trees.walk(definition.body))
        if any(trees.called(it) and trees.find(it.args, lambda one: trees.kind(one) == "ID") for it in nodes if trees.called(it) and it.args):
            return True
        others = {it.name for it in trees.parameters_of(definition)} - {parameter.name}
        return any(name not in others for name in filter(None, map(trees.written_through, nodes)))

    def is_zero(self, node: Node, given: Sequence[Node]) -> bool:
        """Whether a value of an initializer is the 0 of `{ 0 }`, which stands for all that there is."""
        value = self.constants.value(node) if len(given) == 1 else None
        return value is not None and value.constant() == 0


def points_to_const(type_: MaybeNode) -> bool:
    """Whether a pointer of this type changes nothing of what it leads to."""
    return trees.kind(type_) == "PtrDecl" and "const" in (getattr(type_.type, "quals", None) or [])
