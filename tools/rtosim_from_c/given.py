"""Which globals a name means where objects and tasks are created: `bus->lock` is `first.lock` in a function that is called with `&first`,
or in a task that is given it."""
from typing import Dict, FrozenSet, List, Tuple

from . import trees
from .calls import TASK_CREATORS
from .constants import Constants
from .trees import Node


class Given:
    """What the parameters of the functions of a file lead to, by all calls of each function."""

    def __init__(self, functions: Dict[str, Node], names_of_globals: FrozenSet[str], constants: Constants) -> None:
        self.functions, self.globals, self.constants = functions, names_of_globals, constants
        self.calls: Dict[str, List[Tuple[str, List[Node]]]] = {}
        self.tasks: Dict[str, List[Tuple[str, List[Node]]]] = {}
        for name, it in functions.items():
            for node in trees.walk(it.body):
                called, words = trees.called(node), trees.arguments(node) if trees.called(node) else []
                if called in functions:
                    self.calls.setdefault(called, []).append((name, words))
                elif called in TASK_CREATORS and len(words) > 3:
                    task = words[0].expr if trees.kind(words[0]) == "UnaryOp" else trees.plain(words[0])
                    self.tasks.setdefault(getattr(task, "name", ""), []).append((name, words[3:4]))

    def names(self, function: str, node: Node) -> List[str]:
        """What is named in a function, each with its members, as `first.lock`; nothing if that isn't known."""
        name = trees.kind(node)
        if name == "ID":
            return [node.name]
        if name == "StructRef":
            inner = self.names(function, node.name) if node.type == "." else self.leads_to(function, node.name)
            return [f"{it}.{node.field.name}" for it in inner]
        if name == "UnaryOp" and node.op == "*":
            return self.leads_to(function, node.expr)
        index = self.constants.value(node.subscript) if name == "ArrayRef" else None
        return [f"{it}[{index.constant()}]" for it in self.names(function, node.name)] if index is not None else []

    def beside(self, function: str) -> List[str]:
        """The globals whose addresses a call without a body is given beside this function: it is called back with them."""
        found: List[str] = []
        for name, it in self.functions.items():
            for node in trees.walk(it.body):
                called = trees.called(node)
                words = trees.arguments(node) if called and called not in self.functions and called not in TASK_CREATORS else []
                named = [one.expr if trees.kind(one) == "UnaryOp" else trees.plain(one) for one in words]
                if any(trees.kind(one) == "ID" and one.name == function for one in named):
                    found += [place for one in words for place in self.leads_to(name, one)]
        return list(dict.fromkeys(found))

    def leads_to(self, function: str, pointer: Node, seen: FrozenSet[str] = frozenset()) -> List[str]:
        """The globals to which a pointer leads: the one whose address it is, or what the local or the parameter of this name is given."""
        pointer = trees.plain(pointer)
        if trees.kind(pointer) == "UnaryOp" and pointer.op == "&":
            return [it for it in self.names(function, pointer.expr) if trees.root(it) in self.globals]
        if trees.kind(pointer) != "ID" or function in seen:
            return []
        local = trees.find(self.functions[function].body, lambda it: trees.kind(it) == "Decl" and it.name == pointer.name)
        if local is not None:
            return self.leads_to(function, local.init, seen) if local.init is not None else []
        parameters = [it.name for it in trees.parameters_of(self.functions[function])]
        if pointer.name not in parameters:
            return []
        at = parameters.index(pointer.name)
        calls = [*self.calls.get(function, []), *self.tasks.get(function, [])]
        given = [(caller, words[at:at + 1]) for caller, words in calls]
        found = [name for caller, words in given for it in words for name in self.leads_to(caller, it, seen | {function})]
        return list(dict.fromkeys(found))
