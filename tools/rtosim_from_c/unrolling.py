"""Loops that create objects or tasks: each turn by itself, so that each of what they create has a name."""
import copy
import sys
from typing import Dict, Iterator, List, Optional, Set, Tuple

from . import trees
from .calls import CREATORS, TASK_CREATORS
from .constants import Constants
from .integers import COMPARISONS
from .trees import Node

MOST_TURNS = 16


class Unrolling:
    """The loops of a file whose turns a constant counts, and in which something is created."""

    def __init__(self, functions: Dict[str, Node], constants: Constants) -> None:
        self.functions, self.constants = functions, constants
        self.creating: Set[str] = {*CREATORS, *TASK_CREATORS}
        before = 0
        while before < len(self.creating):
            before = len(self.creating)
            self.creating |= {name for name, it in functions.items() if self.creates(it.body)}

    def creates(self, node: Node) -> bool:
        return any(it in self.creating for it in trees.calls_in(node))

    def run(self) -> None:
        for it in self.functions.values():
            for node in list(trees.walk(it.body)):
                items = getattr(node, "block_items", None) or []
                for at, inner in enumerate(items):
                    turns = self.turns(inner) if trees.kind(inner) == "For" and self.creates(inner.stmt) else None
                    if turns is not None:
                        items[at] = in_a_block(turns, inner)

    def turns(self, loop: Node) -> Optional[List[Node]]:
        """The body of each turn; None if it isn't known how many they are."""
        found = counter(loop)
        if found is None:
            return None
        name, first, step = found
        number, last = self.constants.value(first), self.constants.value(loop.cond.right)
        is_changed = any(name in (trees.assigned(it), getattr(it, "name", None) if trees.kind(it) == "Decl" else None) for it in trees.walk(loop.stmt))
        if number is None or last is None or is_changed or trees.escapes(loop.stmt) or {"break", "continue"} & jumps(loop.stmt):
            return None
        at, end = number.constant() or 0, last.constant() or 0
        bodies: List[Node] = []
        while COMPARISONS[loop.cond.op](at, end) and len(bodies) <= MOST_TURNS:
            bodies.append(with_number(copy.deepcopy(loop.stmt), name, at))
            at += step
        return bodies if len(bodies) <= MOST_TURNS else None


def counter(loop: Node) -> Optional[Tuple[str, Node, int]]:
    """The local that counts the turns of a loop, what it begins with, and how much more it is in each turn."""
    begin = loop.init.decls[0] if trees.kind(loop.init) == "DeclList" and len(loop.init.decls) == 1 else loop.init
    if trees.kind(begin) == "Decl":
        name, first = begin.name, begin.init
    elif trees.kind(begin) == "Assignment" and begin.op == "=" and trees.kind(begin.lvalue) == "ID":
        name, first = begin.lvalue.name, begin.rvalue
    else:
        return None
    is_asked = trees.kind(loop.cond) == "BinaryOp" and loop.cond.op in COMPARISONS and getattr(loop.cond.left, "name", None) == name
    is_stepped = trees.kind(loop.next) == "UnaryOp" and loop.next.op in ("++", "p++", "--", "p--") and getattr(loop.next.expr, "name", None) == name
    return (name, first, -1 if "-" in loop.next.op else 1) if first is not None and is_asked and is_stepped else None


def jumps(node: Node) -> Set[str]:
    return {trees.kind(it).lower() for it in trees.walk(node)}


def with_number(node: Node, name: str, number: int) -> Node:
    """The tree with a number in the place of a local."""
    module = sys.modules[type(node).__module__]
    for it in list(trees.walk(node)):
        for slot, inner in slots(it):
            if trees.kind(inner) == "ID" and inner.name == name and not (trees.kind(it) == "StructRef" and slot == "field"):
                replace_slot(it, slot, module.Constant("int", str(number), inner.coord))
    return node


def slots(node: Node) -> Iterator[Tuple[str, Node]]:
    """Where a node has its children."""
    return ((name, it) for name, it in node.children())


def replace_slot(node: Node, slot: str, new: Node) -> None:
    name, _, index = slot.partition("[")
    if index:
        getattr(node, name)[int(index.rstrip("]"))] = new
    else:
        setattr(node, name, new)


def in_a_block(bodies: List[Node], loop: Node) -> Node:
    return sys.modules[type(loop).__module__].Compound(bodies, loop.coord)
