"""Which expression of an initializer each member or element begins with, as C gives them out: in order, by designators, and without
inner braces."""
import sys
from typing import Callable, Dict, List, Sequence

from . import trees
from .constants import Constants
from .trees import MaybeNode, Node

MOST_ELEMENTS = 64
IsWhole = Callable[[Node], bool]


class Initializers:
    """Gives out the expressions of initializers. `is_whole` says whether an expression is a structure."""

    def __init__(self, constants: Constants, is_whole: IsWhole = lambda it: False) -> None:
        self.constants, self.is_whole = constants, is_whole

    def of_members(self, declaration: Node, given: Sequence[Node]) -> Dict[str, Node]:
        """The expressions of a structure's members by their names. Of a member without braces of its own they are in a list."""
        whole = self.constants.structure(declaration)
        members = [it for it in (whole.decls if whole is not None else []) if it.name or trees.kind(it.type) in ("Struct", "Union")]
        names = [it.name or "" for it in members]
        found: Dict[str, Node] = {}
        at = next_one = 0
        while next_one < len(given):
            it = given[next_one]
            if trees.kind(it) == "NamedInitializer":
                name = getattr(it.name[0], "name", "")
                at = names.index(name) if name in names else at
                if at < len(names):
                    found[names[at]] = inside(found.get(names[at]), it) if len(it.name) > 1 else it.expr
                next_one += 1
            elif at >= len(names):
                break
            else:
                end = self.end(members[at], given, next_one)
                found[names[at]] = it if end == next_one + 1 and not self.lacks_braces(members[at], it) else listed(given[next_one:end])
                next_one = end
            at += 1
        return found

    def of_element(self, declaration: Node, given: Sequence[Node], index: int) -> MaybeNode:
        """The expression of an element of an array; None if it has none."""
        element = trees.element(declaration)
        at = next_one = 0
        found: MaybeNode = None
        while next_one < len(given):
            it = given[next_one]
            if trees.kind(it) == "NamedInitializer":
                value = self.constants.value(it.name[0])
                at = (value.constant() or 0) if value is not None else -1
                if at == index:
                    found = inside(found, it) if len(it.name) > 1 else it.expr
                next_one += 1
            else:
                end = self.end(element, given, next_one)
                if at == index:
                    found = it if end == next_one + 1 and not self.lacks_braces(element, it) else listed(given[next_one:end])
                next_one = end
            at += 1
        return found

    def lacks_braces(self, declaration: Node, it: Node) -> bool:
        """Whether one expression is the first of a structure or an array that has no braces of its own."""
        is_many = self.constants.structure(declaration) is not None or self.constants.type_of(declaration) == "an array"
        return is_many and trees.kind(it) != "InitList" and not self.is_whole(it) and not is_text(it)

    def end(self, declaration: Node, given: Sequence[Node], at: int) -> int:
        """Which expression comes after those of what is declared so."""
        if at >= len(given) or trees.kind(given[at]) == "NamedInitializer":
            return at
        type_, whole = self.constants.type_of(declaration), self.constants.structure(declaration)
        if trees.kind(given[at]) == "InitList" or self.is_whole(given[at]) or is_text(given[at]):
            return at + 1
        if whole is not None:
            for it in whole.decls:
                at = self.end(it, given, at) if it.name or trees.kind(it.type) in ("Struct", "Union") else at
            return at
        if type_ != "an array":
            return at + 1
        for _ in range(self.constants.length(declaration) or len(given)):
            at = self.end(trees.element(declaration), given, at)
        return at


def is_text(node: Node) -> bool:
    return trees.kind(node) == "Constant" and node.value.startswith('"')


def listed(nodes: Sequence[Node]) -> Node:
    """These expressions as if they had braces around them."""
    return sys.modules[type(nodes[0]).__module__].InitList(list(nodes), nodes[0].coord)


def inside(before: MaybeNode, named: Node) -> Node:
    """The list of a member with what a designator says of a part of it."""
    nodes: List[Node] = list(before.exprs) if trees.kind(before) == "InitList" else []
    module = sys.modules[type(named).__module__]
    return module.InitList([*nodes, module.NamedInitializer(named.name[1:], named.expr, named.coord)], named.coord)
