"""Names of locals: after this each name in a function means one thing, and a static local that is no integer is a global.

All later parts look names up by their text. So a local that hides another one, or a global that is no integer, is given a name of its own."""
from collections import Counter
from typing import Callable, Dict, List, Set

from . import trees

from .trees import MaybeNode, Node

IsInteger = Callable[[Node], bool]
BLOCKS = ("Compound", "For", "Switch")


class Scopes:
    """The names of a file, while its functions are gone through."""

    def __init__(self, tree: Node, is_integer: IsInteger) -> None:
        self.tree, self.is_integer = tree, is_integer
        self.taken: Set[str] = {it for node in trees.walk(tree) for it in names_in(node)}
        self.declared = Counter(it.name for it in trees.walk(tree) if trees.kind(it) == "Decl" and it.name)
        self.globals: Dict[str, Node] = {}
        # enumerators, and static locals of the function that is gone through
        self.constants: Set[str] = set()
        self.statics: Set[str] = set()
        self.function = ""
        # what was given another name: what it is in C
        self.shown: Dict[str, str] = {}
        # static locals that are globals now
        self.hoisted: List[Node] = []

    def run(self) -> None:
        for it in self.tree.ext:
            if trees.kind(it) == "FuncDef":
                self.of_function(it)
                continue
            if getattr(it, "name", None):
                self.globals[it.name] = it
            self.constants |= {one.name for one in trees.walk(it) if trees.kind(one) == "Enumerator"}

    def of_function(self, definition: Node) -> None:
        self.function, self.statics = definition.decl.name, set()
        scope: Dict[str, str] = {}
        for it in trees.parameters_of(definition):
            self.declare(it, [scope])
        self.globals[self.function] = definition.decl
        self.block(definition.body.block_items or [], [scope, {}])

    # -- declarations

    def declare(self, node: Node, scopes: List[Dict[str, str]]) -> None:
        """A local, by a name that no other one in sight has."""
        name = node.name
        is_static = "static" in (getattr(node, "storage", None) or [])
        is_integer = self.is_integer(node)
        hides = any(name in it for it in scopes) or name in self.globals and not self.is_integer(self.globals[name])
        is_double = is_static and (name in self.statics or not is_integer and self.declared[name] > 1)
        if "extern" in (getattr(node, "storage", None) or []) or trees.kind(node.type) == "FuncDecl":
            scopes[-1][name] = name
            return
        scopes[-1][name] = self.free(name) if hides or is_double else name
        rename_declaration(node, scopes[-1][name])
        if is_static:
            self.statics.add(name)

    def free(self, name: str) -> str:
        found, number = name, 1
        while found in self.taken:
            number += 1
            found = f"{name}_{number}"
        self.taken.add(found)
        self.shown[found] = name
        return found

    def enumerators(self, node: Node, scopes: List[Dict[str, str]]) -> None:
        """The constants of an enumeration inside a function."""
        for it in trees.walk(node):
            if trees.kind(it) == "Enumerator":
                if it.value is not None:
                    self.uses(it.value, scopes)
                name = it.name
                is_double = name in self.constants or name in self.globals or any(name in one for one in scopes)
                scopes[-1][name] = self.free(name) if is_double else name
                it.name = scopes[-1][name]
                self.constants.add(it.name)

    # -- uses

    def block(self, nodes: List[Node], scopes: List[Dict[str, str]]) -> None:
        for at, it in enumerate(nodes):
            self.uses(it, scopes)
            if trees.kind(it) == "Decl" and self.is_hoisted(it):
                nodes[at] = self.hoist(it)

    def is_hoisted(self, node: Node) -> bool:
        return bool(node.name) and "static" in (node.storage or []) and not self.is_integer(node) and trees.kind(node.type) != "FuncDecl"

    def hoist(self, node: Node) -> Node:
        """A static local that is no integer is a global from here on."""
        self.hoisted.append(node)
        self.globals[node.name] = node
        return trees.nothing(node)

    def uses(self, node: MaybeNode, scopes: List[Dict[str, str]]) -> None:
        """Gives each name below a node the name of what it means."""
        name = trees.kind(node)
        if name == "ID":
            node.name = next((it[node.name] for it in reversed(scopes) if node.name in it), node.name)
        elif name == "StructRef":
            self.uses(node.name, scopes)
        elif name == "NamedInitializer":
            for it in node.name:
                if trees.kind(it) != "ID":
                    self.uses(it, scopes)
            self.uses(node.expr, scopes)
        elif name in ("Decl", "Typedef"):
            self.declaration(node, scopes)
        elif name in ("Case", "Default"):
            if name == "Case":
                self.uses(node.expr, scopes)
            self.block(node.stmts or [], scopes)
        elif name == "Compound":
            self.block(node.block_items or [], [*scopes, {}])
        elif name in BLOCKS:
            inner: List[Dict[str, str]] = [*scopes, {}]
            for it in trees.children(node):
                self.uses(it, inner)
        elif node is not None:
            for it in trees.children(node):
                self.uses(it, scopes)

    def declaration(self, node: Node, scopes: List[Dict[str, str]]) -> None:
        """A declaration in a function: its name is in sight in what it begins with."""
        self.enumerators(node, scopes)
        for it in trees.walk(node.type):
            for dimension in [it.dim] if trees.kind(it) == "ArrayDecl" and it.dim is not None else []:
                self.uses(dimension, scopes)
        if trees.kind(node) == "Typedef":
            return
        if node.name:
            self.declare(node, scopes)
        if node.init is not None:
            self.uses(node.init, scopes)


def rename_declaration(node: Node, name: str) -> None:
    """Gives what is declared this name."""
    node.name = name
    for it in trees.walk(node.type):
        if trees.kind(it) == "TypeDecl":
            it.declname = name
            return


def names_in(node: Node) -> List[str]:
    """The names that a node has itself."""
    found = getattr(node, "name", None)
    return [found] if isinstance(found, str) and found else []
