"""Questions about trees of pycparser, which name their nodes by class."""
import copy
import re
import sys
from typing import Any, Callable, Iterable, Iterator, List, Optional, Sequence, Set

# A node of a tree, and one that may be missing: pycparser has no types.
Node = Any
MaybeNode = Any


def kind(node: Node) -> str:
    return type(node).__name__


def children(node: Node) -> List[Node]:
    return [it for _, it in node.children()]


def walk(node: Node) -> Iterator[Node]:
    """The node and all below it, in the order of the text."""
    yield node
    for it in children(node):
        yield from walk(it)


def called(node: Node) -> Optional[str]:
    """The name of the function that this node calls; None if it is no such call."""
    if kind(node) == "FuncCall" and kind(node.name) == "ID":
        return node.name.name
    return None


def arguments(call: Node) -> List[Node]:
    return list(call.args.exprs) if call.args is not None else []


def parameters_of(definition: Node) -> List[Node]:
    """The parameters of a function, without a lone `void`."""
    found = definition.decl.type.args.params if definition.decl.type.args else []
    return [it for it in found if getattr(it, "name", None)]


def calls_in(node: Node) -> List[str]:
    """The functions that are called in it, in the order of the text."""
    return [name for name in map(called, walk(node)) if name]


def calls_of(node: Node) -> Iterator[Node]:
    """The calls in it that are in no other call, in the order of the text."""
    if kind(node) == "FuncCall":
        yield node
        return
    for it in children(node):
        yield from calls_of(it)


def escapes(node: Node) -> Set[str]:
    """How this statement may leave what is around it: `break`, `continue`, `return`, `goto`."""
    name = kind(node)
    if name in ("Break", "Continue", "Return", "Goto"):
        return {name.lower()}
    if called(node) == "vTaskDelete":
        return {"return"}
    found: Set[str] = set()
    for it in children(node):
        found |= escapes(it)
    if name in ("For", "While", "DoWhile"):
        return found & {"return", "goto"}
    return found - {"break"} if name == "Switch" else found


def is_label(node: Node) -> bool:
    return kind(node) in ("Case", "Default")


def cut_at_labels(nodes: Sequence[Node]) -> Iterator[Node]:
    """The statements of a `switch`, each label as one of its own. The parser makes a block of a pragma and the label that follows it."""
    for it in nodes:
        is_block = kind(it) == "Compound" and kind((it.block_items or [None])[0]) == "Pragma" and any(map(is_label, it.block_items))
        if is_block:
            yield from cut_at_labels(it.block_items)
        else:
            yield it
        if is_label(it):
            yield from cut_at_labels(it.stmts or [])


def statements_of(node: Node) -> List[Node]:
    """What a `switch` has in its block."""
    return (node.stmt.block_items or []) if kind(node.stmt) == "Compound" else [node.stmt]


def hidden_label(nodes: Iterable[Node]) -> MaybeNode:
    """The first label of a `switch` inside one of these statements of it; None if there is none."""
    for it in nodes:
        found = it if is_label(it) else None if kind(it) == "Switch" else hidden_label(children(it))
        if found is not None:
            return found
    return None


def plain(node: Node) -> Node:
    """An expression without casts around it."""
    while kind(node) == "Cast":
        node = node.expr
    return node


def dotted(node: Node) -> Optional[str]:
    """The name of a variable, or of a member of one, as `uart.rx`; None if it is neither."""
    if kind(node) == "StructRef" and node.type == ".":
        inner = dotted(node.name)
        return f"{inner}.{node.field.name}" if inner else None
    return node.name if kind(node) == "ID" else None


def root(name: str) -> str:
    """The variable that this is a member or an element of, such as `uart` for `uart.lines[0].rx`."""
    return re.split(r"[.\[]", name, maxsplit=1)[0]


def element(declaration: MaybeNode) -> MaybeNode:
    """The type of the elements of an array, by its declaration; None for anything else."""
    while kind(declaration) in ("Decl", "TypeDecl"):
        declaration = declaration.type
    return declaration.type if kind(declaration) == "ArrayDecl" else None


def is_element(name: str, array: str) -> bool:
    """Whether this is the name of an element of an array, as `lines[0]` of `lines`."""
    return re.fullmatch(r"\[\d+\]", name[len(array):]) is not None and name.startswith(array)


def is_const(declaration: MaybeNode) -> bool:
    """Whether what is declared so never changes; of an array or a structure no part of it."""
    while kind(declaration) in ("Decl", "ArrayDecl"):
        declaration = declaration.type
    return kind(declaration) == "TypeDecl" and "const" in (declaration.quals or [])


def assigned(node: Node) -> Optional[str]:
    """The name that this node gives a new value; None if it gives none."""
    name = kind(node)
    target: MaybeNode = None
    if name == "Assignment":
        target = node.lvalue
    elif name == "UnaryOp" and node.op in ("++", "--", "p++", "p--", "&"):
        target = node.expr
    return target.name if kind(target) == "ID" else None


def written_through(node: Node) -> Optional[str]:
    """The name of the pointer or the array by which this node gives something a new value; None if it gives none so."""
    is_step = kind(node) == "UnaryOp" and node.op in ("++", "--", "p++", "p--")
    target = node.lvalue if kind(node) == "Assignment" else node.expr if is_step else None
    if kind(target) not in ("StructRef", "ArrayRef", "UnaryOp"):
        return None
    while kind(target) in ("StructRef", "ArrayRef", "UnaryOp", "Cast"):
        target = target.name if kind(target) in ("StructRef", "ArrayRef") else target.expr
    return target.name if kind(target) == "ID" else "?"


def find(node: Node, wanted: Callable[[Node], bool]) -> MaybeNode:
    return next((it for it in walk(node) if wanted(it)), None)


def without_value(declaration: Node) -> Node:
    """The declaration without what it begins with."""
    found = copy.copy(declaration)
    found.init = None
    return found


def is_alike(first: Node, second: Node) -> bool:
    """Whether two nodes have the same text."""
    own = lambda it: [kind(it), *(getattr(it, name) for name in it.attr_names)]
    inner = (children(first), children(second))
    return own(first) == own(second) and len(inner[0]) == len(inner[1]) and all(map(is_alike, *inner))


def nothing(node: Node) -> Node:
    """An empty statement in the place of this one."""
    return sys.modules[type(node).__module__].EmptyStatement(node.coord)
