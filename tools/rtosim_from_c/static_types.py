"""The types of expressions as the text declares them, as far as they are those of structures, pointers and names."""
from dataclasses import dataclass
from typing import Callable, Dict

from . import trees
from .constants import HANDLES, Constants
from .trees import MaybeNode, Node

DeclarationOf = Callable[[str], MaybeNode]


@dataclass(frozen=True)
class PointerTo:
    """The type of `&x`."""

    type: Node


class StaticTypes:
    """The types of expressions of a file. `functions` are the declarations of its functions by their names."""

    def __init__(self, constants: Constants, functions: Dict[str, Node]) -> None:
        self.constants, self.functions = constants, functions

    def resolved(self, node: MaybeNode) -> MaybeNode:
        """A type without names that stand for it."""
        while node is not None:
            if trees.kind(node) in ("Decl", "Typename", "TypeDecl", "Typedef"):
                node = node.type
            elif trees.kind(node) == "IdentifierType" and node.names[0] in self.constants.typedefs and node.names[0] not in HANDLES:
                node = self.constants.typedefs[node.names[0]]
            else:
                return node
        return None

    def pointee(self, type_: MaybeNode) -> MaybeNode:
        """What a pointer of this type leads to, or an element of an array."""
        if trees.kind(type_) in ("PtrDecl", "ArrayDecl", "PointerTo"):
            return self.resolved(type_.type)
        return None

    def of(self, node: Node, declaration: DeclarationOf) -> MaybeNode:
        """The type of an expression; None if nothing is said of it. `declaration` finds that of a name."""
        method = getattr(self, f"of_{trees.kind(node)}", None)
        return method(node, declaration) if method is not None else None

    def of_ID(self, node: Node, declaration: DeclarationOf) -> MaybeNode:
        return self.resolved(declaration(node.name))

    def of_Cast(self, node: Node, declaration: DeclarationOf) -> MaybeNode:
        return self.resolved(node.to_type)

    def of_CompoundLiteral(self, node: Node, declaration: DeclarationOf) -> MaybeNode:
        return self.resolved(node.type)

    def of_UnaryOp(self, node: Node, declaration: DeclarationOf) -> MaybeNode:
        inner = self.of(node.expr, declaration)
        if node.op == "&":
            return PointerTo(inner) if inner is not None else None
        return self.pointee(inner) if node.op == "*" else inner if node.op in ("++", "--", "p++", "p--") else None

    def of_StructRef(self, node: Node, declaration: DeclarationOf) -> MaybeNode:
        whole = self.of(node.name, declaration)
        whole = self.pointee(whole) if node.type == "->" else whole
        return self.resolved(self.constants.members(whole).get(node.field.name)) if whole is not None else None

    def of_ArrayRef(self, node: Node, declaration: DeclarationOf) -> MaybeNode:
        return self.pointee(self.of(node.name, declaration))

    def of_BinaryOp(self, node: Node, declaration: DeclarationOf) -> MaybeNode:
        if node.op not in ("+", "-"):
            return None
        found = [self.of(it, declaration) for it in (node.left, node.right)]
        return next((it for it in found if self.pointee(it) is not None), None)

    def of_TernaryOp(self, node: Node, declaration: DeclarationOf) -> MaybeNode:
        return self.of(node.iftrue, declaration) or self.of(node.iffalse, declaration)

    def of_Assignment(self, node: Node, declaration: DeclarationOf) -> MaybeNode:
        return self.of(node.lvalue, declaration)

    def of_ExprList(self, node: Node, declaration: DeclarationOf) -> MaybeNode:
        return self.of(node.exprs[-1], declaration)

    def of_FuncCall(self, node: Node, declaration: DeclarationOf) -> MaybeNode:
        function = self.functions.get(trees.called(node) or "")
        return self.resolved(function.type.type) if function is not None else None

    def is_structure(self, node: Node, declaration: DeclarationOf) -> bool:
        """Whether an expression is a whole structure."""
        type_ = self.of(node, declaration)
        return type_ is not None and self.constants.structure(type_) is not None
