"""Registers of the hardware: the members of a global structure whose name begins with `rtosim_`, which a handler or a task may set."""
from typing import Optional, Union

from . import trees
from .addresses import SOMEWHERE
from .elements import Elements
from .integers import Integer
from .paths import Path
from .trees import Node
from .unit import GLOBAL, STUB
from .values import Address, Known, Reference, Stored, Value, the_answer


class Registers(Elements):
    """Such a member is a variable, as a global is."""

    def register(self, where: Union[Address, Reference]) -> Optional[Stored]:
        """The variable of what is there; None if it is no register."""
        if not self.has_variables or not isinstance(where, Address) or where.key is not None or not where.name.startswith(STUB):
            return None
        name, *members = where.name.split(".")
        declaration = self.unit.globals.get(name)
        for it in members:
            declaration = self.unit.constants.members(declaration).get(it)
        type_ = self.unit.constants.type_of(declaration) if declaration is not None else None
        if not members or not isinstance(type_, Integer):
            return None
        initial = self.unit.reset.value(where.name)
        return self.variable(GLOBAL + where.name[len(STUB):], type_, (initial.constant() or 0) if isinstance(initial, Value) else 0)

    def whole(self, node: Node, path: Path) -> Union[Address, Reference]:
        found = super().whole(node, path)
        is_beside = trees.kind(node) == "ArrayRef" and self.register(found) is not None
        return Address(SOMEWHERE) if is_beside else found

    def content(self, where: Union[Address, Reference], node: Node, path: Path) -> Known:
        stored = self.register(where)
        return super().content(where, node, path) if stored is None else self.load(stored, node, path)

    def write_there(self, where: Union[Address, Reference], value: Known, node: Node, path: Path) -> Known:
        stored = self.register(where)
        if stored is None:
            return super().write_there(where, value, node, path)
        self.store(stored, self.fitted(self.integer(value, node), stored.type, node, path), node, path)
        return the_answer(stored.type, path.state.answers)
