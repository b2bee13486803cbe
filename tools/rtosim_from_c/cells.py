"""What globals, their members and their elements have before the scheduler starts, as cells by their names."""
import re
from dataclasses import dataclass, field
from typing import TYPE_CHECKING, Dict, Iterator, List, Optional, Union

from . import trees
from .constants import POINTER, text_numbers
from .initializers import MOST_ELEMENTS, Initializers
from .integers import Integer
from .refusals import Place
from .trees import MaybeNode, Node
from .values import Address, Handle, Value, constant, converted

if TYPE_CHECKING:
    from .unit import Unit

# A part of a name, as `.rx` or `[0]`.
PART = re.compile(r"\.(\w+)|\[(\d+)\]")


@dataclass(frozen=True)
class NotKnown:
    """Why a global isn't known when the scheduler starts."""

    why: str
    place: Place


# A constant, a handle, or the address of a global.
Content = Union[Value, Handle, Address]
Cell = Union[Content, NotKnown]


@dataclass
class Called:
    """A call that is followed: the function, the cells of its locals by their names, and whether it is surely made."""

    function: str
    number: int
    is_sure: bool = True
    names: Dict[str, str] = field(default_factory=dict)


class Cells:
    """The cells of a file, each a global or a member of one, by its name with dots; those of locals have `@`. A name that ends with `[*]`
    is that of all elements of an array that have no cell of their own."""

    def __init__(self, unit: "Unit") -> None:
        self.unit = unit
        self.cells: Dict[str, Cell] = {}
        self.declared: Dict[str, Node] = {}
        self.given = Initializers(unit.constants)

    def evaluate(self, node: Node, called: Called) -> Optional[Content]:
        """What an expression is; None if that isn't known."""
        raise NotImplementedError

    def value(self, name: str) -> Optional[Content]:
        """What a global has when the scheduler starts; None if that isn't known."""
        found = self.cells[self.cell_of(name)] if self.cell_of(name) in self.cells else self.initial(name)
        return None if isinstance(found, NotKnown) else found

    def cell_of(self, name: str) -> str:
        """The cell of a name: of an element perhaps that of all elements."""
        return all_of(name) if name.endswith("]") and name not in self.cells else name

    def why(self, name: str) -> Optional[NotKnown]:
        """Why a global isn't known when the scheduler starts."""
        found = self.cells.get(self.cell_of(name))
        return found if isinstance(found, NotKnown) else None

    def declaration(self, name: str) -> MaybeNode:
        """The declaration of a global or a local, or of a member of one."""
        found: MaybeNode = None
        for at, it in enumerate(name.split(".")):
            member, *indices = it.split("[")
            found = self.unit.constants.members(found).get(member) if at else self.declared.get(member) or self.unit.globals.get(member)
            for _ in indices:
                found = trees.element(found)
        return found

    def initial(self, name: str) -> Optional[Content]:
        """What a global is declared with."""
        root = trees.root(name)
        declaration = self.unit.globals.get(root)
        if declaration is None or "extern" in (declaration.storage or []) and declaration.init is None:
            return None
        node = declaration.init
        for member, index in PART.findall(name[len(root):]):
            if node is not None and trees.kind(node) != "InitList":
                return text_element(node, int(index)) if index else None
            given = node.exprs if node is not None else []
            inner = self.unit.constants.members(declaration).get(member) if member else trees.element(declaration)
            if inner is None:
                return None
            node = self.given.of_members(declaration, given).get(member) if member else self.given.of_element(declaration, given, int(index))
            declaration = inner
        return self.begun(declaration, node)

    def begun(self, declaration: Node, node: MaybeNode) -> Optional[Content]:
        """What a number, a handle or a pointer begins with; None for anything else."""
        type_ = self.unit.constants.type_of(declaration)
        is_pointer = type_ == "a pointer" or isinstance(type_, str) and type_.startswith("handle")
        if not isinstance(type_, Integer) and not is_pointer:
            return None
        if trees.kind(node) == "InitList":
            node = node.exprs[0]
        if node is None:
            return constant(0, type_ if isinstance(type_, Integer) else POINTER)
        found = self.evaluate(node, Called("", 0)) if is_pointer else self.unit.constants.value(node)
        return converted(found, type_) if isinstance(type_, Integer) and isinstance(found, Value) else found

    def leaves(self, name: str) -> Iterator[str]:
        """The members of a structure, and of an array of structures, that are no structures; a name of something else itself."""
        declaration = self.declaration(name)
        members = self.unit.constants.members(declaration)
        for it in members:
            if it:
                yield from self.leaves(f"{name}.{it}")
        is_table = self.unit.constants.structure(trees.element(declaration)) is not None or self.unit.arrays.is_followed(name)
        elements = self.elements(declaration) if is_table else 0
        for at in range(elements):
            yield from self.leaves(f"{name}[{at}]")
        if not members and not elements:
            yield name

    def elements(self, declaration: Node) -> int:
        """How many elements of an array are followed."""
        length = self.unit.constants.length(declaration) or 0
        return length if length <= MOST_ELEMENTS else 0

    def write(self, name: Optional[str], value: Optional[Content], node: Node, called: Called) -> None:
        if name is None:
            return
        if name.endswith("[?]"):
            self.set_all(name[:-len("[?]")], NotKnown("which element is given a value isn't known, before the scheduler starts", self.unit.place(node)))
            return
        if self.unit.constants.members(self.declaration(name)):
            self.copy(name, value, node, called)
            return
        type_ = self.unit.constants.type_of(self.declaration(name)) if self.declaration(name) is not None else ""
        if isinstance(type_, Integer) and isinstance(value, Value):
            value = converted(value, type_)
        place = self.unit.place(node)
        if value is None:
            self.cells[name] = NotKnown("it is given what isn't known, before the scheduler starts", place)
        elif called.is_sure or self.value(name) == value:
            self.cells[name] = value
        else:
            self.cells[name] = NotKnown("it is given a value that depends on what isn't known, before the scheduler starts", place)

    def copy(self, name: str, value: Optional[Content], node: Node, called: Called) -> None:
        for it in self.leaves(name):
            source = f"{value.name}{it[len(name):]}" if isinstance(value, Address) else None
            element = trees.element(self.declaration(it))
            is_array = element is not None and isinstance(self.unit.constants.type_of(element), Integer)
            for rest in [f"[{at}]" for at in range(self.elements(self.declaration(it)) * is_array)] or [""]:
                self.write(f"{it}{rest}", self.value(f"{source}{rest}") if source is not None else None, node, called)

    def fill(self, name: str, given: List[Node], node: Node, called: Called) -> None:
        """Gives a structure or an array the values of a list, and 0 if that has none."""
        declaration = self.declaration(name)
        names = [it for it in self.unit.constants.members(declaration) if it]
        found = Initializers(self.unit.constants, lambda it: isinstance(self.evaluate(it, called), Address)).of_members(declaration, given)
        parts = [(f"{name}.{it}", found.get(it)) for it in names]
        parts += [(f"{name}[{at}]", self.given.of_element(declaration, given, at)) for at in range(self.elements(declaration))]
        for inner, value in parts:
            is_many = bool(self.unit.constants.members(self.declaration(inner))) or trees.element(self.declaration(inner)) is not None
            if is_many and (value is None or trees.kind(value) == "InitList"):
                self.fill(inner, value.exprs if value is not None else [], node, called)
            else:
                value = value.exprs[0] if value is not None and trees.kind(value) == "InitList" else value
                self.write(inner, constant(0) if value is None else self.evaluate(value, called), node, called)

    def clear(self, name: str, node: Node, called: Called) -> None:
        for it in self.leaves(name):
            type_ = self.unit.constants.type_of(self.declaration(it)) if self.declaration(it) is not None else ""
            if type_ != "an array":
                self.write(it, constant(0), node, called)
            elif called.is_sure:
                self.set_all(it, constant(0))
            else:
                self.set_all(it, NotKnown("it is cleared if something isn't known, before the scheduler starts", self.unit.place(node)))

    def set_all(self, array: str, value: Cell) -> None:
        """Gives all elements of an array a value."""
        for it in [it for it in self.cells if it.startswith(f"{array}[")]:
            del self.cells[it]
        self.cells[f"{array}[*]"] = value

    def give_away(self, name: str, function: Optional[str], node: Node) -> None:
        """A function that isn't followed may change the numbers that are there."""
        for it in self.leaves(name):
            declaration = self.declaration(it)
            if declaration is not None and isinstance(self.unit.constants.type_of(declaration), Integer):
                self.cells[it] = given_away(function, self.unit.place(node))
            elif declaration is not None and self.unit.constants.type_of(declaration) == "an array":
                self.set_all(it, given_away(function, self.unit.place(node)))


def given_away(function: Optional[str], place: Place) -> NotKnown:
    return NotKnown(f"{function or 'a function'} is given its address before the scheduler starts", place)


def text_element(node: Node, at: int) -> Optional[Value]:
    """A character of a text that an array is declared with; 0 after its end."""
    numbers = text_numbers(node)
    return constant(numbers[at] if at < len(numbers) else 0) if numbers is not None else None


def all_of(element: str) -> str:
    return f"{element.rpartition('[')[0]}[*]"
