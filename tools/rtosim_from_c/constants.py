"""Types of declarations, and expressions that are constant wherever they are."""
import functools
import re
from typing import Dict, List, Optional, Sequence, Tuple, Union

from . import trees
from .answers import ALL
from .integers import INT, LONG_LONG, UNSIGNED, Integer, named
from .trees import MaybeNode, Node
from .values import Value, binary, constant, converted, known, unary

# The types of handles, each with the kinds of objects that it may be of.
HANDLES = {"QueueHandle_t": "queue", "SemaphoreHandle_t": "semaphore", "EventGroupHandle_t": "group", "TaskHandle_t": "task"}
ESCAPES = {"n": 10, "t": 9, "r": 13, "0": 0, "\\": 92, "'": 39, '"': 34, "a": 7, "b": 8, "f": 12, "v": 11}
SUFFIX = re.compile(r"[uUlL]*$")
ESCAPE = re.compile(r"\\(?:x[0-9a-fA-F]+|[0-7]{1,3}|.)")
CHARACTER = re.compile(f"{ESCAPE.pattern}|[^\\\\]")
POINTER = Integer(64, False)
# What a declaration may be of: integers, a handle by its kind, or another thing by its name.
Type = Union[Integer, str]


class Constants:
    """The types and the constants of a file."""

    def __init__(self, has_short_enums: bool = False) -> None:
        self.has_short_enums = has_short_enums
        # the types of enumerations, by their nodes and by their tags
        self.enums: Dict[Node, Integer] = {}
        self.typedefs: Dict[str, Node] = {}
        self.numbers: Dict[str, Value] = {}
        self.structures: Dict[str, Node] = {}

    def type_of(self, node: Node) -> Type:
        """The type of a declaration, a parameter or a cast: integers, `handle ..`, or what else it is."""
        name = trees.kind(node)
        if name in ("Decl", "Typename", "TypeDecl", "Typedef"):
            return self.type_of(node.type)
        if name == "Enum":
            return self.enums.get(node if node.values else node.name, UNSIGNED)
        if name == "IdentifierType":
            return self.named(node.names)
        return {"PtrDecl": "a pointer", "ArrayDecl": "an array", "Struct": "a structure", "Union": "a union",
                "FuncDecl": "a function"}.get(name, name)

    def named(self, names: List[str]) -> Type:
        if names == ["void"]:
            return "void"
        if len(names) == 1 and names[0] in HANDLES:
            return f"handle {HANDLES[names[0]]}"
        if len(names) == 1 and names[0] in self.typedefs:
            return self.type_of(self.typedefs[names[0]].type)
        if set(names) & {"float", "double"}:
            return "a float"
        return named(names) or f"of type {' '.join(names)}"

    def structure(self, node: Node) -> MaybeNode:
        """The structure of a type, with its members; None for any other type."""
        while trees.kind(node) in ("Decl", "Typename", "TypeDecl", "Typedef"):
            node = node.type
        if trees.kind(node) == "IdentifierType" and node.names[0] in self.typedefs:
            return self.structure(self.typedefs[node.names[0]])
        if trees.kind(node) != "Struct":
            return None
        return node if node.decls else self.structures.get(node.name)

    def members(self, node: Node) -> Dict[str, Node]:
        """The declarations of the members of a structure by their names; none for any other type."""
        whole = self.structure(node)
        return {it.name: it for it in (whole.decls if whole is not None else [])}

    def instances(self, whole: Node, declarations: Dict[str, Node], before: str = "") -> List[str]:
        """The names of all that is of this structure, among declarations and what is in them; twice for an array."""
        found: List[str] = []
        for name, it in declarations.items():
            type_, times = it.type, 1
            while trees.kind(type_) == "ArrayDecl":
                type_, times = type_.type, 2
            inner = self.structure(type_)
            if inner is whole:
                found += [f"{before}{name}"] * times
            elif inner is not None:
                found += self.instances(whole, self.members(type_), f"{before}{name}.") * times
        return found

    def value(self, node: Node) -> Optional[Value]:
        """The value of a constant expression; None if it is none, or none of integers."""
        name = trees.kind(node)
        if name == "Constant":
            return literal(node)
        if name == "ID":
            return self.numbers.get(node.name)
        if name == "Cast":
            return self.cast(node)
        if name == "UnaryOp":
            return self.of_one(node)
        if name == "BinaryOp":
            left, right = self.value(node.left), self.value(node.right)
            return None if left is None or right is None else known(binary_of(node.op, left, right))
        if name == "TernaryOp":
            which = self.value(node.cond)
            return None if which is None else self.value(node.iftrue if which.constant() else node.iffalse)
        return None

    def cast(self, node: Node) -> Optional[Value]:
        type_, inner = self.type_of(node.to_type), self.value(node.expr)
        if inner is None or isinstance(type_, str) and type_ not in ("a pointer", "void") and not type_.startswith("handle"):
            return None
        return converted(inner, POINTER if isinstance(type_, str) else type_)

    def of_one(self, node: Node) -> Optional[Value]:
        if node.op == "sizeof":
            size = self.size_of(node.expr)
            return constant(size, UNSIGNED) if size is not None else None
        inner = self.value(node.expr)
        return known(unary(node.op, inner, ALL)) if inner is not None and node.op in "+-~!" else None

    def size_of(self, node: Node) -> Optional[int]:
        """The bytes of a declaration or a type, if that is a number or an array of numbers."""
        type_ = self.type_of(node) if node is not None else None
        if isinstance(type_, Integer):
            return -(-type_.bits // 8)
        if type_ != "an array":
            return None
        array = node
        while trees.kind(array) != "ArrayDecl":
            array = array.type
        inner, count = self.size_of(array.type), self.value(array.dim) if array.dim is not None else None
        if array.dim is None:
            count = count_of(getattr(node, "init", None))
        length = count.constant() if count is not None else None
        return inner * length if inner is not None and length is not None else None

    def length(self, declaration: Node) -> Optional[int]:
        """How many elements an array has that is declared so."""
        array = declaration
        while trees.kind(array) in ("Decl", "TypeDecl"):
            array = array.type
        if trees.kind(array) != "ArrayDecl":
            return None
        found = self.value(array.dim) if array.dim is not None else count_of(getattr(declaration, "init", None))
        return found.constant() if found is not None else None

    def bytes_of(self, node: Node) -> Optional[int]:
        """The bytes of a type on a machine with 32 bits; those of a structure too."""
        found = self.layout(node)
        return found[0] if found is not None else None

    def layout(self, node: Node) -> Optional[Tuple[int, int]]:
        """The bytes of a type, and the number of bytes on which it begins."""
        type_, whole = self.type_of(node), self.structure(node)
        if isinstance(type_, Integer):
            size = -(-type_.bits // 8)
            return size, size
        if type_ == "a pointer" or type_.startswith("handle"):
            return 4, 4
        if type_ == "an array":
            inner, length = self.layout(trees.element(node)), self.length(node)
            return (inner[0] * length, inner[1]) if inner is not None and length is not None else None
        found = [self.layout(it) for it in whole.decls] if whole is not None else [None]
        if any(it is None for it in found) or any(getattr(it, "bitsize", None) is not None for it in whole.decls):
            return None
        size, begin = 0, 1
        for bytes_, step in (it for it in found if it is not None):
            size, begin = -(-size // step) * step + bytes_, max(begin, step)
        return -(-size // begin) * begin, begin

    def take_enum(self, node: Node) -> bool:
        """The constants of an enumeration, which are `int`s if they fit, and its type; false if another one of its tag has another type."""
        next_one: Optional[int] = 0
        found: List[int] = []
        for it in node.values.enumerators if node.values else []:
            value = self.value(it.value) if it.value is not None else None
            if it.value is not None:
                next_one = value.constant() if value is not None else None
            if next_one is None:
                continue
            found.append(next_one)
            self.numbers[it.name] = constant(next_one, type_of_literal(next_one, False, False, False) if next_one >= 0 else INT)
            next_one += 1
        if node.values:
            self.enums[node] = of_enum(found, self.has_short_enums)
        return not node.values or node.name is None or self.enums.setdefault(node.name, self.enums[node]) == self.enums[node]


def of_enum(numbers: Sequence[int], is_short: bool) -> Integer:
    """The type that a compiler gives an enumeration with these constants: it has a sign if one of them has."""
    least, greatest = min(numbers, default=0), max(numbers, default=0)
    types = [Integer(bits, least < 0) for bits in ((8, 16, 32, 64) if is_short else (32, 64))]
    return next(it for it in types if it.least <= least and greatest <= it.greatest)


def count_of(initial: Node) -> Optional[Value]:
    """How many elements an array has that is declared with these."""
    if trees.kind(initial) == "InitList" and not any(trees.kind(it) == "NamedInitializer" for it in initial.exprs):
        return constant(len(initial.exprs))
    if trees.kind(initial) == "Constant" and initial.value.startswith('"'):
        return constant(len(ESCAPE.sub("x", initial.value[1:-1])) + 1)
    return None


def binary_of(operator: str, left: Value, right: Value) -> Value:
    if operator in ("&&", "||"):
        first, second = bool(left.constant()), bool(right.constant())
        return constant(int(first and second if operator == "&&" else first or second))
    return binary(operator, left, right, ALL)


def numeral(text: str) -> Optional[Value]:
    """A number as C writes it."""
    try:
        return constant(int(text, 0))
    except ValueError:
        return None


def literal(node: Node) -> Optional[Value]:
    """A number or a character as it is written."""
    return written(node.type, node.value)


@functools.lru_cache(maxsize=None)
def written(type_: str, value: str) -> Optional[Value]:
    """A number or a character of this type, as it is written."""
    if type_ in ("char", "signed char", "unsigned char") or value.startswith("'"):
        return constant(character(value[1:-1]))
    if "float" in type_ or "double" in type_ or value.startswith('"'):
        return None
    digits = SUFFIX.sub("", value)
    is_decimal = not digits.startswith("0") or digits == "0"
    number = int(digits, 10) if is_decimal else int(digits, 0) if digits[1:2] in "xXbB" else int(digits, 8)
    suffix = value[len(digits):].lower()
    return constant(number, type_of_literal(number, "u" in suffix, "ll" in suffix, is_decimal))


def type_of_literal(number: int, is_unsigned: bool, is_long_long: bool, is_decimal: bool) -> Integer:
    types = [INT, UNSIGNED, LONG_LONG, Integer(64, False)]
    for it in types:
        if it.bits < 64 and is_long_long or is_unsigned and it.is_signed or is_decimal and not is_unsigned and not it.is_signed:
            continue
        if number <= it.greatest:
            return it
    return types[-1]


def text_numbers(node: Node) -> Optional[List[int]]:
    """The characters of a text; None for anything else."""
    is_text = trees.kind(node) == "Constant" and node.value.startswith('"')
    return [character(it) for it in CHARACTER.findall(node.value[1:-1])] if is_text else None


def character(text: str) -> int:
    if not text.startswith("\\"):
        return ord(text[0])
    if text[1:2] == "x":
        return int(text[2:], 16)
    return int(text[1:], 8) if text[1:].isdigit() else ESCAPES.get(text[1], ord(text[1]))
