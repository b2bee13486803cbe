"""What globals have when the scheduler starts. `main`, and what it calls, is followed as far as it gives globals, members of structures,
handles and pointers a value. What depends on a condition that isn't known isn't known then."""
from typing import TYPE_CHECKING, List, Optional, Tuple

from . import trees
from .answers import ALL
from .calls import COPIES, CREATORS, SETUP, TASK_CREATORS
from .cells import Called, Cells, Content
from .constants import POINTER, literal, numeral
from .integers import WRITTEN, Integer
from .trees import MaybeNode, Node
from .values import Address, Handle, Value, binary, constant, converted, known, unary

if TYPE_CHECKING:
    from .unit import Unit

STARTS = ("vTaskStartScheduler", "osKernelStart")
MOST_STEPS = 20_000
MOST_DEPTH = 30
MOST_TURNS = 64


class Started(Exception):
    """The scheduler has started."""


class Left(Exception):
    """A loop or a `switch` is left, or a turn of a loop."""

    def __init__(self, is_turn: bool) -> None:
        super().__init__()
        self.is_turn = is_turn


class Jumped(Exception):
    """A `goto` leads to this label."""

    def __init__(self, label: str) -> None:
        super().__init__()
        self.label = label


class Returned(Exception):
    """A function has returned this."""

    def __init__(self, value: Optional[Content]) -> None:
        super().__init__()
        self.value = value


class Reset(Cells):
    """Follows what gives cells their values."""

    def __init__(self, unit: "Unit") -> None:
        super().__init__(unit)
        self.steps = self.calls = self.depth = 0
        # what was created last: the call, and its arguments
        self.created: Tuple[str, List[Optional[Content]]] = ("", [])

    def run(self) -> None:
        """Follows what is called before the scheduler starts."""
        try:
            for it in self.roots():
                self.follow(it, [], Called("", 0))
        except Started:
            pass

    def roots(self) -> List[str]:
        """`main`, and what creates something and is called by no function of the file."""
        found = [it for it in SETUP if it in self.unit.functions]
        running = {it.function for it in (*self.unit.tasks, *self.unit.handlers)}
        for name, it in self.unit.functions.items():
            creates = any(one in CREATORS or one in TASK_CREATORS for one in trees.calls_in(it))
            if creates and name not in self.unit.given.calls and name not in running and name not in found:
                found.append(name)
        return found

    # -- statements

    def follow(self, function: str, values: List[Optional[Content]], caller: Called,
               arguments: Optional[List[Node]] = None) -> Optional[Content]:
        """Follows a call, and returns what the function does."""
        definition = self.unit.functions[function]
        if self.depth >= MOST_DEPTH:
            return None
        self.calls += 1
        self.depth += 1
        called = Called(function, self.calls, caller.is_sure)
        try:
            for at, it in enumerate(trees.parameters_of(definition)):
                name = self.declare(it, called)
                self.write(name, values[at] if at < len(values) else None, (arguments or [definition] * (at + 1))[at], called)
            self.execute(definition.body, called)
        except Returned as found:
            return found.value
        except (Left, Jumped):
            return None
        finally:
            self.depth -= 1
        return None

    def declare(self, node: Node, called: Called) -> str:
        name = f"{node.name}@{called.function}" if "static" in (node.storage or []) else f"{node.name}@{called.number}"
        called.names[node.name] = name
        self.declared[name] = node
        return name

    def execute(self, node: Node, called: Called) -> None:
        """One statement."""
        self.steps += 1
        if node is None:
            return
        if self.steps > MOST_STEPS:
            called.is_sure = False
        method = getattr(self, f"do_{trees.kind(node)}", None)
        if method is not None:
            method(node, called)
        elif trees.kind(node) not in ("Pragma", "EmptyStatement", "Typedef"):
            self.evaluate(node, called)

    def perhaps(self, nodes: List[Node], called: Called) -> None:
        """Statements that are perhaps not reached. After a jump in them it isn't known either whether what follows is reached."""
        before, called.is_sure = called.is_sure, False
        for it in nodes:
            self.execute(it, called)
        jumps = {one for it in nodes if it is not None for one in trees.escapes(it)} - {"return"}
        called.is_sure = before and not jumps

    def do_Compound(self, node: Node, called: Called) -> None:
        names, items, at = dict(called.names), node.block_items or [], 0
        while at < len(items):
            try:
                self.execute(items[at], called)
            except Jumped as jump:
                labels = [number for number, it in enumerate(items) if trees.kind(it) == "Label" and it.name == jump.label and number > at]
                if not labels:
                    raise
                at = labels[0] - 1
            at += 1
        called.names = names

    def do_Break(self, node: Node, called: Called) -> None:
        if called.is_sure:
            raise Left(False)

    def do_Continue(self, node: Node, called: Called) -> None:
        if called.is_sure:
            raise Left(True)

    def do_Goto(self, node: Node, called: Called) -> None:
        if called.is_sure:
            raise Jumped(node.name)

    def do_DeclList(self, node: Node, called: Called) -> None:
        for it in node.decls:
            self.do_Decl(it, called)

    def do_Decl(self, node: Node, called: Called) -> None:
        if node.name is None or trees.kind(node.type) == "FuncDecl":
            return
        name = self.declare(node, called)
        if node.init is None and "static" in (node.storage or []):
            self.cells.setdefault(name, constant(0))
        if node.init is None or "static" in (node.storage or []) and name in self.cells:
            return
        if trees.kind(node.init) == "InitList":
            self.fill(name, node.init.exprs, node, called)
        else:
            self.assign(name, node.init, node, called)

    def do_If(self, node: Node, called: Called) -> None:
        which = self.truth(node.cond, called)
        if which is None:
            self.perhaps([node.iftrue, node.iffalse], called)
        else:
            self.execute(node.iftrue if which else node.iffalse, called)

    def do_While(self, node: Node, called: Called) -> None:
        self.loop(node, called, True)

    def do_DoWhile(self, node: Node, called: Called) -> None:
        self.loop(node, called, False)

    def do_For(self, node: Node, called: Called) -> None:
        names = dict(called.names)
        self.execute(node.init, called)
        self.loop(node, called, True)
        called.names = names

    def loop(self, node: Node, called: Called, is_asked: bool) -> None:
        """The turns of a loop, if its condition says how many they are."""
        before = called.is_sure
        try:
            for _ in range(MOST_TURNS):
                which = self.asked(node, called) if is_asked else True
                if which is False:
                    return
                if which is None:
                    break
                self.turn(node, called)
                is_asked = True
            self.perhaps([node.stmt, getattr(node, "next", None)], called)
        except Left:
            pass
        finally:
            called.is_sure = before and ("goto" not in trees.escapes(node) or called.is_sure)

    def asked(self, node: Node, called: Called) -> Optional[bool]:
        return self.truth(node.cond, called) if getattr(node, "cond", None) is not None else True

    def turn(self, node: Node, called: Called) -> None:
        try:
            self.execute(node.stmt, called)
        except Left as left:
            if not left.is_turn:
                raise
        self.execute(getattr(node, "next", None), called)

    def do_Switch(self, node: Node, called: Called) -> None:
        which, before, names = self.evaluate(node.cond, called), called.is_sure, dict(called.names)
        parts = list(trees.cut_at_labels(trees.statements_of(node)))
        values = [self.unit.constants.value(it.expr) if trees.kind(it) == "Case" else None for it in parts]
        found = [at for at, it in enumerate(values) if it is not None and isinstance(which, Value) and is_same(which, it)]
        found += [at for at, it in enumerate(parts) if trees.kind(it) == "Default"]
        if not isinstance(which, Value) or which.constant() is None:
            self.perhaps([it for it in parts if not trees.is_label(it)], called)
            found = []
        try:
            for it in parts[:found[0]] if found else []:
                if trees.kind(it) == "Decl":
                    self.declare(it, called)
            for it in parts[found[0]:] if found else []:
                if not trees.is_label(it):
                    self.execute(it, called)
        except Left as left:
            if left.is_turn:
                raise
        finally:
            called.is_sure = before and (not trees.escapes(node) - {"return"} or called.is_sure)
            called.names = names

    def do_Label(self, node: Node, called: Called) -> None:
        self.execute(node.stmt, called)

    def do_Return(self, node: Node, called: Called) -> None:
        value = self.evaluate(node.expr, called) if node.expr is not None else None
        if called.is_sure:
            raise Returned(value)

    # -- expressions

    def truth(self, node: Node, called: Called) -> Optional[bool]:
        found = self.evaluate(node, called)
        if isinstance(found, (Handle, Address)):
            return True
        return None if found is None else bool(found.constant())

    def evaluate(self, node: Node, called: Called) -> Optional[Content]:
        """What an expression is; None if that isn't known."""
        method = getattr(self, f"of_{trees.kind(node)}", None)
        return method(node, called) if method is not None else None

    def of_Constant(self, node: Node, _: Called) -> Optional[Content]:
        return None if node.value.startswith('"') else literal(node)

    def of_ID(self, node: Node, called: Called) -> Optional[Content]:
        if node.name not in called.names and node.name in self.unit.constants.numbers:
            return self.unit.constants.numbers[node.name]
        name = self.place(node, called)
        type_ = self.unit.constants.type_of(self.declaration(name)) if name is not None else ""
        return Address(name) if name is not None and type_ in ("a structure", "an array") else self.read(name, called)

    def read(self, name: Optional[str], called: Called) -> Optional[Content]:
        if name is None or name.endswith("[?]"):
            return None
        return self.value(name) if name in self.cells else self.unit.handles.get((called.function, name.split("@")[0])) or self.value(name)

    def of_Cast(self, node: Node, called: Called) -> Optional[Content]:
        found, type_ = self.evaluate(node.expr, called), self.unit.constants.type_of(node.to_type)
        if not isinstance(found, Value):
            return found
        return converted(found, type_ if isinstance(type_, Integer) else POINTER)

    def of_UnaryOp(self, node: Node, called: Called) -> Optional[Content]:
        if node.op == "&":
            name = self.place(node.expr, called)
            return Address(name) if name is not None else None
        if node.op == "sizeof":
            return self.unit.constants.value(node)
        if node.op == "*":
            return self.read(self.place(node, called), called)
        inner = self.evaluate(node.expr, called)
        if node.op in ("++", "--", "p++", "p--"):
            after = binary(node.op.strip("p")[0], inner, constant(1), ALL) if isinstance(inner, Value) else None
            self.write(self.place(node.expr, called), after, node, called)
            return inner if node.op.startswith("p") else after
        if isinstance(inner, (Handle, Address)):
            return constant(0) if node.op == "!" else None
        return known(unary(node.op, inner, ALL)) if inner is not None else None

    def of_BinaryOp(self, node: Node, called: Called) -> Optional[Content]:
        if node.op in ("&&", "||"):
            return self.logical(node, called)
        left, right = self.evaluate(node.left, called), self.evaluate(node.right, called)
        if left is None or right is None:
            return None
        if isinstance(left, Value) and isinstance(right, Value):
            return known(binary(node.op, left, right, ALL))
        if node.op not in ("==", "!="):
            return None
        return constant(int((left == right) == (node.op == "==")))

    def logical(self, node: Node, called: Called) -> Optional[Content]:
        first = self.truth(node.left, called)
        if first is not None and first == (node.op == "||"):
            return constant(int(first))
        before, called.is_sure = called.is_sure, called.is_sure and first is not None
        second = self.truth(node.right, called)
        called.is_sure = before
        return None if first is None or second is None else constant(int(second))

    def of_TernaryOp(self, node: Node, called: Called) -> Optional[Content]:
        which = self.truth(node.cond, called)
        return None if which is None else self.evaluate(node.iftrue if which else node.iffalse, called)

    def of_ExprList(self, node: Node, called: Called) -> Optional[Content]:
        return [self.evaluate(it, called) for it in node.exprs][-1]

    def of_StructRef(self, node: Node, called: Called) -> Optional[Content]:
        name = self.place(node, called)
        type_ = self.unit.constants.type_of(self.declaration(name)) if name is not None and self.declaration(name) is not None else ""
        return Address(name) if name is not None and type_ in ("a structure", "an array") else self.read(name, called)

    of_ArrayRef = of_StructRef

    def of_Assignment(self, node: Node, called: Called) -> Optional[Content]:
        name = self.place(node.lvalue, called)
        if node.op == "=":
            if trees.kind(node.rvalue) == "CompoundLiteral" and name is not None and trees.kind(node.rvalue.init) == "InitList":
                self.fill(name, node.rvalue.init.exprs, node, called)
                return None
            return self.assign(name, node.rvalue, node, called)
        left, right = self.read(name, called), self.evaluate(node.rvalue, called)
        is_number = isinstance(left, Value) and isinstance(right, Value)
        value = known(binary(WRITTEN[node.op] or "+", left, right, ALL)) if is_number else None
        self.write(name, value, node, called)
        return value

    def assign(self, name: Optional[str], value: Node, node: Node, called: Called) -> Optional[Content]:
        """Gives a cell a value; if that is created here, it is the object of that name."""
        found = self.evaluate(value, called)
        creates = trees.called(trees.plain(value)) in CREATORS or found is None and trees.called(trees.plain(value)) in self.unit.functions
        if creates and name is not None:
            handle = self.unit.handles.get(("", name)) or self.unit.handles.get((called.function, name.split("@")[0]))
            found = self.describe(handle) if handle is not None and found is None else found
        self.write(name, found, node, called)
        return found

    def place(self, node: Node, called: Called) -> Optional[str]:
        """The cell that is named; None if that isn't known."""
        name = trees.kind(node)
        if name == "ID":
            return called.names.get(node.name) or (node.name if node.name in self.unit.globals else None)
        if name == "StructRef" and node.type == ".":
            inner = self.place(node.name, called)
            return f"{inner}.{node.field.name}" if inner is not None else None
        if name == "ArrayRef":
            array, index = self.evaluate(node.name, called), self.evaluate(node.subscript, called)
            element = trees.element(self.declaration(array.name)) if isinstance(array, Address) else None
            if element is not None and isinstance(index, Value):
                return f"{array.name}[{index.constant()}]"
            return f"{array.name}[?]" if element is not None and isinstance(self.unit.constants.type_of(element), Integer) else None
        pointer = node.name if name == "StructRef" else node.expr if name == "UnaryOp" and node.op == "*" else None
        found = self.evaluate(pointer, called) if pointer is not None else None
        if not isinstance(found, Address):
            return None
        return f"{found.name}.{node.field.name}" if name == "StructRef" else found.name

    # -- calls

    def of_FuncCall(self, node: Node, called: Called) -> Optional[Content]:
        name, words = trees.called(node), trees.arguments(node)
        if name in STARTS and called.is_sure:
            raise Started()
        values = [self.evaluate(it, called) for it in words]
        if name in CREATORS:
            self.created = name, values
            found = self.unit.created_by.get(id(node), [])
            return self.describe(found[0]) if len(found) == 1 else None
        if name in TASK_CREATORS:
            return self.create_task(node, values, called)
        if name in self.unit.functions and name not in self.unit.directives.ignored:
            return self.follow(name, values, called, words)
        is_clear = name == "memset" and len(values) == 3 and isinstance(values[0], Address) and values[1] == constant(0)
        if is_clear and self.unit.fills(self.declaration(values[0].name), words[2], lambda it: self.declared_as(it, called)):
            self.clear(values[0].name, node, called)
            return values[0]
        if name in COPIES and len(values) == 3 and all(isinstance(it, Address) for it in values[:2]) and self.are_alike(values, words, called):
            self.write(values[0].name, values[1], node, called)
            return values[0]
        for at, it in enumerate(values):
            if isinstance(it, Address) and not self.unit.keeps(node, at):
                self.give_away(it.name, name, node)
        given = self.unit.directives.ignored.returns(name) if name is not None and name in self.unit.directives.ignored else ""
        return (self.unit.constants.numbers.get(given) or numeral(given)) if given else None

    def describe(self, handle: Handle) -> Handle:
        """Gives an object the numbers with which it was created, if those aren't constants in the text."""
        name, values = self.created
        for key, value in zip(CREATORS[name][1:] if name else (), values):
            if isinstance(value, Value) and self.unit.not_constant.pop((handle.name, key), None) is not None:
                self.unit.object(handle.name).numbers[key] = value.constant() or 0
        return handle

    def create_task(self, node: Node, values: List[Optional[Content]], called: Called) -> Optional[Content]:
        task = self.unit.task_of.get(id(node))
        if task is None:
            return None
        if called.is_sure and values[3] is not None and "@" not in getattr(values[3], "name", ""):
            task.parameter = self.unit.followed(values[3]) if isinstance(values[3], Address) else values[3]
        found = Handle("task", task.name)
        if trees.called(node) != "xTaskCreate":
            return found
        if isinstance(values[5], Address):
            self.write(values[5].name, found, node, called)
        return constant(1)

    def are_alike(self, places: List[Optional[Content]], words: List[Node], called: Called) -> bool:
        """Whether a copy is of one whole structure to another."""
        declared = [self.declaration(getattr(it, "name", "")) for it in places[:2]]
        structures = [self.unit.constants.structure(it) for it in declared]
        fills = self.unit.fills(declared[0], words[2], lambda it: self.declared_as(it, called))
        return structures[0] is not None and structures[0] is structures[1] and fills

    def declared_as(self, name: str, called: Called) -> MaybeNode:
        """The declaration of what is named in a function."""
        return self.declaration(called.names[name]) if name in called.names else self.unit.globals.get(name)


def is_same(value: Value, label: Value) -> bool:
    found = binary("==", value, label, ALL).constant()
    return found == 1
