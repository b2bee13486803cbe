"""Expressions: constants, locals, arithmetic, and calls of functions of the file, which are followed."""
from dataclasses import replace
from typing import Callable, List, Optional, Sequence

from . import trees
from .answers import NONE, answers
from .addresses import A_CONSTANT, OPAQUE, Addresses, is_address, never_null
from .constants import POINTER, literal
from .families import Family
from .frames import Frame, Jumps
from .integers import BOOL, INT, WRITTEN, Integer
from .paths import Path
from .refusals import Lost, LostUse, Refusal
from .trees import MaybeNode, Node
from .values import (GREATEST, LOST, Address, Handle, Known, Nothing, Piece, Stamp, Text, Value, binary, constant, converted, lost, unary)

IN_PLACE = {
    "CompoundLiteral": ("a value without a name", "a local"),
    "InitList": ("a list of values", "a local for each of them"),
}
NOT_SET = Lost("this local has no value yet")
# The size of a structure: a number that isn't 0.
SOME_SIZE = Value(POINTER, (Piece(NONE, GREATEST, LOST, 0, Lost("the size of this isn't known", instead="a number"), answers((1, GREATEST))),))


class Expressions(Addresses):
    """What an expression is, and the ops that it takes."""

    def evaluate(self, node: Node, path: Path) -> Known:
        name = trees.kind(node)
        if name in IN_PLACE:
            raise self.refuse(node, f"{IN_PLACE[name][0]} has no op", IN_PLACE[name][1])
        method = getattr(self, f"of_{name}", None)
        if method is None:
            raise self.refuse(node, f"no expression of this kind ({name}) is read")
        return method(node, path)

    def of_Constant(self, node: Node, path: Path) -> Known:
        if node.value.startswith('"'):
            return Text()
        found = literal(node)
        if found is None:
            raise self.refuse(node, "floats have no op", "integers")
        return found

    def of_ID(self, node: Node, path: Path) -> Known:
        key = self.frame.local(node.name)
        opaque = self.opaque(node.name)
        if opaque is not None:
            return opaque
        if key is not None:
            return self.read_local(key, node, path)
        if node.name in self.unit.constants.numbers:
            return self.unit.constants.numbers[node.name]
        handle = self.handle_named(node.name)
        if handle is not None:
            return handle
        if node.name in self.unit.globals:
            return self.read_global(node, path)
        if node.name in self.unit.functions:
            raise self.refuse(node, "a function as a value has no op", "a call of it")
        raise self.refuse(node, f"`{node.name}` isn't declared in this file", "its declaration, or `#ifndef RTOSIM` around this")

    def of_Cast(self, node: Node, path: Path) -> Known:
        type_ = self.unit.constants.type_of(node.to_type)
        value = self.evaluate(node.expr, path)
        if type_ == "void":
            return Nothing()
        if not isinstance(value, Value) or isinstance(type_, str) and type_.startswith("handle"):
            return value
        if type_ == "a pointer":
            return converted(value, POINTER)
        if isinstance(type_, str):
            raise self.refuse(node, f"a cast to {type_} has no op", "integers")
        return self.fitted(value, type_, node, path)

    def of_ExprList(self, node: Node, path: Path) -> Known:
        value: Known = Nothing()
        for it in node.exprs:
            value = self.evaluate(it, path)
        return value

    def of_UnaryOp(self, node: Node, path: Path) -> Known:
        if node.op in ("++", "--", "p++", "p--"):
            return self.step(node, path)
        if node.op == "&":
            return self.address(node, path)
        if node.op == "sizeof":
            return self.size(node.expr) or SOME_SIZE
        if node.op == "*":
            return self.content(self.whole(node, path), node, path)
        value = self.evaluate(node.expr, path)
        if never_null(value) and node.op == "!":
            return constant(0)
        if is_address(value):
            return self.unknown("an address as a number isn't known")
        return self.unary(node, self.integer(value, node), path)

    def unary(self, node: Node, value: Value, path: Path) -> Value:
        return unary(node.op, value, path.state.answers)

    def of_TernaryOp(self, node: Node, path: Path) -> Known:
        key = f"?@{self.spot(node)}"
        ways = (node.iftrue, node.iffalse)

        def take(which: Node) -> Callable[[Path], None]:
            def go(fork: Path) -> None:
                self.put(key, self.evaluate(which, fork), which, fork)
            return go

        def part(end: Callable[[Path], None]) -> None:
            yes, no = (self.later(lambda fork, one=it: (take(one)(fork), end(fork))) for it in ways)
            self.condition(node.cond, path, yes, no)
        self.meet(path, part)
        return self.taken(key, path, node)

    def evaluate_all(self, nodes: Sequence[Node], path: Path) -> List[Known]:
        """The values of several expressions; a later one may overwrite the answer from which an earlier one is made."""
        return [self.taken(key, path) for key in self.keep_all(nodes, path)]

    def keep_all(self, nodes: Sequence[Node], path: Path) -> List[str]:
        """Evaluates several expressions, and returns the keys under which they are kept."""
        # (a sum has the place of its first operand, but another size)
        keys = [f"operand {at}@{self.spot(it)} {len(self.unit.below(it))}" for at, it in enumerate(nodes)]
        for key, it in zip(keys, nodes):
            self.put(key, self.operand(it, path), it, path)
        return keys

    def operand(self, node: Node, path: Path) -> Known:
        return self.evaluate(node, path)

    def fitted(self, value: Value, type_: Integer, node: Node, path: Path) -> Value:
        """The value as its type keeps it."""
        return converted(value, type_)

    # -- operators

    def of_BinaryOp(self, node: Node, path: Path) -> Known:
        if node.op in ("&&", "||"):
            return self.logical(node, path)
        since = self.since(node, path)
        if since is not None:
            return since
        left, right = self.evaluate_all([node.left, node.right], path)
        if isinstance(left, Handle) or isinstance(right, Handle):
            return self.compared_handles(node, left, right, path)
        if is_address(left) or is_address(right):
            return self.pointer_arithmetic(node, left, right, path)
        return self.arithmetic(node, self.integer(left, node.left), self.integer(right, node.right), path)

    def arithmetic(self, node: Node, left: Value, right: Value, path: Path) -> Value:
        return binary(node.op, left, right, path.state.answers)

    def compared_handles(self, node: Node, left: Known, right: Known, path: Path) -> Value:
        if node.op not in ("==", "!="):
            raise self.refuse(node, "this of a handle has no op", "a comparison with NULL or with another handle")
        if isinstance(left, Handle) and isinstance(right, Handle):
            is_same = left == right
        else:
            other = right if isinstance(left, Handle) else left
            is_same = self.number(other, node, path) != 0
        return constant(int(is_same == (node.op == "==")))

    def logical(self, node: Node, path: Path) -> Value:
        """`&&` and `||` as a number: the right one is asked only if the left one doesn't decide."""
        key, is_and = f"{node.op}@{self.spot(node)}", node.op == "&&"
        wanted = self.truth(self.evaluate(node.left, path), node.left, path)

        def fixed(fork: Path) -> None:
            self.put(key, constant(int(not is_and)), node, fork)

        def right(fork: Path) -> None:
            value = self.yes_or_no(self.evaluate(node.right, fork), node.right)
            self.put(key, replace(converted(value, BOOL), type=INT), node, fork)

        def part(end: Callable[[Path], None]) -> None:
            ways = [self.later(lambda fork, one=it: (one(fork), end(fork))) for it in (right, fixed)]
            self.branch(path, wanted, *(ways if is_and else reversed(ways)), node)
        self.meet(path, part)
        return self.integer(self.taken(key, path, node), node)

    def since(self, node: Node, path: Path) -> Optional[Value]:
        """`xTaskGetTickCount() - x`, if `x` is the time of the last stamp."""
        if node.op != "-" or trees.called(trees.plain(node.left)) != "xTaskGetTickCount":
            return None
        right = self.evaluate(node.right, path) if trees.kind(trees.plain(node.right)) == "ID" else None
        if not isinstance(right, Stamp):
            return None
        if right.number != path.state.stamp:
            raise self.refuse(node, "a task measures from its last time only, and this one is an earlier one",
                              "one time that is measured from, until it is read")
        return self.measured(node, path)

    # -- locals

    def read_local(self, key: str, node: Node, path: Path) -> Known:
        found = path.state.locals.get(key)
        if key in self.escaped:
            return self.unknown(f"`{key.split('@')[0]}` may be changed through its address")
        if found is None:
            raise self.refuse(node, "this local has no value here")
        return found

    def declare(self, name: str, type_: Node, node: Node) -> str:
        """A new local of the innermost block."""
        key = f"{name}@{self.spot(node)}"
        self.frame.scopes[-1][name] = key
        self.types[key], self.declarations[key] = type_, node
        return key

    def write_local(self, key: str, value: Known, node: Node, path: Path) -> Known:
        type_ = self.types[key]
        if type_ in OPAQUE:
            self.note(node, f"`{key.split('@')[0]}` isn't followed: this write is left out")
            return value
        if isinstance(value, Value):
            if isinstance(type_, Integer):
                value = self.fitted(value, type_, node, path)
            elif type_ != "a pointer" and not type_.startswith("handle"):
                raise self.refuse(node, f"{type_} has no op", "integers")
        elif isinstance(type_, Integer) and not isinstance(value, Stamp):
            raise self.refuse(node, "this is no integer", "integers in integers")
        self.put(key, value, node, path)
        return self.written(key, value, path)

    def written(self, key: str, value: Known, path: Path) -> Known:
        """What an assignment is, after it."""
        return value

    def of_Assignment(self, node: Node, path: Path) -> Known:
        if node.op not in WRITTEN:
            raise self.refuse(node, f"`{node.op}` isn't read")
        if self.is_ignored(node.lvalue):
            return self.leave_out_write(node.lvalue, node.rvalue, path)
        operator = WRITTEN[node.op]
        if operator is None:
            value = self.measured_from(node.lvalue, node.rvalue, path)
            value = self.evaluate(node.rvalue, path) if value is None else value
        else:
            left, right = self.evaluate_all([node.lvalue, node.rvalue], path)
            written = Written(operator, node)
            if is_address(left):
                value = self.pointer_arithmetic(written, left, right, path)
            else:
                value = self.arithmetic(written, self.integer(left, node), self.integer(right, node), path)
        return self.write(node.lvalue, value, node, path)

    def write(self, target: Node, value: Known, node: Node, path: Path) -> Known:
        """Gives what is named a new value."""
        name = trees.dotted(target)
        key = self.frame.local(name) if name is not None else None
        if key is not None:
            return self.write_local(key, value, node, path)
        if isinstance(value, Handle) and name is not None and self.frame.local(name.split(".")[0]) is None:
            self.note(node, f"`{name}` is `{value.name}` from reset on")
            return value
        if trees.kind(target) != "ID":
            return self.write_part(target, value, node, path)
        if self.unit.constants.type_of(self.unit.globals.get(target.name)) in (*OPAQUE, "a pointer"):
            return self.write_there(self.opaque(target.name) or Address(target.name), value, node, path)
        return self.write_global(target, self.integer(value, node), node, path)

    def write_part(self, target: Node, value: Known, node: Node, path: Path) -> Known:
        """Gives a member, an element, or what a pointer leads to a new value."""
        return self.write_there(self.whole(target, path), value, node, path)

    def step(self, node: Node, path: Path) -> Known:
        """`++` and `--`."""
        if self.is_ignored(node.expr):
            return self.leave_out_write(node.expr, None, path)
        key = f"before@{self.spot(node)}"
        there = self.evaluate(node.expr, path)
        if is_address(there):
            moved = self.pointer_arithmetic(Written(node.op.strip("p")[0], node), there, constant(1), path)
            written = self.write(node.expr, moved, node, path)
            return there if node.op.startswith("p") else written
        before = self.integer(there, node)
        self.put(key, before, node, path)
        after = self.arithmetic(Written(node.op.strip("p")[0], node), before, constant(1), path)
        written = self.write(node.expr, after, node, path)
        if not node.op.startswith("p") or node in self.unit.statement_nodes:
            self.taken(key, path)
            return written
        return self.taken(key, path, node)

    # -- what needs variables

    def read_global(self, node: Node, path: Path) -> Known:
        type_ = self.unit.constants.type_of(self.unit.globals[node.name])
        if self.is_ignored(node):
            return lost(INT, Lost(f"`{node.name}` is left out, so its value isn't known"))
        if type_ == "a pointer":
            return self.unknown(f"what `{node.name}` is isn't known")
        if not isinstance(type_, Integer):
            raise self.never_created(node, type_)
        self.need(Family.VARIABLES, node, f"a variable that tasks and handlers share, `{node.name}`", self.instead_of_global(node.name))
        raise NotImplementedError

    def never_created(self, node: Node, type_: str) -> Refusal:
        if type_.startswith("handle"):
            return self.refuse(node, f"`{node.name}` is created nowhere in this file", "its xQueueCreate, xTaskCreate or the like, in `main`")
        return self.refuse(node, f"{type_} has no op", "integers, and handles of objects and tasks")

    def instead_of_global(self, name: str) -> str:
        if name in self.unit.names_read():
            return "a queue or a semaphore that carries it, or bits of an event group"
        return f"--ignore {name}, or /* rtosim: ignore {name} */, if nothing depends on it"

    def write_global(self, target: Node, value: Value, node: Node, path: Path) -> Known:
        return self.read_global(target, path)

    def is_ignored(self, target: Node) -> bool:
        return trees.kind(target) == "ID" and self.frame.local(target.name) is None and target.name in self.unit.directives.ignored

    def leave_out_write(self, target: Node, value: MaybeNode, path: Path) -> Known:
        """A variable that has no effect is given no value; what is called for it is called."""
        if value is not None and trees.calls_in(value):
            self.evaluate(value, path)
        self.note(target, f"`{target.name}` is left out")
        return lost(INT, Lost(f"`{target.name}` is left out, so its value isn't known"))

    # -- calls of functions of the file

    def follow(self, node: Node, path: Path, on_return: Callable[[Path, Known], None]) -> None:
        """Follows a call of a function of the file; each of its ways ends by `on_return`, in the frame of the call."""
        name, outer = trees.called(node), self.frame
        if name in outer.functions():
            raise self.refuse(node, f"`{name}` calls itself, and a script has no recursion", "a loop")
        definition = self.unit.functions[name]
        keys = self.keep_all(trees.arguments(node), path)

        def leave(fork: Path, value: Known) -> None:
            value = self.returned(value, definition, node, fork)
            with self.using(outer):
                on_return(fork, value)
        inner = Frame(name, Jumps(leave), ({},), (*outer.calls, self.place(node).line), outer)
        with self.using(inner):
            self.bind(definition, keys, node, path)
            body = definition.body.block_items or []
            self.statements(body, path, lambda fork: leave(fork, Nothing()))

    def returned(self, value: Known, definition: Node, node: Node, path: Path) -> Known:
        """What a function returns, as its type keeps it."""
        type_ = self.unit.constants.type_of(definition.decl.type.type)
        return self.fitted(value, type_, node, path) if isinstance(type_, Integer) and isinstance(value, Value) else value

    def bind(self, definition: Node, keys: List[str], node: Node, path: Path) -> None:
        """Gives the parameters the values that are kept under these keys."""
        parameters = trees.parameters_of(definition)
        if len(parameters) != len(keys):
            raise self.refuse(node, f"{len(keys)} arguments for {len(parameters)} parameters")
        for parameter, kept in zip(parameters, keys):
            type_ = self.unit.constants.type_of(parameter)
            key = self.declare(parameter.name, "a pointer" if type_ == "an array" else type_, parameter)
            self.write_local(key, self.taken(kept, path, node), node, path)

    def followed_or_left_out(self, node: Node, path: Path) -> Known:
        """What a call of a function of the file returns. One that has no op is left out if it can't be followed."""
        name = trees.called(node)
        if not self.unit.has_no_op(name):
            return self.followed(node, path)
        try:
            with self.attempt(path):
                found = self.followed(node, path)
            why = found.lost() if isinstance(found, Value) and all(it.kind == LOST for it in found.pieces) else None
            if why is None or why.local is not None:
                return found
            return self.unknown(f"what {name} returns isn't known: {why.why}", f"--ignore {name}=NUMBER, or {A_CONSTANT}", why.array)
        except LostUse as why:
            if why.lost.taken_at is not None and self.changes_globals(node, path):
                raise
            self.let_parameters_go(node, path)
            self.keep_all(trees.arguments(node), path)
            self.note(node, f"`{name}` has no op: left out")
            return self.unknown(f"what {name} returns isn't known", f"--ignore {name}=NUMBER, or {A_CONSTANT}", why.lost.array)

    def followed(self, node: Node, path: Path) -> Known:
        """What a call of a function of the file returns."""
        key = f"return@{self.spot(node)}"

        def part(end: Callable[[Path], None]) -> None:
            def on_return(fork: Path, value: Known) -> None:
                self.put(key, value, node, fork)
                end(fork)
            self.follow(node, path, on_return)
        self.meet(path, part)
        return self.taken(key, path, node)


class Written:
    """An operator at the place of another node, as `+` of `+=`."""

    def __init__(self, op: str, node: Node) -> None:
        self.op, self.coord = op, node.coord


def not_set(type_: Node) -> Value:
    return lost(type_ if isinstance(type_, Integer) else INT, NOT_SET)

