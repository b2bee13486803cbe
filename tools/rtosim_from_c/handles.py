"""Handles of tasks that are NULL for a time: a driver keeps the caller's handle while its interrupt is to notify it.

Such a handle is a variable: 0 for NULL, and otherwise the number of the task in the file. A call with it loads it first. NULL there is
a check that fails, as it is an assertion of FreeRTOS."""
from typing import Dict, FrozenSet, Iterator, List, Optional, Set, Tuple, Union

from . import trees
from .answers import Answers, only
from .calls import TASK_CREATORS, Argument, Call
from .families import Target
from .frames import both
from .integers import UNSIGNED
from .paths import Path
from .registers import Registers
from .shared import is_shared
from .trees import Node
from .unit import GLOBAL, Handler, Task, Unit
from .values import Address, Handle, Known, Reference, Stored, Value, binary, constant, truth

CALLER = "xTaskGetCurrentTaskHandle"


class Handles(Registers):
    """Calls, reads and writes of handles that change."""

    def __init__(self, unit: Unit, target: Target, owner: Union[Task, Handler]) -> None:
        super().__init__(unit, target, owner)
        if unit.changing is None:
            unit.changing = changing_handles(unit)
        self.changing = unit.changing if self.has_variables else {}
        # The task of a call's argument, while the call is translated for this task.
        self.chosen: Dict[Node, Handle] = {}

    def number_of(self, task: str) -> int:
        return 1 + [it.name for it in self.unit.tasks].index(task)

    def variable_of(self, name: str) -> Stored:
        task = self.unit.created_as.get(name)
        return self.variable(f"{GLOBAL}{name.replace('.', '_')}", UNSIGNED, self.number_of(task) if task is not None else 0)

    def changing_name(self, node: Node, path: Path) -> Optional[str]:
        """The handle that changes and that a node names; None if it is none."""
        node = trees.plain(node)
        if trees.kind(node) == "ID":
            return node.name if node.name in self.changing and self.frame.local(node.name) is None else None
        if trees.kind(node) != "StructRef" or not any("." in it for it in self.changing):
            return None
        where = self.whole(node, path.fork(path.state.answers))
        if not isinstance(where, Address) or where.key is not None and not is_shared(where):
            return None
        return where.name if where.name in self.changing else None

    # -- reads and writes

    def evaluate(self, node: Node, path: Path) -> Known:
        if node in self.chosen:
            return self.chosen[node]
        name = self.changing_name(node, path) if self.changing and trees.kind(node) in ("ID", "StructRef") else None
        return super().evaluate(node, path) if name is None else self.load_handle(name, node, path)

    def operand(self, node: Node, path: Path) -> Known:
        return self.chosen.get(trees.plain(node)) or super().operand(node, path)

    def load_handle(self, name: str, node: Node, path: Path) -> Value:
        self.op(f"load {self.variable_of(name).name}", node, path)
        numbers = only(0, *(self.number_of(it) for it in self.changing[name]))
        return self.is_answered(numbers, UNSIGNED, node, path)

    def write(self, target: Node, value: Known, node: Node, path: Path) -> Known:
        name = self.changing_name(target, path) if self.changing else None
        if name is None or isinstance(value, (Address, Reference)):
            return super().write(target, value, node, path)
        stored = self.variable_of(name)
        if isinstance(value, Handle):
            self.op(f"store {stored.name} {self.number_of(value.name)}", node, path)
            self.is_answered(only(self.number_of(value.name)), UNSIGNED, node, path)
        else:
            self.store(stored, value, node, path)
        return value

    def compared_handles(self, node: Node, left: Known, right: Known, path: Path) -> Value:
        task, other = (left, right) if isinstance(left, Handle) else (right, left)
        is_loaded = isinstance(other, Value) and other.among(path.state.answers).constant() is None
        if not is_loaded or not isinstance(task, Handle) or task.kind != "task":
            return super().compared_handles(node, left, right, path)
        return self.arithmetic(node, other, constant(self.number_of(task.name)), path)

    # -- calls

    def call(self, call: Call, node: Node, path: Path) -> Known:
        """A call with such a handle, or with a local that has one: the same for each task that it may be of."""
        words = trees.arguments(node)
        word = next((it for one, it in zip(call.arguments, words) if one in (Argument.TASK, Argument.TASK_OR_CALLER)), None)
        word = trees.plain(word)
        tasks = self.tasks_of(word, path) if self.changing and word is not None and word not in self.chosen else None
        if tasks is None:
            return super().call(call, node, path)
        number = self.integer(self.evaluate(word, path), word)
        named = tasks
        if Argument.TASK_OR_CALLER in call.arguments:
            named = {0: self.owner.name, **tasks}
        else:
            self.expect(self.truth(number, word, path), word, path)
        key = f"call@{self.spot(node)}"

        def of_one(fork: Path) -> None:
            self.chosen[word] = Handle("task", next(name for it, name in named.items() if self.may_be(number, it, fork)))
            try:
                self.put(key, super(Handles, self).call(call, node, fork), node, fork)
            finally:
                del self.chosen[word]
        parts = [it for it in (self.numbered(number, it, path) for it in named) if it]
        if len(parts) == 1:
            of_one(path)
        elif parts:
            self.meet(path, lambda end: self.split(path, parts, both(of_one, end), node))
        return self.taken(key, path, node)

    def tasks_of(self, word: Node, path: Path) -> Optional[Dict[int, str]]:
        """The tasks that a handle which changes may be of, by their numbers; None for any other handle."""
        name = self.changing_name(word, path)
        key = self.frame.local(word.name) if trees.kind(word) == "ID" else None
        if name is None and not isinstance(path.state.locals.get(key) if key is not None else None, (Value, Stored)):
            return None
        tasks = self.changing[name] if name is not None else frozenset().union(*self.changing.values())
        return {self.number_of(it): it for it in sorted(tasks, key=self.number_of)}

    def numbered(self, value: Value, number: int, path: Path) -> Answers:
        """The last answers for which a value is this number."""
        found = binary("==", value, constant(number, UNSIGNED), path.state.answers)
        return truth(found, path.state.answers)

    def may_be(self, value: Value, number: int, path: Path) -> bool:
        return bool(self.numbered(value, number, path))

    def may_be_suspended(self) -> bool:
        return self.unit.may_be_suspended(self.owner.name, self.changing)


def changing_handles(unit: Unit) -> Dict[str, FrozenSet[str]]:
    """The handles of tasks that a task or a handler gives another value, each with the tasks that it may be of."""
    tasks: Dict[str, Set[str]] = {name: {it.name} for (scope, name), it in unit.handles.items() if it.kind == "task" and not scope}
    with_null: Set[str] = set()
    of_any: Set[str] = set()
    copies: List[Tuple[str, str]] = []
    for function, name, value in assignments(unit):
        copies += [(name, it) for it in unit.given.names(function, value)]
        given = tasks_given(unit, function, value)
        if given is not None:
            tasks.setdefault(name, set()).update(given)
        elif is_null(unit, value):
            with_null |= {name} if function in unit.fields.running else set()
        elif trees.called(value) not in TASK_CREATORS:
            of_any.add(name)
    for name in of_any & tasks.keys():
        tasks[name] = {it.name for it in unit.tasks}
    for _ in copies:
        with_null |= {name for name, source in copies if source in with_null}
    return {name: frozenset(it) for name, it in tasks.items() if it and (name in with_null or len(it) > 1)}


def assignments(unit: Unit) -> Iterator[Tuple[str, str, Node]]:
    """Each function that gives a global, or a member of one, a value: its name, that of the global, and the value."""
    for function, definition in unit.functions.items():
        for node in trees.walk(definition.body):
            if trees.kind(node) == "Assignment" and node.op == "=":
                for name in unit.given.names(function, node.lvalue):
                    if trees.root(name) in unit.globals:
                        yield function, name, trees.plain(node.rvalue)


def tasks_given(unit: Unit, function: str, value: Node) -> Optional[List[str]]:
    """The tasks whose handle a value is; None if it is no such handle."""
    if trees.called(value) == CALLER:
        return [it.name for it in unit.tasks if function in unit.reached([it.function])]
    return unit.fields.tasks_given(function, value)


def is_null(unit: Unit, value: Node) -> bool:
    found = unit.constants.value(value)
    return found is not None and found.constant() == 0
