"""Calls of FreeRTOS: by the table, each with its arguments, its op and what it returns."""
from typing import Dict, List, Optional, Tuple

from . import trees
from .answers import NUMBERS, NONE, Answers, answers, failing, condition_for, only
from .calls import (CALLS, CREATORS, IN_SECTIONS, MASKS_OF_HANDLERS, NO_OP, OF_INTERRUPTS, SILENT, TASK_CREATORS, WITHOUT_OP, YIELDS_OF_HANDLERS, Answer,
                    Argument, Call, Result, Who)
from .constants import numeral
from .core import Compared
from .expressions import Expressions
from .families import Family
from .frames import both
from .integers import INT, UNSIGNED, Integer
from .interrupts import handlers_of
from .paths import Path
from .refusals import Lost, LostUse, Place, Refusal
from .trees import MaybeNode, Node
from .values import (LOST, NUMBER, Address, Handle, Known, Nothing, Piece, Reference, Stamp, Value, constant, converted, is_received, lost,
                     steady, the_answer)

FOREVER = 4294967295
KINDS = {
    Argument.QUEUE: ("queue",), Argument.SEMAPHORE: ("binary", "counting", "mutex"), Argument.GROUP: ("group",), Argument.TASK: ("task",),
    Argument.TASK_OR_CALLER: ("task",),
}
# Arguments that a script has as numbers. One that depends on the last answer makes an op for each number, if these are few.
CONSTANTS = (Argument.NUMBER, Argument.TICKS, Argument.MASK, Argument.BITS, Argument.BITS_AFTER, Argument.WAIT)
MOST_NUMBERS = 4
# The actions of eNotifyAction, in its order; those that take a value have a place for it.
ACTIONS = ("none", "bits {}", "increment", "overwrite {}", "keep {}")
BY_HANDLER = Lost("whether a handler has woken a task isn't known here", instead="portYIELD_FROM_ISR with it, or nothing")
LEAST_MASK, GREATEST_MASK = 1, (1 << 24) - 1


class Api(Expressions):
    """Calls, and the ops that they make."""

    def of_FuncCall(self, node: Node, path: Path) -> Known:
        name = trees.called(node)
        if name is None:
            raise self.refuse(node, "a call by a pointer to a function has no op", "a call of the function by its name")
        if self.unit.fails(name):
            self.evaluate_calls(node, path)
            self.fail(node, path)
            return Nothing()
        if name in self.unit.directives.ignored or name in WITHOUT_OP and name not in self.unit.functions:
            return self.left_out(name, node, path)
        if name in CALLS:
            return self.call(CALLS[name], node, path)
        if name in self.unit.functions:
            key = self.result_key(node)
            return self.taken(key, path, node) if key in path.state.locals else self.followed_or_left_out(node, path)
        return self.other_call(name, node, path)

    def other_call(self, name: str, node: Node, path: Path) -> Known:
        if name == "configASSERT":
            self.assertion(trees.arguments(node)[0], path)
            return Nothing()
        if name in YIELDS_OF_HANDLERS and self.is_handler:
            self.evaluate_calls(node, path)
            self.note(node, f"{name}: every handler ends so here")
            return Nothing()
        if name in MASKS_OF_HANDLERS and not self.is_handler:
            raise self.refuse(node, f"{name} is for a handler", "taskENTER_CRITICAL() and taskEXIT_CRITICAL()")
        if name in MASKS_OF_HANDLERS:
            self.evaluate_calls(node, path)
            self.note(node, f"{name}: no handler comes during another here")
            return constant(0)
        if name in OF_INTERRUPTS:
            return self.interrupt(name, node, path)
        if name in (*CREATORS, *TASK_CREATORS):
            return self.creation(name, node)
        if name == "xTaskGetCurrentTaskHandle" and not self.is_handler:
            return Handle("task", self.owner.name)
        if name in NO_OP:
            what, instead = NO_OP[name]
            raise self.refuse(node, f"{name}: {what}", instead)
        raise not_here(name, self.place(node))

    def left_out(self, name: str, node: Node, path: Path) -> Known:
        """A call that has no effect on tasks. What its arguments call is called all the same. Locals whose addresses it takes aren't known."""
        self.evaluate_calls(node, path)
        if name not in SILENT:
            self.let_arguments_go(node, path)
        self.note(node, f"{name} is left out")
        given = self.unit.directives.ignored.returns(name) if name in self.unit.directives.ignored else ""
        return self.given(name, given, node) if given else lost(INT, Lost(f"what {name} returns isn't known", instead=f"--ignore {name}=NUMBER"))

    def given(self, name: str, text: str, node: Node) -> Value:
        """What a function that is left out returns: a number, or the name of a constant."""
        found = self.unit.constants.numbers.get(text) or numeral(text)
        if found is None:
            raise self.refuse(node, f"`{text}`, which {name} is to return, is no number", f"--ignore {name}=NUMBER")
        return found

    def evaluate_calls(self, node: Node, path: Path) -> None:
        """Calls among the arguments of a call that has no op."""
        for it in trees.arguments(node):
            if trees.calls_in(it):
                self.evaluate(it, path)

    def interrupt(self, name: str, node: Node, path: Path) -> Known:
        """An interrupt is enabled or disabled."""
        found = handlers_of(self.unit, node)
        if not found:
            raise self.refuse(node, f"{name}: which handler of this file this is about isn't known",
                              f"{name}(EXTI0_IRQn), with EXTI0_IRQHandler in this file; --ignore {name} leaves it out")
        for it in found:
            self.op(f"{OF_INTERRUPTS[name]} {it.name}", node, path)
        return Nothing()

    def creation(self, name: str, node: Node) -> Known:
        self.note(node, f"{name}: what it creates is there from reset on", name in TASK_CREATORS)
        made, task = self.unit.created_by.get(id(node), []), self.unit.task_of.get(id(node))
        if task is not None and name != "xTaskCreate":
            return Handle("task", task.name)
        return made[0] if len(made) == 1 else constant(1)

    # -- calls of the table

    def call(self, call: Call, node: Node, path: Path) -> Known:
        if call.who is Who.HANDLER and not self.is_handler or call.who is Who.TASK and self.is_handler:
            whose = "a handler" if call.who is Who.HANDLER else "a task"
            raise self.refuse(node, f"{call.function} is for {whose}", of_the_other(call))
        self.need(call.family, node, f"{call.function} ({call.op.split()[0]})", call.instead)
        words = trees.arguments(node)
        if len(words) != len(call.arguments):
            raise self.refuse(node, f"{call.function} has {len(call.arguments)} arguments, and here {len(words)}")
        values = dict(zip(call.arguments, self.evaluate_all(words, path)))
        nodes = dict(zip(call.arguments, words))
        parts = self.parts_by_numbers(values, path)
        if not parts:
            return self.made(call, values, nodes, node, path)
        key = f"call@{self.spot(node)}"

        def of_part(fork: Path) -> None:
            # an op for an item takes the answer, so what depends on that is a constant before
            now = {argument: steady(it.among(fork.state.answers)) if isinstance(it, Value) else it for argument, it in values.items()}
            self.put(key, self.made(call, now, nodes, node, fork), node, fork)
        self.meet(path, lambda end: self.split(path, parts, both(of_part, end), node))
        return self.taken(key, path, node)

    def parts_by_numbers(self, values: Dict[Argument, Known], path: Path) -> List[Answers]:
        """The last answers apart by an argument that must be a constant, if it is one of a few."""
        for argument, value in values.items():
            now = value.among(path.state.answers) if argument in CONSTANTS and isinstance(value, Value) else None
            if now is None or now.constant() is not None or any(it.kind != NUMBER for it in now.pieces):
                continue
            parts: Dict[int, List[Tuple[int, int]]] = {}
            for it in now.pieces:
                parts.setdefault(it.number, []).append((it.low, it.high))
            return [answers(*it) for it in parts.values()] if len(parts) <= MOST_NUMBERS else []
        return []

    def made(self, call: Call, values: Dict[Argument, Known], nodes: Dict[Argument, Node], node: Node, path: Path) -> Known:
        """The op of a call, and what the function returns."""
        texts = {it.word: self.text(it, values, nodes[it], path) for it in call.arguments}
        op = call.op
        if call.of_mutex and self.handle(values[Argument.SEMAPHORE], Argument.SEMAPHORE, node).kind == "mutex":
            op = call.of_mutex
        if op == "work {number}" and texts["number"] == "0":
            return Nothing()
        self.take_daemon(op)
        self.take_section(call.function, op, node, path)
        self.op(op.format(**texts), node, path)
        return self.answered(call, values, texts, node, path)

    def take_daemon(self, op: str) -> None:
        if self.is_handler and op.split()[0] in ("set", "clear"):
            self.uses_daemon = True

    def take_section(self, function: str, op: str, node: Node, path: Path) -> None:
        """Counts critical sections, and warns of what is misuse in one, or outside of all."""
        word, sections = op.split()[0], path.state.sections
        if sections > 0 and word not in IN_SECTIONS:
            self.note(node, f"{function} in a critical section: the run ends here with a misuse", True)
        if sections == 0 and word == "exit_critical":
            self.note(node, f"{function} without a critical section: the run ends here with a misuse", True)
        path.state = path.state.in_sections((word == "enter_critical") - (word == "exit_critical"))

    def text(self, argument: Argument, values: Dict[Argument, Known], node: Node, path: Path) -> str:
        """The argument as a word of the op; empty if it is none."""
        value = values[argument]
        if argument in KINDS:
            return self.handle(value, argument, node).name
        if argument is Argument.ITEM:
            return self.item(value, self.handle(values[Argument.QUEUE], Argument.QUEUE, node), node, path)
        if argument is Argument.MARK:
            return self.number_or_answer(value, argument, node, path)
        if argument in (Argument.NUMBER, Argument.TICKS, Argument.MASK, Argument.BITS, Argument.BITS_AFTER):
            return str(self.fixed(value, argument, node, path))
        if argument is Argument.WAIT:
            ticks = self.fixed(value, argument, node, path)
            return "forever" if ticks == FOREVER else str(ticks)
        if argument in (Argument.ALL, Argument.CLEARS, Argument.TAKES):
            words = {Argument.ALL: ("any", "all"), Argument.CLEARS: ("keep", "clear"), Argument.TAKES: ("decrement", "clear")}
            return words[argument][bool(self.fixed(value, argument, node, path))]
        if argument is Argument.ACTION:
            return self.action(self.fixed(value, argument, node, path), values[Argument.VALUE], node, path)
        if argument is Argument.CALLER and self.handle(value, Argument.TASK_OR_CALLER, node).name != self.owner.name:
            raise self.refuse(node, "no op clears what another task is notified of", "NULL, in the task itself")
        return ""

    def action(self, action: int, value: Known, node: Node, path: Path) -> str:
        """What a notify does to the value. Only some actions take the number that C is given."""
        if action >= len(ACTIONS):
            raise self.refuse(node, f"{action} is no action of eNotifyAction")
        text = ACTIONS[action]
        return text.format(self.number_or_answer(value, Argument.VALUE, node, path)) if "{}" in text else text

    def number_or_answer(self, value: Known, argument: Argument, node: Node, path: Path) -> str:
        """A number for an op that may also take the last answer."""
        return str(self.fixed(value, argument, node, path))

    def fixed(self, value: Known, argument: Argument, node: Node, path: Path) -> int:
        """A number that is the same whatever the last answer is."""
        found = self.number(value, node, path)
        if found is None:
            raise LostUse(self.place(node), Lost(f"this must be {argument.value}, and it depends on an answer", instead="a constant"))
        if argument is Argument.MASK and not LEAST_MASK <= found <= GREATEST_MASK:
            raise self.refuse(node, f"bits of a group are 1 to {GREATEST_MASK}, and here {found}")
        return UNSIGNED.wrapped(found)

    def handle(self, value: Known, argument: Argument, node: Node) -> Handle:
        is_null = isinstance(value, Value) and value.constant() == 0
        if is_null and argument is Argument.TASK_OR_CALLER and not self.is_handler:
            return Handle("task", self.owner.name)
        if is_null and argument is Argument.TASK:
            raise self.refuse(node, "NULL is no task here", "the handle of a task; xTaskGetCurrentTaskHandle() for the caller's own")
        why = value.lost() if isinstance(value, Value) else None
        if why is not None:
            raise LostUse(self.place(node), why)
        if not isinstance(value, Handle) or value.kind not in KINDS[argument]:
            raise self.refuse(node, f"this must be {argument.value}", "the handle that it was created with")
        return value

    def item(self, value: Known, queue: Handle, node: Node, path: Path) -> str:
        """The item at an address, cut to the size of the queue's items."""
        if isinstance(value, Address):
            raise self.refuse(node, "a structure or an array as an item has no op", "an integer that says what it is")
        if not isinstance(value, Reference):
            raise self.refuse(node, "an item is read at the address of a local", "a local that has it, and `&` with its name")
        self.compare_sizes(queue, value.local, "reads", node)
        return self.item_of(self.read_local(value.local, node, path), queue, node, path)

    def compare_sizes(self, queue: Handle, local: str, what: str, node: Node) -> int:
        """How many bytes of a local aren't those of an item. Warns if FreeRTOS takes more than the local has."""
        type_, size = self.types.get(local), self.unit.object(queue.name).numbers.get("bytes", 0)
        own = -(-type_.bits // 8) if isinstance(type_, Integer) else 0
        if size and own and size > own and "." not in local.split("@")[0]:
            name = local.split("@")[0]
            self.note(node, f"an item of `{queue.name}` has {size} bytes and `{name}` has {own}: FreeRTOS {what} beyond it", True)
        return max(0, own - size) if size else 0

    def item_of(self, value: Known, queue: Handle, node: Node, path: Path) -> str:
        """A value as an item."""
        if isinstance(value, (Handle, Address, Reference)):
            raise self.refuse(node, f"a {'handle' if isinstance(value, Handle) else 'pointer'} as an item has no op", "a number that says which it is")
        kept = self.fitted(self.integer(value, node), self.item_type(queue), node, path)
        found = self.number(converted(kept, UNSIGNED), node, path)
        if found is None:
            return self.item_of_answer(kept, queue, node, path)
        if found > INT.greatest:
            self.unit.with_large_items.add(queue.name)
        return str(found)

    def item_of_answer(self, value: Value, queue: Handle, node: Node, path: Path) -> str:
        raise LostUse(self.place(node), Lost("not in this version: an item that depends on an answer", instead="an item that is a constant"))

    def item_type(self, queue: Handle) -> Integer:
        size = self.unit.object(queue.name).numbers.get("size", 4)
        return Integer(8 * size, False) if 1 <= size <= 4 else UNSIGNED

    # -- answers

    def answered(self, call: Call, values: Dict[Argument, Known], texts: Dict[str, str], node: Node, path: Path) -> Known:
        """What is known after the op, and what the function returns."""
        if call.answer is Answer.UNCHANGED:
            return Nothing()
        path.state = path.state.answered(self.answers_of(call, values, texts), f"{call.function} in line {self.place(node).line}",
                                         self.place(node))
        storage = values.get(Argument.STORAGE, values.get(Argument.VALUE_STORAGE))
        if isinstance(storage, Reference):
            self.check_received(values, storage.local, node, path)
            self.keep_received(storage.local, self.without_item(call, storage.local, texts, node, path), node, path)
        elif storage is not None and not isinstance(storage, Value):
            raise self.refuse(node, "what is received is put into a local", "the address of a local")
        woken = values.get(Argument.WOKEN)
        if isinstance(woken, Reference):
            path.state = path.state.with_local(woken.local, lost(INT, BY_HANDLER))
        if call.result is Result.VOID:
            return Nothing()
        if call.result is Result.RECEIVED:
            return is_received()
        if call.result is Result.OTHER:
            return lost(INT, Lost(f"what {call.function} returns isn't what the op returns", instead="the call without its result"))
        type_ = UNSIGNED if call.answer in (Answer.COUNT, Answer.SET_BITS, Answer.NUMBER) else INT
        return the_answer(type_, path.state.answers)

    def answers_of(self, call: Call, values: Dict[Argument, Known], texts: Dict[str, str]) -> Answers:
        never_fails = texts.get("wait") == "forever"
        queue = values.get(Argument.QUEUE)
        if call.answer is Answer.SUCCESS:
            semaphore = values.get(Argument.SEMAPHORE)
            is_unlock = isinstance(semaphore, Handle) and semaphore.kind == "mutex" and Argument.WAIT not in values
            return only(1) if never_fails or is_unlock else only(0, 1)
        if call.answer is Answer.ITEM:
            greatest = self.item_type(queue).greatest
            items = answers((0, greatest if queue.name in self.unit.with_large_items else min(greatest, INT.greatest)))
            return items if never_fails else items | only(NONE)
        if call.answer is Answer.COUNT:
            return answers((0, max(1, self.unit.object(queue.name).numbers["length"])))
        if call.answer is Answer.SET_BITS:
            return self.unit.bits_of_groups()
        if call.answer is Answer.VALUE_OR_NONE:
            return NUMBERS if never_fails and not self.may_be_suspended() else NUMBERS | only(NONE)
        fixed = {Answer.ONE: only(1), Answer.ZERO: only(0), Answer.NUMBER: NUMBERS, Answer.NOTIFIED: only(1)}
        return only(0, 1) if texts.get("action", "").startswith("keep") else fixed[call.answer]

    def check_received(self, values: Dict[Argument, Known], local: str, node: Node, path: Path) -> None:
        """Warns if the upper bytes of a local aren't written and may be other than 0."""
        queue = values.get(Argument.QUEUE)
        left = self.compare_sizes(queue, local, "writes", node) if isinstance(queue, Handle) else 0
        before = path.state.locals.get(local)
        number = before.constant() if isinstance(before, Value) else None
        if left and (number is None or number >> 8 * (self.types[local].bits // 8 - left)):
            name = local.split("@")[0]
            self.note(node, f"an item of `{queue.name}` has fewer bytes than `{name}`, whose upper bytes stay as they are in C, and are 0 here", True)

    def may_be_suspended(self) -> bool:
        """Whether others may suspend this task."""
        return self.unit.may_be_suspended(self.owner.name, {})

    def without_item(self, call: Call, local: str, texts: Dict[str, str], node: Node, path: Path) -> Piece:
        """What the local is if the call receives nothing. Of a queue it keeps what it had; a wait for a notification gives it the
        value as it is then, which no answer says."""
        type_, name = self.types[local], local.split("@")[0]
        if not isinstance(type_, Integer):
            raise self.refuse(node, f"{type_} as an item has no op", "integers")
        if call.answer is Answer.VALUE_OR_NONE:
            if type_.bits != UNSIGNED.bits:
                raise self.refuse(node, f"{call.function} writes 32 bits, and `{name}` has {type_.bits}", "a local of type uint32_t")
            why = Lost(f"`{name}` isn't known if {call.function} returns pdFALSE",
                       instead=f"a test of what {call.function} returns, and `{name}` only if that is pdTRUE")
            return Piece(NONE, NONE, NUMBER if texts["bits"] == str(UNSIGNED.greatest) else LOST, 0, why)
        before, why = path.state.locals[local], Lost(f"`{name}` isn't known if nothing was received", local)
        number = before.constant() if isinstance(before, Value) else None
        return Piece(NONE, NONE, LOST if number is None else NUMBER, number or 0, why)

    def keep_received(self, local: str, missing: Piece, node: Node, path: Path) -> None:
        """What was received is in the local; `missing` is what it is if nothing was."""
        type_ = self.types[local]
        now = the_answer(type_, path.state.answers) if isinstance(type_, Integer) else Value(INT, ())
        path.state = path.state.with_local(local, Value(now.type, (missing, *now.pieces)))

    # -- time

    def measured_from(self, target: Node, value: MaybeNode, path: Path) -> Optional[Known]:
        """`x = xTaskGetTickCount()`: a stamp if the function measures from `x`, and nothing if `x` is its wake time."""
        call = trees.plain(value) if value is not None else None
        name = getattr(target, "name", None)
        name = name if isinstance(name, str) else None
        body = self.unit.functions[self.frame.function].body
        if call is not None and self.is_reset(call, name, body, path):
            return Stamp(0)
        if call is None or trees.called(call) != "xTaskGetTickCount" or self.is_handler:
            return None
        if any(is_delay_of(it, name) for it in self.unit.below(body)):
            self.note(call, f"`{name}`: the first period of a task counts from reset", True)
            return lost(UNSIGNED, Lost("the wake time of a task isn't known", instead="xTaskGetTickCount() for the time of now"))
        if not any(is_measure_of(it, name) for it in self.unit.below(body)):
            return None
        self.op("stamp", call, path)
        number = self.stamps.setdefault(self.place(call), len(self.stamps) + 1)
        path.state = path.state.stamped(number)
        return Stamp(number)

    def is_reset(self, value: Node, name: Optional[str], body: Node, path: Path) -> bool:
        """Whether a local is given 0 as a time that is measured from: the task's stamp at reset, if that is at tick 0."""
        found = self.unit.constants.value(value)
        if found is None or found.constant() != 0 or name is None or path.state.stamp or self.unit.directives.start or self.is_handler:
            return False
        if (body, name) not in self.only_measured:
            measures = [it for it in self.unit.below(body) if is_measure_of(it, name)]
            given = [it for it in self.unit.below(body) if trees.kind(it) == "Assignment" and getattr(it.lvalue, "name", None) == name
                     and trees.called(trees.plain(it.rvalue)) == "xTaskGetTickCount"]
            self.only_measured[body, name] = bool(measures) and self.unit.mentions(body, name) == len(measures) + len(given)
        return self.only_measured[body, name]

    def measured(self, node: Node, path: Path) -> Value:
        self.op("since", node, path)
        path.state = path.state.answered(NUMBERS, f"the measuring in line {self.place(node).line}", self.place(node))
        return the_answer(UNSIGNED)

    # -- checks

    def assertion(self, node: Node, path: Path) -> None:
        """`configASSERT`: an `expect`, or one for each part that `&&` joins."""
        if trees.kind(node) == "BinaryOp" and node.op == "&&":
            self.assertion(node.left, path)
            if not path.is_over:
                self.assertion(node.right, path)
            return
        try:
            with self.attempt(path):
                test = self.test(node, path)
        except LostUse:
            self.meet(path, lambda end: self.condition(node, path, self.later(end), self.later(lambda it: self.fail(node, it))))
            return
        if isinstance(test, Answers):
            self.expect(test, node, path)
        else:
            self.expect_variable(test, node, path)

    def expect_variable(self, test: Compared, node: Node, path: Path) -> None:
        """Checks that the last answer is as a variable."""
        if test.holds or " " not in test.condition:
            self.op(f"expect {test.condition}" if test.holds else f"expect not {test.condition}", node, path)
        else:
            self.meet(path, lambda end: self.branch_on(test, path, end, lambda it: self.fail(node, it), node))

    def expect(self, wanted: Answers, node: Node, path: Path) -> None:
        """Checks that the last answer is a wanted one."""
        among = path.state.answers
        text = condition_for(wanted, among)
        if wanted == among:
            self.note(node, "this check always holds: no op")
        elif text is not None:
            self.op(f"expect {text}", node, path)
            path.state = path.state.among(wanted)
        else:
            self.meet(path, lambda end: self.branch(path, wanted, end, lambda it: self.fail(node, it), node))

    def fail(self, node: Node, path: Path) -> None:
        """A check that fails whatever the last answer is."""
        text = failing(path.state.answers)
        if text is None:
            raise self.refuse(node, "this check can't be said by the last answer", "the check right after the call that it is about")
        self.op(f"expect {text}", node, path)
        path.end()


def of_the_other(call: Call) -> str:
    """What to write for a task's call in a handler, or for a handler's in a task."""
    if call.family is Family.CRITICAL:
        return "nothing: no handler comes during another one"
    if call.who is Who.HANDLER:
        name = call.function.replace("FromISR", "")
        return next((it for it in (name, f"x{name[1:]}") if it in CALLS), "a handler that calls it")
    name = f"{call.function}FromISR"
    return next((it for it in (name, f"v{name[1:]}") if it in CALLS), "the same in a task that the handler wakes")


def not_here(name: str, place: Place) -> Refusal:
    """Why a call of a function without a body is refused."""
    return Refusal(place, f"`{name}` isn't in this file",
                   f"its body, rtosim_work(n) for the ticks that it takes, or --ignore {name}; NAME=NUMBER says what it returns")


def is_delay_of(node: Node, name: Optional[str]) -> bool:
    if trees.called(node) not in ("vTaskDelayUntil", "xTaskDelayUntil"):
        return False
    first = trees.arguments(node)[0]
    return trees.kind(first) == "UnaryOp" and trees.kind(first.expr) == "ID" and first.expr.name == name


def is_measure_of(node: Node, name: Optional[str]) -> bool:
    if trees.kind(node) != "BinaryOp" or node.op != "-":
        return False
    right = trees.plain(node.right)
    return trees.called(trees.plain(node.left)) == "xTaskGetTickCount" and trees.kind(right) == "ID" and right.name == name

