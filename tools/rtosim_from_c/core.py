"""What all parts of a translation share: the task or the handler that it is of, notes, and how the ways of a script part and meet."""
import contextlib
from dataclasses import dataclass
from typing import Callable, Dict, Iterator, List, Optional, Set, Tuple, Union

from . import trees
from .answers import Answers, answers
from .constants import Type
from .families import Family, Target
from .frames import NO_FRAME, Continuation, Frame
from .items import Item, Op, by_variable, chain, chosen
from .paths import Path, State, merged
from .refusals import Lost, LostUse, Note, Place, Refusal
from .source import place_of
from .trees import MaybeNode, Node
from .unit import Handler, Task, Unit
from .integers import BOOL
from .values import Address, Handle, Known, Nothing, Reference, Stamp, Stored, Text, Value, constant, converted, truth

# How many statements are followed at a time, and in all tries of one task.
MOST_STATEMENTS = 20_000
MOST_IN_ALL = 40_000


@dataclass(frozen=True)
class Compared:
    """A comparison of the last answer with a variable: the condition, and whether the comparison is true if that holds."""

    condition: str
    holds: bool


# The answers for which a condition is true, or a comparison with a variable.
Test = Union[Answers, Compared]


class Core:
    """The translation of one task or handler."""

    def __init__(self, unit: Unit, target: Target, owner: Union[Task, Handler]) -> None:
        self.unit, self.target, self.owner = unit, target, owner
        self.is_handler = isinstance(owner, Handler)
        self.notes: Dict[Note, None] = {}
        self.types: Dict[str, Type] = {}
        self.declarations: Dict[str, Node] = {}
        # locals whose addresses go where they aren't followed
        self.escaped: Set[str] = set()
        self.splits: Set[Tuple[str, Place]] = set()
        self.parted: Set[str] = set()
        self.in_memory: Set[str] = set()
        self.is_flat = False
        self.stamps: Dict[Place, int] = {}
        # by a function's body and the name of a local: whether it is only measured from
        self.only_measured: Dict[Tuple[Node, str], bool] = {}
        self.statements_done = self.statements_in_all = 0
        self.frame = NO_FRAME
        self.jump: MaybeNode = None

    # -- places and notes

    def place(self, node: Node) -> Place:
        return place_of(node, self.unit.lines, self.frame.calls) or Place("", 0, 0)

    def spot(self, node: Node) -> str:
        """Where a node is in what `cpp` wrote: another one for each token, also of one macro."""
        coord = getattr(node, "coord", None)
        where = f"{coord.file}:{coord.line}:{coord.column}" if coord is not None else "?"
        return f"{where} {self.frame.calls}"

    def note(self, node: Node, text: str, is_warning: bool = False) -> None:
        self.notes[Note(self.place(node), text, is_warning)] = None

    def refuse(self, node: Node, what: str, instead: str = "") -> Refusal:
        return Refusal(self.place(node), what, instead)

    def need(self, family: Family, node: Node, what: str, instead: str) -> None:
        """Refuses what the program doesn't know yet."""
        if family not in self.target:
            raise self.refuse(node, f"not in this version: {what}", instead)

    def count(self, node: Node) -> None:
        self.statements_done += 1
        self.statements_in_all += 1
        if self.statements_done > MOST_STATEMENTS or self.statements_in_all > MOST_IN_ALL:
            raise self.refuse(node, "this is too much to follow", "fewer turns of loops around it, or `repeat forever` by `for (;;)`")

    # -- frames

    @contextlib.contextmanager
    def using(self, frame: Frame) -> Iterator[None]:
        before, self.frame = self.frame, frame
        try:
            yield
        finally:
            self.frame = before

    def later(self, function: Continuation) -> Continuation:
        """What to do on a path later, in the present frame."""
        frame = self.frame

        def go(path: Path) -> None:
            with self.using(frame):
                function(path)
        return go

    @contextlib.contextmanager
    def attempt(self, path: Path) -> Iterator[None]:
        """Undoes what was written and noted if a value isn't known."""
        size, state, notes = len(path.items), path.state, dict(self.notes)
        try:
            yield
        except LostUse:
            del path.items[size:]
            path.state, self.notes = state, notes
            raise

    # -- what is kept by a name

    def put(self, key: str, value: Known, node: Node, path: Path) -> None:
        """Keeps a value under this key."""
        path.state = path.state.with_local(key, value)

    def taken(self, key: str, path: Path, node: MaybeNode = None) -> Known:
        """The value under a key, which isn't needed any more; with a node it is what an expression may be."""
        value = path.state.locals.get(key, Nothing())
        path.state = path.state.without(key)
        return value

    # -- ops and branches

    def op(self, text: str, node: Node, path: Path) -> None:
        path.items.append(Op(text, self.place(node)))

    def truth(self, value: Known, node: Node, path: Path) -> Answers:
        """The last answers for which the value isn't 0."""
        value = converted(self.yes_or_no(value, node).among(path.state.answers), BOOL)
        self.known(value, node, path)
        return truth(value, path.state.answers)

    def known(self, value: Value, node: Node, path: Path) -> Value:
        """The value for the answers that are possible here: it is known for each of them."""
        found = value.among(path.state.answers)
        if answers(*((it.low, it.high) for it in found.pieces)) != path.state.answers:
            raise self.refuse(node, "this can't be followed", "a local for each part of it")
        why = found.lost()
        if why is not None:
            raise LostUse(self.place(node), why)
        return found

    def yes_or_no(self, value: Known, node: Node) -> Value:
        """A value as a condition: an address is no NULL."""
        return constant(1) if isinstance(value, (Address, Reference, Text)) else self.integer(value, node)

    def integer(self, value: Known, node: Node) -> Value:
        """A value as a number; a handle is no NULL."""
        if isinstance(value, (Value, Stored)):
            return value
        if isinstance(value, Handle):
            return constant(1)
        if isinstance(value, Stamp):
            raise self.refuse(node, "a time that is measured from is only known as `xTaskGetTickCount() - t`", "another local for the time as a number")
        raise self.refuse(node, "this is no integer", "integers, and handles of objects and tasks")

    def number(self, value: Known, node: Node, path: Path) -> Optional[int]:
        """The number that the value is on this path, whatever the last answer; None if it depends on that."""
        if isinstance(value, Stored):
            raise LostUse(self.place(node), Lost("this must be a constant, and it is a variable", instead="a constant"))
        return self.known(self.integer(value, node), node, path).constant()

    def branch(self, path: Path, wanted: Answers, yes: Continuation, no: Continuation, node: Node) -> None:
        """Goes on by `yes` if the last answer is wanted, and otherwise by `no`. The path itself is over then, and only its ops stay."""
        among = path.state.answers
        wanted = among & wanted
        if wanted == among:
            return yes(path)
        if not wanted:
            return no(path)
        first, second = path.fork(wanted), path.fork(among - wanted)
        yes(first)
        no(second)
        path.items += chosen(among, wanted, first.items, second.items, self.place(node))
        path.end()
        return None

    def split(self, path: Path, parts: List[Answers], go: Continuation, node: Node) -> None:
        """Goes on once for each of these sets of answers."""
        ways: List[Tuple[Answers, List[Item]]] = []
        for part in parts:
            fork = path.fork(part)
            go(fork)
            ways.append((part, fork.items))
        path.items += chain(ways, self.place(node))
        path.end()

    def meet(self, path: Path, go: Callable[[Continuation], None]) -> None:
        """Lets ways part by `go`, which is given what ends each of them, and goes on where they meet."""
        ends: List[State] = []

        def end(fork: Path) -> None:
            if not fork.is_over:
                ends.append(fork.state)
            fork.end()
        go(end)
        found = merged(ends)
        path.end()
        if found is not None:
            path.state = found

    def condition(self, node: Node, path: Path, yes: Continuation, no: Continuation) -> None:
        """Goes on by `yes` if the condition holds. If a value of it isn't known, its parts are tested one inside another."""
        if trees.kind(node) == "UnaryOp" and node.op == "!":
            return self.condition(node.expr, path, no, yes)
        try:
            with self.attempt(path):
                test = self.test(node, path)
        except LostUse:
            if trees.kind(node) == "BinaryOp" and node.op == "&&":
                return self.condition(node.left, path, self.later(lambda it: self.condition(node.right, it, yes, no)), no)
            if trees.kind(node) == "BinaryOp" and node.op == "||":
                return self.condition(node.left, path, yes, self.later(lambda it: self.condition(node.right, it, yes, no)))
            return self.condition_of_call(node, path, yes, no)
        return self.branch_on(test, path, yes, no, node)

    def test(self, node: Node, path: Path) -> Test:
        """What a condition asks of the last answer."""
        return self.truth(self.evaluate(node, path), node, path)

    def branch_on(self, test: Test, path: Path, yes: Continuation, no: Continuation, node: Node) -> None:
        """As `branch`, but the last answer may also be compared with a variable."""
        if isinstance(test, Answers):
            return self.branch(path, test, yes, no, node)
        if not test.holds:
            yes, no = no, yes
        first, second = path.fork(path.state.answers), path.fork(path.state.answers)
        yes(first)
        no(second)
        path.items += by_variable(test.condition, first.items, second.items, self.place(node))
        return path.end()

    def condition_of_call(self, node: Node, path: Path, yes: Continuation, no: Continuation) -> None:
        """A condition with one call, of a function of the file: each of the ways through that goes on by itself."""
        call = self.only_call(node)
        if call is None or self.result_key(call) in path.state.locals or self.unit.has_no_op(trees.called(call) or ""):
            self.truth(self.evaluate(node, path), node, path)
        self.ways_of(call, path, lambda fork: self.condition(node, fork, yes, no))

    def only_call(self, node: Node) -> MaybeNode:
        """The one call of an expression or a statement, if it is of a function of the file."""
        found = [it for it in trees.walk(node) if trees.kind(it) == "FuncCall"]
        return found[0] if len(found) == 1 and trees.called(found[0]) in self.unit.functions else None

    def result_key(self, call: Node) -> str:
        return f"result@{self.spot(call)}"

    def ways_of(self, call: Node, path: Path, go: Continuation) -> None:
        """Follows a call, and goes on with each of its ways. If the call is evaluated then, its value is what that way returned."""
        key = self.result_key(call)

        def on_return(fork: Path, value: Known) -> None:
            self.put(key, value, call, fork)
            go(fork)
        self.follow(call, path, on_return)
