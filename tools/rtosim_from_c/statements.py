"""Statements: declarations, branches, `switch`, jumps; and which of them need what follows to be moved into their branches."""
from typing import Dict, Iterator, List, Optional, Sequence, Tuple

from . import trees
from .addresses import OPAQUE
from .answers import NOTHING, Answers, answers
from .api import Api
from .calls import WITHOUT_OP
from .constants import Type
from .directives import number
from .expressions import not_set
from .frames import Continuation, Frame
from .integers import COMPARISONS, Integer
from .items import Break, Repeat, chosen, has_break
from .paths import Path, merged
from .refusals import LostUse, Place
from .trees import MaybeNode, Node
from .values import Known, Nothing, Value, constant

AFTER_A_COMMENT = "/* rtosim: work 3 */ or /* rtosim: mark 3 */, after a statement"
MOST_APART = 8
HOLDS = ["rtosim", "holds"]
TURNS = ["rtosim", "turns"]
Cases = Tuple[List[List[Node]], List[List[Node]], Optional[int]]
MIRRORED = {"==": "==", "!=": "!=", "<": ">", "<=": ">=", ">": "<", ">=": "<="}


class Statements(Api):
    """The statements of a function, one after another."""

    def statements(self, nodes: Sequence[Node], path: Path, rest: Continuation) -> None:
        """These statements, and then the rest, on each of the ways that come there."""
        places = [at for at, it in enumerate(nodes) if trees.kind(it) == "Label"]
        if places:
            return self.with_labels(nodes, places, path, rest)
        return self.in_order(nodes, path, rest)

    def with_labels(self, nodes: Sequence[Node], places: List[int], path: Path, rest: Continuation) -> None:
        """Statements with labels: a `goto` to one that is ahead goes on with what comes from there."""
        labels, go = dict(self.frame.jumps.labels), rest
        cuts = [*places, len(nodes)]
        for at, end in reversed(list(zip(cuts, cuts[1:]))):
            part, after = [nodes[at].stmt, *nodes[at + 1:end]], go
            frame = self.frame.with_jumps(labels=dict(labels))

            def go(it: Path, part: Sequence[Node] = part, after: Continuation = after, frame: Frame = frame) -> None:
                with self.using(frame):
                    self.in_order(part, it, after)
            labels[nodes[at].name] = go
        with self.using(self.frame.with_jumps(labels=labels)):
            self.in_order(nodes[:places[0]], path, go)

    def in_order(self, nodes: Sequence[Node], path: Path, rest: Continuation) -> None:
        at = 0
        while at < len(nodes):
            node, left = nodes[at], nodes[at:]
            if path.is_over:
                self.note(node, "never reached: left out")
                return
            self.count(node)
            kept, parts = self.to_split(node, path)
            after = self.uses(left, kept) if parts else 0
            if parts and not after:
                self.split(path, parts, self.later(lambda it: self.statements(left, it, rest)), node)
                return
            call = self.call_to_part(node, path)
            if call is not None:
                self.ways_of(call, path, self.later(lambda it: self.statements(left, it, rest)))
                return
            if parts:
                self.meet(path, lambda end: self.split(path, parts, self.later(lambda it: self.statements(left[:after], it, end)), node))
            elif self.needs_rest(node):
                self.statement(node, path, self.later(lambda it: self.statements(left[1:], it, rest)))
                return
            else:
                self.statement(node, path, None)
            at += after or 1
        if not path.is_over:
            rest(path)

    def call_to_part(self, node: Node, path: Path) -> MaybeNode:
        """The call of a statement whose ways are to go on apart, since they return what the last answer doesn't say."""
        if not self.parted or trees.kind(node) not in ("Assignment", "Decl", "Return"):
            return None
        call = self.only_call(node)
        is_parted = call is not None and f"return@{self.spot(call)}" in self.parted
        return call if is_parted and self.result_key(call) not in path.state.locals else None

    def uses(self, nodes: Sequence[Node], local: str) -> int:
        """How many of these statements it takes to the last one that names the local; 0 if the function names it later, or a jump
        passes over what follows."""
        name = trees.root(local.split("@")[0])
        last = max((at for at, it in enumerate(nodes) if self.unit.mentions(it, name)), default=0)
        body = self.unit.functions[self.frame.function].body
        is_all = sum(self.unit.mentions(it, name) for it in nodes) == self.unit.named_from(body, name, self.place(nodes[0]).line)
        return last + 1 if is_all and not any(map(self.needs_rest, nodes[:last + 1])) else 0

    def needs_rest(self, node: Node) -> bool:
        """Whether a jump in it passes over what follows, and no op of the script does so."""
        jumps, found = self.frame.jumps, self.unit.escapes(node)
        found -= {"break"} if jumps.break_is_op else set()
        return bool(found - {"return"} if jumps.return_is_op else found)

    def to_split(self, node: Node, path: Path) -> Tuple[str, List[Answers]]:
        """A local, and the answers apart by its constants, if a call in this statement is about to overwrite them."""
        for key, place in self.splits:
            value = path.state.locals.get(key)
            if isinstance(value, Value) and self.holds_call(node, place):
                parts = self.apart(key, value.among(path.state.answers))
                if len(parts) > 1:
                    return key, parts
        return "", []

    def apart(self, local: str, value: Value) -> List[Answers]:
        """The answers for each number that the value may be; if these are too many, for each outcome of the comparisons with it."""
        if value.lost() is not None:
            return []
        tests = [] if sum(it.high - it.low for it in value.pieces if it.kind == "answer") < MOST_APART else self.tests_of(local)
        parts: Dict[Node, List[Tuple[int, int]]] = {}
        for it in value.pieces:
            cuts = {it.low, it.high + 1}
            if it.kind == "answer":
                marks = [number - it.number for _, number in tests] if tests else range(it.low, min(it.high, it.low + MOST_APART) + 1)
                cuts |= {cut for mark in marks for cut in (mark, mark + 1) if it.low < cut <= it.high}
            ends = sorted(cuts)
            for low, end in zip(ends, ends[1:]):
                outcome = tuple(COMPARISONS[operator](it.at(low), number) for operator, number in tests) if tests else it.at(low)
                parts.setdefault(outcome, []).append((low, end - 1))
        return [answers(*ranges) for ranges in parts.values()] if len(parts) <= MOST_APART else []

    def tests_of(self, local: str) -> List[Tuple[str, int]]:
        """The comparisons of a local with constants, in the function of now."""
        name = local.split("@")[0]
        is_it = lambda node: trees.kind(trees.plain(node)) == "ID" and trees.plain(node).name == name
        found: Dict[Tuple[str, int], None] = {}
        for node in self.unit.below(self.unit.functions[self.frame.function].body):
            if trees.kind(node) == "BinaryOp" and node.op in COMPARISONS:
                for side, other, operator in ((node.left, node.right, node.op), (node.right, node.left, MIRRORED[node.op])):
                    value = self.unit.constants.value(other) if is_it(side) else None
                    if value is not None:
                        found[operator, value.constant() or 0] = None
            elif trees.kind(node) == "Switch" and is_it(node.cond):
                for it in trees.walk(node.stmt):
                    value = self.unit.constants.value(it.expr) if trees.kind(it) == "Case" else None
                    if value is not None:
                        found["==", value.constant() or 0] = None
        return list(found)

    def holds_call(self, node: Node, place: Place) -> bool:
        """Whether the call at this place is in the statement, or in a function that is called there."""
        calls = self.frame.calls
        if place.calls[:len(calls)] != calls:
            return False
        line = place.calls[len(calls)] if len(place.calls) > len(calls) else place.line
        return line in self.unit.lines_of_calls(node)

    def statement(self, node: Node, path: Path, rest: Optional[Continuation]) -> None:
        """One statement; with a rest if `needs_rest` says so, which then follows on each way that doesn't jump."""
        name = trees.kind(node)
        method = getattr(self, f"do_{name}", None)
        if method is not None:
            return method(node, path, rest)
        before = len(path.items)
        self.unit.statement_nodes.add(node)
        self.evaluate(node, path)
        if len(path.items) == before and name not in ("Assignment", "UnaryOp", "FuncCall"):
            self.note(node, "this has no effect: left out")
        if rest is not None and not path.is_over:
            rest(path)
        return None

    def do_Compound(self, node: Node, path: Path, rest: Optional[Continuation]) -> None:
        after = None if rest is None else self.later(rest)
        with self.using(self.frame.inner()):
            if after is not None:
                return self.statements(node.block_items or [], path, after)
            return self.meet(path, lambda end: self.statements(node.block_items or [], path, end))

    def do_EmptyStatement(self, node: Node, path: Path, rest: Optional[Continuation]) -> None:
        pass

    def do_Typedef(self, node: Node, path: Path, rest: Optional[Continuation]) -> None:
        pass

    def do_Pragma(self, node: Node, path: Path, rest: Optional[Continuation]) -> None:
        text = node.string or ""
        words = text.split()
        if words == HOLDS or words[:2] == TURNS and len(words) == 3 and number(words[2]) is not None:
            return None
        if words[:1] != ["rtosim"]:
            return self.note(node, f"#pragma {text}: left out")
        if words[1:2] in (["work"], ["mark"]) and len(words) == 3 and number(words[2]) is not None:
            self.take_section(f"rtosim: {words[1]}", words[1], node, path)
            return self.op(" ".join(words[1:]), node, path)
        self.unit.directives.take(text[len("rtosim"):], self.place(node))
        return None

    def do_DeclList(self, node: Node, path: Path, rest: Optional[Continuation]) -> None:
        for it in node.decls:
            self.do_Decl(it, path, None)

    def do_Decl(self, node: Node, path: Path, rest: Optional[Continuation]) -> None:
        type_ = self.unit.constants.type_of(node)
        if node.name is None or type_ == "a function":
            return
        if "static" in node.storage and isinstance(type_, Integer):
            self.static(node, type_, path)
            return
        value = self.initial(node, type_, path)
        key = self.declare(node.name, type_, node)
        if value is None:
            self.put(key, not_set(type_), node, path)
        else:
            self.write_local(key, value, node, path)

    def initial(self, node: Node, type_: Type, path: Path) -> Optional[Known]:
        if node.init is None:
            return None
        if type_ in OPAQUE:
            for it in trees.calls_of(node.init):
                self.evaluate(it, path)
            self.let_addresses_go(node.init, path)
            return None
        found = self.measured_from(node, node.init, path)
        return self.evaluate(node.init, path) if found is None else found

    def static(self, node: Node, type_: Integer, path: Path) -> None:
        raise self.refuse(node, f"a static local, `{node.name}`, outlives its function", "a local of the task's function, outside of its loop")

    # -- branches

    def going(self, way: List[Node], rest: Continuation) -> Continuation:
        """Follows the statements of a branch, and then goes on by `rest`."""
        return self.later(lambda it: self.statements(way, it, rest))

    def do_If(self, node: Node, path: Path, rest: Optional[Continuation]) -> None:
        ways = [[it] if it is not None else [] for it in (node.iftrue, node.iffalse)]
        if is_said_to_hold(node) and self.is_lost(node.cond, path):
            self.note(node, "a comment says that this holds")
            return self.statements(ways[0], path, rest) if rest is not None else self.statement(node.iftrue, path, None)
        if rest is not None:
            yes, no = (self.going(way, rest) for way in ways)
            return self.condition(node.cond, path, yes, no)
        try:
            with self.attempt(path):
                self.meet(path, lambda end: self.condition(node.cond, path, self.going(ways[0], end), self.going(ways[1], end)))
        except LostUse:
            if not self.does_nothing(node, ways, path):
                raise
        return None

    def is_lost(self, condition: Node, path: Path) -> bool:
        """Whether a condition that calls nothing with an op isn't known."""
        if not all(it in WITHOUT_OP or it in self.unit.directives.ignored or self.unit.has_no_op(it) for it in trees.calls_in(condition)):
            return False
        fork = path.fork(path.state.answers)
        try:
            with self.attempt(fork):
                self.truth(self.evaluate(condition, fork), condition, fork)
        except LostUse:
            return True
        return False

    def does_nothing(self, node: Node, ways: List[List[Node]], path: Path) -> bool:
        """Whether it makes no difference which branch is taken: none of them has an op. What the condition calls is called all the same."""
        if self.unit.escapes(node) or trees.find(node.cond, decides_or_writes) is not None:
            return False
        trial = path.fork(path.state.answers)
        for it in trees.calls_of(node.cond):
            self.evaluate(it, trial)
        forks = [trial.fork(trial.state.answers) for _ in ways]
        try:
            for fork, way in zip(forks, ways):
                self.statements(way, fork, lambda it: None)
        except LostUse:
            return False
        after = merged(it.state for it in forks)
        if any(it.items or it.state.answers != trial.state.answers for it in forks) or after is None:
            return False
        path.items += trial.items
        path.state = after
        self.note(node, "no op depends on this: left out")
        return True

    def do_Switch(self, node: Node, path: Path, rest: Optional[Continuation]) -> None:
        if rest is not None:
            after = self.later(rest)
            with self.using(self.frame.with_jumps(on_break=after, break_is_op=False)):
                return self.cases(node, path, after)

        def part(end: Continuation) -> None:
            with self.using(self.frame.with_jumps(on_break=end, break_is_op=False)):
                self.cases(node, path, end)
        return self.meet(path, part)

    def cases(self, node: Node, path: Path, after: Continuation) -> None:
        labels, bodies, default = cases_of(node)
        hidden = trees.hidden_label(it for it in trees.cut_at_labels(trees.statements_of(node)) if not trees.is_label(it))
        if hidden is not None:
            raise self.refuse(hidden, "a case inside another statement of its `switch`", "the case in the block of the `switch` itself")
        key = f"switch@{self.spot(node)}"
        value = self.integer(self.evaluate(node.cond, path), node.cond)
        self.put(key, value, node, path)

        def choose(at: int, fork: Path) -> None:
            if fork.is_over:
                return
            if at == len(labels):
                fork.state = fork.state.without(key)
                body = bodies[default] if default is not None else []
                return self.run(body, fork, after, node)
            wanted = self.truth_of_labels(labels[at], fork.state.locals[key], node, fork)
            self.branch(fork, wanted, self.later(lambda it: self.run(bodies[at], it, after, node)), self.later(lambda it: choose(at + 1, it)),
                        labels[at][0] if labels[at] else node)
        with self.using(self.frame.inner()):
            if not self.is_flat or not self.flat_cases(node, path, (labels, bodies, default), key, after):
                choose(0, path)

    def flat_cases(self, node: Node, path: Path, cases: Cases, key: str, after: Continuation) -> bool:
        """The cases one after another in a `repeat 1` that each of them leaves: not as deep as one in another. False if a case leaves
        a loop itself, or goes on by a jump."""
        labels, bodies, default = cases
        if self.is_handler or self.unit.escapes(node):
            return False
        left, items = path.state.answers, []
        for at, body in [*enumerate(bodies), (len(bodies), bodies[default] if default is not None else [])]:
            wanted = self.truth_of_labels(labels[at], path.state.locals[key], node, path) & left if at < len(bodies) else left
            if not wanted:
                continue
            fork = path.fork(wanted)
            self.run(body, fork, after, node)
            if has_break(fork.items):
                return False
            items += chosen(left, wanted, [*fork.items, Break(self.place(node))], [], self.place(node)) if wanted != left else fork.items
            left = left - wanted
        path.items.append(Repeat("1", tuple(items), self.place(node)))
        path.end()
        return True

    def run(self, body: Sequence[Node], path: Path, after: Continuation, switch: Node) -> None:
        """The statements of a case: what follows them in the `switch` follows here, up to a `break`. A declaration before them is in
        sight, and what it begins with isn't there."""
        with self.using(self.frame.inner()):
            for it in declared_before(switch, body):
                self.do_Decl(it, path, None)
            self.statements(body, path, after)

    def truth_of_labels(self, labels: Sequence[Node], value: Known, node: Node, path: Path) -> Answers:
        found = NOTHING
        for it in labels:
            label = self.unit.constants.value(it)
            if label is None:
                raise self.refuse(it, "a case is a constant")
            same = self.arithmetic(Same(node), self.integer(value, node), constant(label.constant() or 0, label.type), path)
            found = found | self.truth(same, node, path)
        return found

    # -- jumps

    def do_Break(self, node: Node, path: Path, rest: Optional[Continuation]) -> None:
        self.jump = node
        go = self.frame.jumps.on_break
        assert go is not None, node
        go(path)

    def do_Continue(self, node: Node, path: Path, rest: Optional[Continuation]) -> None:
        go = self.frame.jumps.on_continue
        assert go is not None, node
        go(path)

    def do_Return(self, node: Node, path: Path, rest: Optional[Continuation]) -> None:
        value = Nothing() if node.expr is None else self.evaluate(node.expr, path)
        self.jump = node
        if not path.is_over:
            self.frame.jumps.on_return(path, value)

    def do_FuncCall(self, node: Node, path: Path, rest: Optional[Continuation]) -> None:
        if trees.called(node) != "vTaskDelete":
            self.evaluate(node, path)
            return
        argument = trees.arguments(node)[0]
        value = self.evaluate(argument, path)
        is_caller = getattr(value, "name", None) == getattr(self.owner, "name", "") or isinstance(value, Value) and value.constant() == 0
        if self.is_handler or not is_caller or self.frame.outer is not None:
            raise self.refuse(node, "no op deletes another task, or a task from a function that it calls",
                              "vTaskDelete(NULL) in the task's own function")
        self.jump = node
        self.frame.jumps.on_return(path, Nothing())

    def do_Goto(self, node: Node, path: Path, rest: Optional[Continuation]) -> None:
        if node.name not in self.frame.jumps.labels:
            raise self.refuse(node, "`goto` goes to a label that is ahead, and out of no loop", "a loop, a branch, or a function with `return`")
        self.frame.jumps.labels[node.name](path)


def is_said_to_hold(node: Node) -> bool:
    """Whether the branch of an `if` begins with the comment that says so."""
    return first_comment(node.iftrue) == HOLDS


def first_comment(node: Node) -> List[str]:
    """The words of the comment with which a block begins."""
    first = (node.block_items or [None])[0] if trees.kind(node) == "Compound" else None
    return (first.string or "").split() if trees.kind(first) == "Pragma" else []


def decides_or_writes(node: Node) -> bool:
    """Whether an expression leaves out a part of itself, or gives something a new value."""
    name = trees.kind(node)
    return name in ("TernaryOp", "Assignment") or name in ("BinaryOp", "UnaryOp") and node.op in ("&&", "||", "++", "--", "p++", "p--")


class Same:
    """`==` at the place of another node."""

    op = "=="

    def __init__(self, node: Node) -> None:
        self.coord = node.coord


def declared_before(switch: Node, body: Sequence[Node]) -> Iterator[Node]:
    """The declarations in the block of a `switch` that are before the statements of a case."""
    for it in trees.cut_at_labels(trees.statements_of(switch)):
        if body and it is body[0]:
            return
        if trees.kind(it) == "Decl":
            yield it if "static" in (it.storage or []) else trees.without_value(it)


def cases_of(node: Node) -> Cases:
    """The labels of each group of cases, the statements from each on, and which of them is the default, which has its labels last."""
    bodies: List[List[Node]] = []
    labels: List[List[Node]] = []
    default, is_open = None, False
    for it in trees.cut_at_labels(trees.statements_of(node)):
        if not trees.is_label(it):
            is_open = False
            for body in bodies:
                body.append(it)
            continue
        if not is_open:
            bodies.append([])
            labels.append([])
        if trees.kind(it) == "Case":
            labels[-1].append(it.expr)
        else:
            default = len(bodies) - 1
        is_open = True
    if default is not None:
        labels[default] = []
    return labels, bodies, default
