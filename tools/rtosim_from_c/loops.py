"""Loops: as one that repeats forever and is left, or, if a local counts its turns, as so many turns that are the same."""
from dataclasses import dataclass, field
from typing import Callable, Dict, List, Optional, Set, Tuple, Union

from . import trees
from .addresses import Escaped
from .answers import NUMBERS
from .directives import number
from .families import Target
from .frames import Continuation
from .items import Break, Item, Repeat, chosen, folded, has_break
from .paths import Path, State, is_same, merged
from .refusals import Lost, LostUse
from .statements import TURNS, Statements, first_comment
from .trees import Node
from .unit import Handler, Task, Unit
from .values import Known

MOST_TURNS = 1000
MOST_ROUNDS = 40
MOST_APART = 300
FEW_TURNS = 8
RETURNED = "returned by a loop"


@dataclass
class Ways:
    """The states in which a loop is left, by its end or a `break`, and by a `return`; and those in which a turn of it ends."""

    left: List[State] = field(default_factory=list)
    returned: List[State] = field(default_factory=list)
    back: List[State] = field(default_factory=list)


Turn = Tuple[List[Item], Ways]


class Loops(Statements):
    """`while`, `do` and `for`."""

    def __init__(self, unit: Unit, target: Target, owner: Union[Task, Handler]) -> None:
        super().__init__(unit, target, owner)
        # Loops whose turns a comment counts, with how many are left.
        self.turns_left: Dict[Node, int] = {}
        # Loops that are left by their end and by `return`, with the answer that says by `return`, and the one that says by the end.
        self.marks: Dict[Node, Tuple[int, Optional[int]]] = {}
        # whether a loop around this can still be tried in another form
        self.has_other_forms = False

    def do_While(self, node: Node, path: Path, rest: Optional[Continuation]) -> None:
        self.loop(node, path, rest)

    def do_DoWhile(self, node: Node, path: Path, rest: Optional[Continuation]) -> None:
        self.loop(node, path, rest)

    def do_For(self, node: Node, path: Path, rest: Optional[Continuation]) -> None:
        after = None if rest is None else self.later(rest)
        with self.using(self.frame.inner()):
            if node.init is not None:
                self.statement(node.init, path, None)
            self.loop(node, path, after)

    def loop(self, node: Node, path: Path, rest: Optional[Continuation]) -> None:
        """The first of these forms in which every value that decides something is known."""
        turns = said_turns(node) if getattr(node, "cond", None) is not None else None
        if turns is not None and self.is_lost(node.cond, path):
            items, ways = self.said(node, path.state, turns)
        else:
            notes = dict(self.notes)
            try:
                items, ways = self.counted(node, path.state) if self.is_handler else self.first_form(node, path.state)
            except LostUse:
                if turns is None:
                    raise
                self.notes = notes
                items, ways = self.said(node, path.state, turns)
        path.items += items
        self.after_loop(node, path, ways, rest)

    def said(self, node: Node, state: State, turns: int) -> Turn:
        """As many turns as a comment says."""
        self.note(node, f"a comment says that this loop has {turns} turn{'s' * (turns != 1)}")
        self.turns_left[node] = turns - (trees.kind(node) == "DoWhile")
        try:
            return self.counted(node, state)
        finally:
            self.turns_left.pop(node, None)

    def first_form(self, node: Node, state: State) -> Turn:
        forms: List[Callable[[Node, State], Turn]] = [self.all_alike, self.asked_before, self.counted]
        if trees.kind(node) == "DoWhile":
            forms.remove(self.asked_before)
        first: Optional[LostUse] = None
        for it in forms:
            notes, before = dict(self.notes), self.has_other_forms
            self.has_other_forms |= it is not forms[-1] and getattr(node, "cond", None) is not None
            try:
                return it(node, state)
            except LostUse as why:
                self.notes = notes
                first = first or why
            finally:
                self.has_other_forms = before
        assert first is not None
        raise first

    # -- forms

    def all_alike(self, node: Node, state: State) -> Turn:
        """`repeat forever`, whose turns have the condition where C has it."""
        is_last = trees.kind(node) == "DoWhile"
        return self.repeated(node, state, lambda it, ways: self.turn(node, it, ways, not is_last, is_last))

    def asked_before(self, node: Node, state: State) -> Turn:
        """The condition of a `while` once, and then `repeat forever`, whose turns end with the condition."""
        before, ways = Path(state), Ways()

        def enter(fork: Path) -> None:
            items, inner = self.repeated(node, fork.state, lambda it, found: self.turn(node, it, found, False, True))
            fork.items += items
            ways.left += inner.left
            ways.returned += inner.returned
            fork.end()

        def skip(fork: Path) -> None:
            ways.left.append(fork.state)
            fork.end()
        self.condition_of(node, before, self.later(enter), self.later(skip))
        return before.items, ways

    def repeated(self, node: Node, state: State, turn: Callable[[Path, Ways], None]) -> Turn:
        """Turns that are the same forever, from what is known before each of them."""
        head = state
        for _ in range(MOST_ROUNDS):
            path, ways = Path(head), Ways()
            turn(path, ways)
            if not ways.back:
                return self.once(node, path.items), ways
            again = merged([head, *ways.back]) or head
            if is_same(again, head):
                return [Repeat("forever", tuple(path.items), self.place(node))], ways
            head = again
        raise LostUse(self.place(node), Lost("a local has another value in each turn of this loop"))

    def once(self, node: Node, items: List[Item]) -> List[Item]:
        """A loop that is left in its first turn."""
        if items and isinstance(items[-1], Break):
            items = items[:-1]
        return [Repeat("1", tuple(items), self.place(node))] if has_break(items) else items

    def counted(self, node: Node, state: State) -> Turn:
        """Each turn by itself, with the number that counts it. Turns that are the same become a `repeat` of so many, and the last one
        a `repeat forever` if nothing else is known after it than before it."""
        turns: List[List[Item]] = []
        total = Ways()
        while True:
            path, ways = Path(state), Ways()
            is_asked = bool(turns) or trees.kind(node) != "DoWhile"
            self.turn(node, path, ways, is_asked, False)
            turns.append(path.items)
            total.left += ways.left
            total.returned += ways.returned
            again = merged(ways.back)
            if again is None:
                break
            if is_asked and is_same(again, state) and not self.is_handler and node not in self.turns_left:
                turns[-1] = [Repeat("forever", tuple(path.items), self.place(node))]
                break
            self.give_up_on_many(node, turns, {key.split("@")[0] for key, it in again.locals.items() if state.locals.get(key) != it})
            state = again
        return self.turns(node, [it for turn in turns for it in turn]), total

    def give_up_on_many(self, node: Node, turns: List[List[Item]], changed: Set[str]) -> None:
        """Gives up if the turns are too many; if nothing that is tested in the loop has changed, a few are too many."""
        is_alike = len(turns) > 1 and turns[-1] == turns[-2]
        is_counted = len(turns) < FEW_TURNS or changed & self.unit.tested(node)
        if len(turns) > MOST_TURNS or not is_counted or sum(map(len, turns)) > MOST_APART and not is_alike:
            raise LostUse(self.place(node), Lost("how many turns this loop has isn't known, or they are too many to write out"))

    def turns(self, node: Node, items: List[Item]) -> List[Item]:
        if items and isinstance(items[-1], Break):
            items = items[:-1]
        parts = folded(items)
        if parts is not None and parts[0] <= MOST_TURNS:
            if not self.is_handler:
                return [Repeat(str(parts[0]), parts[1], self.place(node))]
        if not has_break(items):
            return items
        if self.is_handler:
            raise self.refuse(node, "a handler has no loops that are left", "branches")
        return [Repeat("1", tuple(items), self.place(node))]

    # -- one turn

    def turn(self, node: Node, path: Path, ways: Ways, is_asked_first: bool, is_asked_last: bool) -> None:
        """A turn, with the condition before it or after it."""
        self.count(node)
        bodies: List[State] = []

        def leave(fork: Path) -> None:
            self.mark_way(node, fork, False)
            ways.left.append(fork.state)
            fork.items.append(Break(self.place(self.jump or node)))
            fork.end()

        def leave_by_return(fork: Path, value: Known) -> None:
            self.put(RETURNED, value, node, fork)
            self.mark_way(node, fork, True)
            ways.returned.append(fork.state)
            fork.items.append(Break(self.place(self.jump or node)))
            fork.end()

        def end(fork: Path) -> None:
            if not fork.is_over:
                bodies.append(fork.state)
            fork.end()
        inner = self.frame.with_jumps(on_break=leave, on_continue=end, on_return=leave_by_return, break_is_op=True, return_is_op=True,
                                      labels={})

        def body(fork: Path) -> None:
            with self.using(inner):
                self.statements([node.stmt] if node.stmt is not None else [], fork, end)
        outside = self.later(lambda fork: self.leave_at_condition(node, fork, leave))
        if is_asked_first:
            self.condition_of(node, path, self.later(body), outside)
        else:
            body(path)
        self.close_turn(node, path, bodies, ways, outside if is_asked_last else None)

    def leave_at_condition(self, node: Node, path: Path, leave: Continuation) -> None:
        self.jump = node
        leave(path)

    def close_turn(self, node: Node, path: Path, bodies: List[State], ways: Ways, outside: Optional[Continuation]) -> None:
        """What comes after the body: the step of a `for`, and perhaps the condition."""
        state = merged(bodies)
        if state is None:
            return
        path.state = state
        if trees.kind(node) == "For" and node.next is not None:
            self.unit.statement_nodes.add(node.next)
            self.evaluate(node.next, path)

        def back(fork: Path) -> None:
            ways.back.append(fork.state)
            fork.end()
        if outside is None:
            back(path)
        else:
            self.condition_of(node, path, self.later(back), outside)

    def condition_of(self, node: Node, path: Path, yes: Continuation, no: Continuation) -> None:
        if node in self.turns_left:
            self.turns_left[node] -= 1
            (yes if self.turns_left[node] >= 0 else no)(path)
        elif getattr(node, "cond", None) is None:
            yes(path)
        else:
            self.condition(node.cond, path, yes, no)

    def learns(self, why: Lost) -> bool:
        """Notes a place at which ways must go on apart, so that nothing is lost there the next time; false if it was noted before."""
        local = why.local or ""
        size = len(self.splits) + len(self.parted)
        if why.taken_at is not None:
            self.splits.add((local, why.taken_at))
        elif local.startswith("return@"):
            self.parted.add(local)
        return len(self.splits) + len(self.parted) > size

    # -- after a loop

    def after_loop(self, node: Node, path: Path, ways: Ways, rest: Optional[Continuation]) -> None:
        """Goes on with the states in which the loop is left; by a `return` it is left as the function is."""
        left, returned = merged(ways.left), merged(ways.returned)
        path.end()
        if left is not None and returned is None:
            path.state = left
            if rest is not None:
                rest(path)
        elif returned is not None and left is None:
            path.state = returned
            self.return_on(path)
        elif returned is not None and left is not None:
            self.part(node, path, left, returned, rest)

    def return_on(self, path: Path) -> None:
        self.frame.jumps.on_return(path, self.taken(RETURNED, path, self.jump))

    def part(self, node: Node, path: Path, left: State, returned: State, rest: Optional[Continuation]) -> None:
        """Both ways lead past the loop: the last answer says which it was."""
        if left.answers & returned.answers and rest is None:
            self.mark(node, left)
        by_return, by_end = Path(returned), Path(left)
        self.return_on(by_return)
        if rest is not None:
            rest(by_end)
        if left.answers & returned.answers:
            if rest is None or by_return.items != by_end.items:
                self.mark(node, left)
                raise self.refuse(node, "this loop is left by its end and by `return`, and the last answer doesn't say by which",
                                  "a loop that is left by `break`, and a test after it that the answer decides")
            path.items += by_end.items
            return
        items = chosen(left.answers | returned.answers, returned.answers, by_return.items, by_end.items, self.place(node))
        path.items += items
        if rest is None:
            path.state = left


    def mark(self, node: Node, left: State) -> None:
        """Lets the last answer say how this loop is left, the next time."""
        if self.can_mark() and node not in self.marks:
            others = NUMBERS - left.answers
            self.marks[node] = (others.least(), None) if others else (1, 0)
            raise Escaped()

    def can_mark(self) -> bool:
        """Whether a number can be made the last answer."""
        return False

    def mark_way(self, node: Node, path: Path, is_return: bool) -> None:
        """Makes the last answer say how a loop is left, if nothing else says it."""


def said_turns(node: Node) -> Optional[int]:
    """How many turns a comment at the beginning of a loop says that it has; None if there is no such comment."""
    words = first_comment(node.stmt)
    return number(words[2]) if words[:2] == TURNS and len(words) == 3 else None
