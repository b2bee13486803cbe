"""From a file to an application: the script of each task, the ops of each handler, and what was left out."""
from dataclasses import dataclass, field
from typing import Dict, List, Sequence, Tuple, Union

from . import trees
from .addresses import Escaped
from .api import not_here
from .calls import CALLS, Who
from .families import PROGRAM, Target
from .frames import Frame, Jumps
from .handles import Handles
from .integers import INT
from .items import If, Item, Line, Repeat, fused, lines_of, takes_time
from .paths import Path, State
from .refusals import Lost, LostUse, Note, Refusal, SeveralRefusals
from .source import Lines, parsed, preprocessed
from .trees import Node
from .unit import Handler, Object, Task, Unit
from .values import lost

MOST_OPS = {True: 16, False: 256}
MOST_LOOPS, MOST_BLOCKS = 4, 8
MOST_VARIABLES = 32
MOST_RETRIES = 40
OF_HANDLER = lost(INT, Lost("what a handler is given isn't known", instead="--handler 'NAME(NUMBER)', which says what it is given"))


@dataclass
class Script:
    """The ops of a task or a handler. `is_endless` if its end is never reached."""

    owner: Union[Task, Handler]
    lines: List[Line]
    is_endless: bool = False


@dataclass
class Application:
    """What is written."""

    unit: Unit
    tasks: List[Script] = field(default_factory=list)
    handlers: List[Script] = field(default_factory=list)
    notes: List[Note] = field(default_factory=list)
    uses_daemon: bool = False

    def objects(self, *kinds: str) -> List[Object]:
        return [it for it in self.unit.objects if it.kind in kinds]

    def variables(self) -> List[Tuple[str, int]]:
        """The variables that an op names, with what each is at reset."""
        named = {word for script in (*self.handlers, *self.tasks) for it in script.lines for word in it.text.split()[1:]}
        return [(name, initial) for name, initial in self.unit.variables.items() if name in named]


class TooDeep(Refusal):
    """Blocks that are deeper than a script may have them."""


class Translation(Handles):
    """A task's function or a handler, from its first statement to its last."""

    uses_daemon = False

    def __init__(self, unit: Unit, target: Target, owner: Union[Task, Handler]) -> None:
        super().__init__(unit, target, owner)
        # What wasn't known when the script was refused.
        self.missed: List[Lost] = []

    def script(self) -> Script:
        """The script. If it is refused since an element of an array isn't known, that array is followed by its elements. After this of a
        global all functions are followed anew."""
        try:
            return self.in_two_ways()
        except Refusal:
            known = self.unit.learned()
            if not any([self.follows(it) for it in self.missed]) or self.unit.learned() != known:
                raise
        again = Translation(self.unit, self.target, self.owner)
        again.local_arrays = self.local_arrays
        try:
            return again.script()
        finally:
            self.notes, self.uses_daemon = again.notes, again.uses_daemon

    def in_two_ways(self) -> Script:
        """A local whose value another answer overwrites splits the ways, if that helps; otherwise it is a variable."""
        try:
            return self.with_retries()
        except Refusal as first:
            if not self.has_variables or self.uses_memory:
                raise
            is_alike = not self.splits and not self.parted and not self.is_flat
            self.splits, self.parted, self.is_flat, self.uses_memory = set(), set(), False, True
            if isinstance(first, LostUse) and is_alike:
                # followed anew with as little in variables as before it would be the same that isn't known
                self.learns(first.lost)
            try:
                return self.with_retries()
            except Refusal as second:
                raise (second if isinstance(first, (LostUse, TooDeep)) else first) from None

    def with_retries(self) -> Script:
        for _ in range(MOST_RETRIES):
            try:
                return self.once_through()
            except TooDeep:
                if self.is_flat:
                    raise
                self.is_flat = True
            except Escaped:
                continue
            except LostUse as why:
                if not self.learns(why.lost):
                    self.missed.append(why.lost)
                    raise
        raise Refusal(self.owner.place, "this function keeps too many results at once", "a test right after each call")

    def once_through(self) -> Script:
        self.notes, self.statements_done = {}, 0
        definition = self.unit.functions[self.owner.function]
        ends: List[State] = []
        path = Path(State())

        def end(fork: Path, _: Node = None) -> None:
            if fork.state.sections > 0:
                self.note(definition, f"`{self.owner.name}` may end in a critical section: the run ends then with a misuse", True)
            ends.append(fork.state)
            fork.end()
        self.frame = Frame(self.owner.function, Jumps(end), ({},))
        keys = [f"parameter {at}" for at in range(len(trees.parameters_of(definition)))]
        for at, it in enumerate(keys[:1 + (len(keys) - 1) * self.is_handler]):
            path.state = path.state.with_local(it, self.owner.parameter if at == 0 and self.owner.parameter is not None else OF_HANDLER)
        self.bind(definition, keys, definition, path)
        with self.using(self.frame.inner()):
            self.statements(definition.body.block_items or [], path, end)
        items = fused(path.items)
        lines = lines_of(items)
        self.check_size(items, lines)
        self.warn_of_polls(items)
        return Script(self.owner, lines, not ends)

    def warn_of_polls(self, items: Sequence[Item]) -> None:
        """A loop that only looks leaves no time for what it looks for."""
        for it in items:
            if isinstance(it, Repeat) and it.turns == "forever" and not takes_time(it.body):
                text = "no time passes in this loop: a run may end in it; rtosim_work(1) makes a turn take a tick"
                self.notes[Note(it.place, text, True)] = None
            for body in ([it.body] if isinstance(it, Repeat) else [it.yes, it.no] if isinstance(it, If) else []):
                self.warn_of_polls(body)

    def check_size(self, items: Sequence[Item], lines: List[Line]) -> None:
        most = MOST_OPS[self.is_handler]
        if len(lines) > most:
            instead = "fewer calls, or loops whose turns are all the same"
            if self.is_handler:
                instead = "less in the handler: a task that it wakes may compute and test as well; --ignore NAME for variables on which nothing depends"
            if self.arrays_named:
                instead = f"fewer elements of `{self.arrays_named[0]}`, by `#ifdef RTOSIM`; or {instead}"
            raise Refusal(lines[most].place, f"{self.owner.name} would need {len(lines)} ops, and {most} are the most", instead)
        self.check_depth(items, 0, 0)

    def check_depth(self, items: Sequence[Item], loops: int, blocks: int) -> None:
        for it in items:
            if isinstance(it, (If, Repeat)):
                inner = loops + isinstance(it, Repeat)
                if inner > MOST_LOOPS or blocks + 1 > MOST_BLOCKS:
                    raise TooDeep(it.place, f"loops and branches are too deep here: at most {MOST_LOOPS} loops and {MOST_BLOCKS} blocks",
                                  "a test right after its call, so that later calls needn't be in its branches")
                for body in ([it.body] if isinstance(it, Repeat) else [it.yes, it.no]):
                    self.check_depth(body, inner, blocks + 1)


def translated(unit: Unit, target: Target = PROGRAM) -> Application:
    """The application; all refusals at once, if there are some."""
    while True:
        known = unit.learned()
        found, refusals = translated_once(unit, target)
        if unit.learned() == known:
            break
    if len(found.variables()) > MOST_VARIABLES:
        refusals.append(Refusal(None, f"{len(found.variables())} variables, and {MOST_VARIABLES} are the most",
                                "--ignore NAME for those on which nothing depends, and tests right after their calls"))
    if not unit.tasks:
        refusals.append(Refusal(None, "no task is created in this file", "xTaskCreate(..) in `main`, for each task"))
    if refusals:
        raise SeveralRefusals(without_doubles(refusals))
    found.notes += warnings_of(found)
    return found


def translated_once(unit: Unit, target: Target) -> Tuple[Application, List[Refusal]]:
    """The application, from what is known by now of the items of its queues, and the refusals."""
    found, refusals = Application(unit), list(unit.refusals)
    notes: Dict[Note, None] = dict.fromkeys(unit.notes)
    owners: List[Union[Task, Handler]] = [*unit.handlers, *unit.tasks]
    for owner in owners:
        translation = Translation(unit, target, owner)
        try:
            script = translation.script()
        except Refusal as refusal:
            refusals += [refusal, *(not_here(name, place) for name, place in unit.calls_of_others(owner.function))]
            continue
        (found.handlers if translation.is_handler else found.tasks).append(script)
        found.uses_daemon |= translation.uses_daemon
        notes.update(translation.notes)
    found.notes = list(notes)
    return found, refusals


def warnings_of(found: Application) -> List[Note]:
    """What of the whole is likely not meant."""
    notes = [Note(None, f"`{it}` is called by no task and no handler: left out") for it in found.unit.unreached()
             if found.unit.functions[it].decl.coord.file not in found.unit.of_headers]
    for name in found.unit.unreached():
        of_handlers = [it for it in trees.calls_in(found.unit.functions[name]) if it in CALLS and CALLS[it].who is Who.HANDLER]
        if of_handlers:
            notes.append(Note(None, f"`{name}` calls {of_handlers[0]}, and is no handler: --handler {name} makes it one", True))
    if all(it.is_endless for it in found.tasks):
        notes.append(Note(None, "every task is endless, so no run can pass: add a task that ends, with a configASSERT of what is to hold",
                          True))
    return notes


def without_doubles(refusals: Sequence[Refusal]) -> List[Refusal]:
    """Each refusal once; of a function that isn't in the file its first call alone."""
    found: Dict[tuple, Refusal] = {}
    for it in refusals:
        place = it.place
        found.setdefault((None if "isn't in this file" in it.what else place and (place.file, place.line, place.column), it.what), it)
    return sorted(found.values(), key=lambda it: (it.place is None, it.place and (it.place.line, it.place.column)))


def read_unit(name: str, lines: Lines, folders: Sequence[str] = (), macros: Sequence[str] = (), handlers: Sequence[str] = (),
              ignored: Sequence[str] = (), failing: Sequence[str] = (), has_short_enums: bool = False) -> Unit:
    """What the file declares, with its objects and tasks."""
    text = preprocessed(name, folders, macros, lines)
    return Unit(parsed(text, name, lines), lines, handlers, ignored, failing, has_short_enums)


