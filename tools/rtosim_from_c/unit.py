"""What a file declares: its functions, constants and globals; the objects and tasks that it creates; its handlers."""
import os
from dataclasses import dataclass, field, replace
from typing import Dict, FrozenSet, Iterator, List, Mapping, Optional, Sequence, Set, Tuple, Union

from . import trees
from .answers import Answers, answers, only
from .arrays import Arrays
from .calls import CALLS, CREATORS, LASTING, NO_OP, SETUP, TASK_CREATORS
from .constants import Constants, numeral
from .directives import Directives, Ignored
from .fields import Fields
from .given import Given
from .integers import Integer
from .naming import MOST, Names, fitting, of_handler
from .reached import Reached
from .refusals import Note, Place, Refusal
from .reset import Reset
from .scopes import Scopes
from .source import HEADERS, Lines, place_of
from .static_types import StaticTypes
from .trees import MaybeNode, Node
from .unrolling import Unrolling
from .values import Address, Handle, Known, Value, constant

SETS_OF_BITS = ("xEventGroupSetBits", "xEventGroupSetBitsFromISR")
ALL_BITS = (1 << 24) - 1
MOST_BITS_APART = 6
HANDLER_ENDINGS = ("_IRQHandler", "_ISR")
MOST_PRIORITY = 31
# How the key of a global structure begins, and the name of one that has registers.
GLOBAL = "global "
STUB = "rtosim_"


@dataclass
class Object:
    """What a section describes: a queue, a semaphore, a mutex or an event group."""

    kind: str
    name: str
    place: Place
    numbers: Dict[str, int] = field(default_factory=dict)


@dataclass
class Task:
    function: str
    name: str
    priority: int
    parameter: Optional[Known]
    place: Place


@dataclass
class Handler:
    """`parameter` is what the handler is given, if a comment or an option says so."""

    function: str
    name: str
    place: Place
    parameter: Optional[Known] = None


class Unit(Reached):
    """A file, as far as it is known without its functions being followed."""

    def __init__(self, tree: Node, lines: Lines, handlers: Sequence[str] = (), ignored: Sequence[str] = (), failing: Sequence[str] = (),
                 has_short_enums: bool = False) -> None:
        self.lines, self.names, self.constants = lines, Names(), Constants(has_short_enums)
        self.directives = Directives(handlers=set(handlers), ignored=Ignored(ignored), failing=Ignored(failing))
        self.functions: Dict[str, Node] = {}
        self.globals: Dict[str, Node] = {}
        self.prototypes: Dict[str, Node] = {}
        self.objects: List[Object] = []
        self.handles: Dict[Tuple[str, str], Handle] = {}
        self.tasks: List[Task] = []
        self.handlers: List[Handler] = []
        self.notes: List[Note] = []
        self.refusals: List[Refusal] = []
        self.of_headers = {f"{HEADERS}/{it}" for it in os.listdir(HEADERS)}
        # queues into which a number is sent that is negative as an int
        self.with_large_items: Set[str] = set()
        self.variables: Dict[str, int] = {}
        # expressions whose value nothing takes
        self.statement_nodes: Set[Node] = set()
        self.named_by_callers: List[Tuple[str, Optional[str]]] = []
        # the tasks whose handles globals have from their creation on
        self.created_as: Dict[str, str] = {}
        # what each call creates, by its id
        self.created_by: Dict[int, List[Handle]] = {}
        self.not_constant: Dict[Tuple[str, str], Refusal] = {}
        self.task_of: Dict[int, Task] = {}
        self.jumps: Dict[Node, FrozenSet[str]] = {}
        self.called_lines: Dict[Node, FrozenSet[int]] = {}
        self.tests: Dict[Node, FrozenSet[str]] = {}
        self.name_lines: Dict[Node, Dict[str, List[int]]] = {}
        self.trees: Dict[Node, List[Node]] = {}
        self.bits: Optional[Answers] = None
        self.silent: Dict[str, bool] = {}
        self.names_of_locals: Dict[str, Set[str]] = {}
        # what has another name than in C: what it is there
        self.shown: Dict[str, str] = {}
        self.arrays = Arrays(self)
        self.declare(tree)
        self.reset = Reset(self)
        self.find_all()

    def find_all(self) -> None:
        for find in (self.find_objects, self.find_handlers, self.find_tasks, self.find_gives, self.find_kept):
            find()
        self.fields = Fields(self)
        self.name_tasks()

    def place(self, node: Node) -> Place:
        return place_of(node, self.lines) or Place("", 0, 0)

    # -- declarations

    def declare(self, tree: Node) -> None:
        self.declare_types(tree)
        scopes = Scopes(tree, lambda it: isinstance(self.constants.type_of(it), Integer))
        scopes.run()
        self.shown = scopes.shown
        for it in scopes.hoisted:
            self.declare_global(it)
        for it in tree.ext:
            name = trees.kind(it)
            for inner in trees.walk(it):
                if trees.kind(inner) == "Enum" and not self.constants.take_enum(inner):
                    self.refusals.append(two_types(self.place(inner), inner.name))
            if name == "FuncDef":
                self.functions[it.decl.name] = it
            elif name == "Decl" and it.name and trees.kind(it.type) != "FuncDecl":
                self.declare_global(it)
            elif name == "Decl" and it.name:
                self.prototypes[it.name] = it
            elif name == "Pragma":
                self.take_comment(it)
        Unrolling(self.functions, self.constants).run()
        self.assigned = {trees.assigned(it) for function in self.functions.values() for it in trees.walk(function)}
        for name, it in list(self.globals.items()):
            self.declare_constant(name, it)
        self.types = StaticTypes(self.constants, {**self.prototypes, **{name: it.decl for name, it in self.functions.items()}})
        self.given = Given(self.functions, frozenset(self.globals), self.constants)

    def declare_types(self, tree: Node) -> None:
        """The types of the file, those in functions too: each name is that of one type."""
        for it in tree.ext:
            for node in trees.walk(it):
                name, before = getattr(node, "name", None) or "", None
                if trees.kind(node) == "Struct" and name and node.decls:
                    before = self.constants.structures.setdefault(name, node)
                elif trees.kind(node) == "Typedef":
                    before = self.constants.typedefs.setdefault(name, node)
                if before not in (None, node) and (before is None or not trees.is_alike(before, node)):
                    self.refusals.append(two_types(self.place(node), name))

    def declare_global(self, declaration: Node) -> None:
        name = declaration.name
        if name not in self.globals or declaration.init is not None:
            self.globals[name] = declaration

    def declare_constant(self, name: str, declaration: Node) -> None:
        """A global that nothing gives another value is a constant."""
        type_ = self.constants.type_of(declaration)
        is_volatile = any("volatile" in (getattr(it, "quals", None) or []) for it in trees.walk(declaration.type))
        if isinstance(type_, Integer) and name not in self.assigned and not is_volatile and declaration.init is not None:
            value = self.constants.value(declaration.init)
            if value is not None:
                self.constants.numbers[name] = constant(value.constant() or 0, type_)

    def take_comment(self, pragma: Node) -> None:
        text = pragma.string or ""
        if not text.startswith("rtosim"):
            return
        try:
            self.directives.take(text[len("rtosim"):], self.place(pragma))
        except Refusal as refusal:
            self.refusals.append(refusal)

    # -- objects

    def find_objects(self) -> None:
        for function in self.ordered_functions():
            named: Set[int] = set()
            for node in trees.walk(self.functions[function]):
                target, call = created(node)
                named.add(id(call))
                if call is not None and trees.called(call) in CREATORS:
                    for scope, it in self.targets(function, node, target):
                        self.create(scope, it, call)
                elif call is not None and trees.called(call) == "xTaskGetCurrentTaskHandle":
                    self.named_by_callers += self.targets(function, node, target)
                elif trees.called(node) in CREATORS and id(node) not in named:
                    self.create(function, None, node)

    def targets(self, function: str, node: Node, target: Optional[str]) -> List[Tuple[str, Optional[str]]]:
        """The names that are given what a call creates, each with its function: several if a function does so with what it is given."""
        if trees.kind(node) == "Return":
            return list(self.given_by_calls(function)) or [(function, None)]
        found: Sequence[Optional[str]] = [target]
        if target is None and trees.kind(node) == "Assignment":
            found = self.given.names(function, node.lvalue)
        return [(function, it) for it in found] or [(function, None)]

    def given_by_calls(self, function: str) -> Iterator[Tuple[str, Optional[str]]]:
        """The names that are given what a function returns."""
        for caller, definition in self.functions.items():
            for node in trees.walk(definition.body):
                target, call = created(node)
                if call is not None and trees.called(call) == function:
                    names: Sequence[Optional[str]] = [target]
                    if target is None and trees.kind(node) == "Assignment":
                        names = self.given.names(caller, node.lvalue)
                    yield from ((caller, it) for it in names)

    def create(self, function: str, target: Optional[str], call: Node) -> None:
        place = self.place(call)
        if target is None:
            self.refusals.append(Refusal(place, "this object has no name", "assign what creates it to a variable"))
            return
        scope = self.scope_of(target, function)
        if (scope, target) in self.handles:
            self.refusals.append(Refusal(place, f"`{target}` is created twice", "a variable for each object"))
            return
        kind, *keys = CREATORS[trees.called(call) or ""]
        handle = Handle(kind, self.names.name(f"object of {scope}", target, target.replace("]", "")))
        self.handles[scope, target] = handle
        self.created_by.setdefault(id(call), []).append(handle)
        numbers = {}
        for key, argument in zip(keys, trees.arguments(call)):
            value = self.constants.value(argument)
            if value is None and key != "size":
                self.not_constant[handle.name, key] = Refusal(self.place(argument), f"the {key} is no constant", "a number")
            numbers[key] = (value.constant() or 0) if value is not None else 4 if key == "size" else 1
            numbers["bytes"] = (value.constant() or 0) if value is not None and key == "size" else 0
        self.objects.append(Object(kind, handle.name, place, numbers))

    def escapes(self, node: Node) -> FrozenSet[str]:
        """How a statement may leave what is around it."""
        if node not in self.jumps:
            self.jumps[node] = frozenset(trees.escapes(node))
        return self.jumps[node]

    def below(self, node: Node) -> List[Node]:
        """The node and all below it, in the order of the text."""
        if node not in self.trees:
            self.trees[node] = list(trees.walk(node))
        return self.trees[node]

    def mentions(self, node: Node, name: str) -> int:
        """How often a name is in a statement."""
        return self.named_from(node, name, 0)

    def named_from(self, node: Node, name: str, line: int) -> int:
        """How often a name is in a statement, from this line on."""
        if node not in self.name_lines:
            found: Dict[str, List[int]] = {}
            for it in trees.walk(node):
                if trees.kind(it) == "ID":
                    found.setdefault(it.name, []).append(self.place(it).line)
            self.name_lines[node] = found
        return sum(it >= line for it in self.name_lines[node].get(name, []))

    def tested(self, loop: Node) -> FrozenSet[str]:
        """The names in the conditions of a loop, and of what is in it."""
        if loop not in self.tests:
            conditions = [it.cond for it in trees.walk(loop) if getattr(it, "cond", None) is not None]
            self.tests[loop] = frozenset(it.name for one in conditions for it in trees.walk(one) if trees.kind(it) == "ID")
        return self.tests[loop]

    def lines_of_calls(self, node: Node) -> FrozenSet[int]:
        """The lines in which something is called."""
        if node not in self.called_lines:
            self.called_lines[node] = frozenset(self.place(it).line for it in trees.walk(node) if trees.kind(it) == "FuncCall")
        return self.called_lines[node]

    def bits_of_groups(self) -> Answers:
        """The bits that a group may have: those of the masks that are set somewhere."""
        if self.bits is None:
            self.bits = self.bits_set()
        return self.bits

    def bits_set(self) -> Answers:
        masks = [trees.arguments(it)[1] for it in self.nodes() if trees.called(it) in SETS_OF_BITS]
        values = [self.constants.value(it) for it in masks]
        union = 0
        for it in values:
            if it is None:
                return answers((0, ALL_BITS))
            union |= (it.constant() or 0) & ALL_BITS
        places = [1 << at for at in range(24) if union >> at & 1]
        if len(places) > MOST_BITS_APART:
            return answers((0, union))
        return only(*(sum(it for at, it in enumerate(places) if which >> at & 1) for which in range(1 << len(places))))

    def scope_of(self, target: str, function: str) -> str:
        """Where a name belongs: to the file, or to a function."""
        return "" if trees.root(target) in self.globals else function

    def handle(self, function: str, node: Node) -> Optional[Handle]:
        """The handle that a variable, or a member of one, has."""
        name = trees.dotted(node)
        return (self.handles.get((function, name)) or self.handles.get(("", name))) if name else None

    def object(self, name: str) -> Object:
        return next(it for it in self.objects if it.name == name)

    # -- handlers and tasks

    def find_handlers(self) -> None:
        named: Dict[str, List[str]] = {}
        for text in sorted(self.directives.handlers):
            name, _, given = text.partition("(")
            named.setdefault(name, []).extend([given.rstrip(")")] if given else [])
        for name in sorted(named.keys() - self.functions.keys()):
            self.refusals.append(Refusal(None, f"no function is called {name}, and a handler must be one"))
        for name, it in self.functions.items():
            if name in named or name.endswith(HANDLER_ENDINGS):
                self.add_handlers(name, self.place(it), named.get(name, []))

    def add_handlers(self, function: str, place: Place, given: List[str]) -> None:
        """The handler of a function; if it is given several numbers, one for each."""
        shown = of_handler(function)
        for text in given:
            found: Optional[Known] = self.constants.numbers.get(text) or numeral(text)
            if text.startswith("&") and text[1:].split(".")[0] in self.globals:
                found, text = self.followed(Address(text[1:])), text[1:]
            if found is None:
                self.refusals.append(Refusal(place, f"`{text}`, which {function} is given, is no number", f"--handler '{function}(NUMBER)'"))
                continue
            name = f"{shown[:MOST - len(text) - 1]}_{text}" if len(given) > 1 else shown
            self.handlers.append(Handler(function, self.names.name("handler", f"{function} {text}", name), place, found))
        if not given:
            self.handlers.append(Handler(function, self.names.name("handler", shown), place, self.only_global(function)))

    def only_global(self, function: str) -> Optional[Known]:
        """What a handler's first parameter leads to, if it is passed with the handler, or the file has one structure of that type."""
        parameters = trees.parameters_of(self.functions[function])
        type_ = parameters[0].type if parameters else None
        if trees.kind(type_) != "PtrDecl":
            return None
        whole, why = self.constants.structure(type_.type), "it is passed with this function"
        found = self.given.beside(function)
        if whole is not None and not found:
            found, why = self.constants.instances(whole, self.globals), "no other structure has this type"
        if len(found) != 1:
            return None
        self.notes.append(Note(self.place(parameters[0]), f"`{parameters[0].name}` is `&{found[0]}`: {why}"))
        return self.followed(Address(found[0]))

    def find_tasks(self) -> None:
        for function in self.ordered_functions():
            for node in trees.walk(self.functions[function]):
                if trees.called(node) in TASK_CREATORS:
                    try:
                        self.find_task(function, node)
                    except Refusal as refusal:
                        self.refusals.append(refusal)
            for node in trees.walk(self.functions[function]):
                if trees.kind(node) in ("For", "While", "DoWhile"):
                    self.refuse_creators(node)
        for function, target in self.named_by_callers:
            self.name_caller(function, target)

    def find_task(self, scope: str, call: Node) -> None:
        name, words = trees.called(call), trees.arguments(call)
        place = self.place(call)
        if len(self.given.calls.get(scope, [])) > 1:
            raise Refusal(place, f"`{scope}` creates a task, and is called more than once", "an xTaskCreate for each task")
        function = words[0] if words else None
        function = function.expr if trees.kind(function) == "UnaryOp" else trees.plain(function)
        if trees.kind(function) != "ID" or function.name not in self.functions:
            raise Refusal(place, "the function of this task isn't in the file", "the task's function, with its body")
        if len(words) < 6:
            raise Refusal(place, f"{name} has {len(words)} arguments", "those of FreeRTOS")
        priority = self.constants.value(words[4])
        if priority is None or not 0 <= (priority.constant() or 0) <= MOST_PRIORITY:
            raise Refusal(self.place(words[4]), f"a task's priority is a constant from 0 to {MOST_PRIORITY}")
        wanted = text_of(words[1]) or function.name
        key = f"{wanted} {place.line}"
        self.names.of["task", key] = self.names.free(fitting_task(wanted, function.name, self.names.taken))
        task = Task(function.name, self.names.of["task", key], priority.constant() or 0, self.parameter(scope, words[3]), place)
        self.names.taken.add(task.name)
        self.tasks.append(task)
        self.task_of[id(call)] = task
        self.name_task(scope, call, words, task)

    def name_task(self, scope: str, call: Node, words: List[Node], task: Task) -> None:
        """The variable that has the task's handle."""
        target: Optional[str] = None
        if trees.called(call) == "xTaskCreate":
            last = trees.plain(words[5])
            targets = self.given.names(scope, last.expr) if trees.kind(last) == "UnaryOp" else []
            if len(targets) != 1:
                return
            target = targets[0]
        else:
            whole = trees.find(self.functions[scope], lambda it: created(it)[1] is call)
            target = created(whole)[0] if whole is not None else None
        if target is not None:
            self.handles[self.scope_of(target, scope), target] = Handle("task", task.name)
            self.created_as[target] = task.name

    def parameter(self, scope: str, node: Node) -> Optional[Known]:
        """What a task is given; None if only what is done before the scheduler starts may say so."""
        found = self.handle(scope, trees.plain(node))
        if found is not None:
            return found
        value: Union[Value, None] = self.constants.value(node)
        if value is not None:
            return value
        led_to = self.given.leads_to(scope, node)
        return self.followed(Address(led_to[0])) if len(led_to) == 1 else None

    def find_kept(self) -> None:
        """What `main` gives globals: handles, pointers, numbers, and the parameters of tasks."""
        self.reset.run()
        self.refusals += self.not_constant.values()
        for name, it in self.reset.cells.items():
            if isinstance(it, Handle) and "@" not in name:
                self.handles.setdefault(("", name), it)
        for function in self.functions.values():
            for node in trees.walk(function.body):
                task = self.task_of.get(id(node))
                if task is not None and task.parameter is None:
                    self.refusals.append(Refusal(self.place(trees.arguments(node)[3]), "this parameter of a task isn't known",
                                                 "a number, NULL, a handle, or the address of a structure of the file"))
                    task.parameter = constant(0)

    def learned(self) -> Tuple[FrozenSet[str], int]:
        """What is known of the whole file by functions that were followed: if it changes, all are followed anew."""
        return frozenset(self.with_large_items), self.fields.version

    def name_tasks(self) -> None:
        """Globals to which a task gives its own handle by a function that it calls with it."""
        for name, given in self.fields.assigned.items():
            tasks = {one for it in given for one in self.fields.tasks_given(it.function, it.value) or []}
            if len(tasks) == 1:
                self.handles.setdefault(("", name), Handle("task", tasks.pop()))

    # -- global structures

    def is_followed(self, name: str) -> bool:
        """Whether a global is an integer, or a structure or an array of them whose members may be variables; or an array of integers that
        is followed by its elements."""
        declaration = self.globals.get(name)
        if declaration is None or name.startswith(STUB) or name in self.directives.ignored or name in self.constants.numbers:
            return False
        is_table = self.constants.structure(trees.element(declaration)) is not None
        type_ = self.constants.type_of(declaration)
        return is_table or type_ == "a structure" or isinstance(type_, Integer) or self.arrays.is_followed(name)

    def followed(self, where: Address) -> Address:
        """The same address; with a key if its members may be variables."""
        root = trees.root(where.name)
        return replace(where, key=GLOBAL + root) if self.is_followed(root) else where

    def is_local(self, function: str, name: str) -> bool:
        """Whether a function has a local or a parameter of this name."""
        if function not in self.names_of_locals:
            definition = self.functions[function]
            found = {it.name for it in trees.walk(definition.body) if trees.kind(it) == "Decl"}
            self.names_of_locals[function] = found | {it.name for it in trees.parameters_of(definition)}
        return name in self.names_of_locals[function]

    def name_caller(self, function: str, target: Optional[str]) -> None:
        """A global that a task gives its own handle, itself or in a function that it calls."""
        owners = [it for it in self.tasks if function in self.reached([it.function])]
        if target is not None and not self.scope_of(target, function) and len(owners) == 1:
            self.handles["", target] = Handle("task", owners[0].name)

    def refuse_creators(self, loop: Node) -> None:
        for node in trees.walk(loop):
            if trees.called(node) in (*CREATORS, *TASK_CREATORS):
                self.refusals.append(Refusal(self.place(node), f"{trees.called(node)} in a loop", "each creation by itself"))

    def may_be_suspended(self, task: str, changing: Mapping[str, FrozenSet[str]]) -> bool:
        """Whether others may suspend this task, perhaps by a handle that changes. A wait of it may then end without what it waits for."""
        for function, definition in self.functions.items():
            for node in trees.walk(definition.body):
                argument = trees.plain(trees.arguments(node)[0]) if trees.called(node) == "vTaskSuspend" else None
                if argument is None or trees.called(argument) == "xTaskGetCurrentTaskHandle" or self.constants.value(argument) is not None:
                    continue
                handle = self.handle(function, argument)
                tasks = {one for name in self.given.names(function, argument) for one in changing.get(name, ())}
                if task in (tasks or {handle.name if handle is not None else task}):
                    return True
        return False

    # -- before the scheduler starts

    def find_gives(self) -> None:
        """What `main` does with objects: a semaphore may be given there, all else is an op of a task."""
        for function in self.reached(SETUP):
            for node in trees.walk(self.functions[function]):
                name = trees.called(node)
                if name == "xSemaphoreGive" and self.gives(function, node):
                    continue
                if name in LASTING and name not in self.directives.ignored:
                    what, instead = NO_OP[name]
                    self.refusals.append(Refusal(self.place(node), f"{name} before the scheduler starts: {what}", instead))
                if name in CALLS:
                    instead = "the same at the beginning of a task"
                    if "app_main" in self.functions:
                        instead += "; what app_main does as a task, in a task of its own"
                    self.refusals.append(Refusal(self.place(node), f"{name} before the scheduler starts", instead))

    def gives(self, function: str, call: Node) -> bool:
        handle = self.handle(function, trees.plain(trees.arguments(call)[0]))
        found = self.object(handle.name) if handle else None
        if found is None or found.kind not in ("binary", "counting"):
            return False
        if found.kind == "binary":
            found.kind, found.numbers = "counting", {"max": 1, "initial": 0}
            for key, it in self.handles.items():
                self.handles[key] = Handle("counting", it.name) if it.name == found.name else it
        found.numbers["initial"] = min(found.numbers["max"], found.numbers.get("initial", 0) + 1)
        self.notes.append(Note(self.place(call), f"the semaphore `{found.name}` counts {found.numbers['initial']} at reset"))
        return True


def two_types(place: Place, name: str) -> Refusal:
    return Refusal(place, f"`{name}` is the name of two types", "a name for each of them")


def created(node: Node) -> Tuple[Optional[str], MaybeNode]:
    """The name and the call of `name = call(..)` or of `type name = call(..)`; no name if what is assigned to is no name."""
    name = trees.kind(node)
    if name == "Decl" and node.init is not None:
        call = trees.plain(node.init)
        return (node.name, call) if trees.called(call) else (None, None)
    if name == "Assignment" and node.op == "=":
        call = trees.plain(node.rvalue)
        target = trees.dotted(node.lvalue)
        return (target, call) if trees.called(call) else (None, None)
    call = trees.plain(node.expr) if name == "Return" and node.expr is not None else None
    return (None, call) if call is not None and trees.called(call) in CREATORS else (None, None)


def text_of(node: Node) -> Optional[str]:
    node = trees.plain(node)
    is_text = trees.kind(node) == "Constant" and node.value.startswith('"')
    return node.value[1:-1] if is_text else None


def fitting_task(wanted: str, function: str, taken: Set[str]) -> str:
    """The name of a task: that which the file gives it, or, if it is taken, that of its function."""
    return fitting(function) if fitting(wanted) in taken else fitting(wanted)
