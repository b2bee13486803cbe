"""The application of a report: what its tasks' and handlers' ops are, by their texts, or by the names that comments give them. The
program has taken the file; nothing is checked here but that it can be read."""
from __future__ import annotations

import re
from typing import Any, Dict, List, NamedTuple, Optional, Tuple


from .escaping import plain
from .faults import Fault
from .report import TICK

# The ops about when handlers come.
ARMS, DISARMS, RAISES, CANCELS = "arm", "disarm", "raise", "cancel"
OF_HANDLERS = {ARMS, DISARMS, RAISES, CANCELS}
# Words of ops for which no line names them.
SILENT_WORDS = {"work", "mark", "expect", "repeat", "end", "if", "else", "break", "stamp", "enter_critical", "exit_critical", *OF_HANDLERS}
# The ops on the last answer, whose second word is a number or the name of a variable.
ARITHMETIC = {"add", "sub", "mul", "div", "mod", "and", "or", "xor"}
# The word for the last answer, and the ops in which it may be in the place of a number.
ANSWER, TAKES_ANSWER = "answer", {"send", "send_front", "overwrite", "mark", "store", "notify"}
# The ops that wait for a notification, and all about the notification of the task that does them.
AWAITS = ("notify_take", "notify_wait")
OF_OWN_NOTIFICATION = {*AWAITS, "notify_clear", "notify_value_clear"}
# Ops whose second word isn't the name of an object, a group, a variable or a task.
NAMELESS = SILENT_WORDS | OF_OWN_NOTIFICATION | {"delay", "delay_until", "yield", "time", "since", "suspend_all", "resume_all"}
# The ops that open and close a critical section.
OPENS, CLOSES = "enter_critical", "exit_critical"
# The sections of the objects, which are numbered in this order.
OBJECTS = ("queue", "binary", "counting", "mutex")
ORDINALS = {2: "2nd", 3: "3rd"}
# After an op, on its line: the comment that names it.
NAMING_COMMENT = re.compile(r"[ \t,\]]*#[ \t]*name:([^\r\n]*)")
LONGEST_NAME = 60


class Op(NamedTuple):
    """An op as it is written, in words; and the name that a comment at the end of its line gives it, as `# name: inbox empty`."""

    words: List[str]
    given_name: str = ""

    @property
    def text(self) -> str:
        return " ".join(self.words)

    @property
    def lasting(self) -> str:
        """What it is called in the names of classes."""
        return self.given_name or self.text

    @property
    def word(self) -> str:
        return self.words[0] if self.words else ""

    @property
    def object(self) -> Optional[str]:
        """The name of what the op is about, or the number by which it changes the last answer."""
        return self.words[1] if len(self.words) > 1 and self.word not in NAMELESS else None

    @property
    def is_silent(self) -> bool:
        return self.word in SILENT_WORDS

    @property
    def uses_answer(self) -> bool:
        """Whether it needs the last answer to be a number; else it is a failed check."""
        return self.word in ARITHMETIC or ANSWER in self.words[1 if self.word == "mark" else 2 :] and self.word in TAKES_ANSWER


class Script(NamedTuple):
    """The ops of a task or of a handler."""

    name: str
    ops: List[Op]
    is_endless: bool = False
    priority: int = 0
    # Of a handler: whether it is armed at reset, and after how many elapsed ticks it can be injected again.
    is_armed: bool = True
    apart: int = 0

    def op(self, index: int) -> Optional[Op]:
        return self.ops[index] if 0 <= index < len(self.ops) else None

    def lasting_name(self, index: int) -> str:
        """The op by the name that it is given, otherwise by its text; and from the second op of this name on which of them it is: so that
        ops added elsewhere change nothing."""
        op = self.op(index)
        if op is None:
            return f"op {index}"
        nth = sum(it.lasting == op.lasting for it in self.ops[: index + 1])
        return op.lasting if nth == 1 else f"{op.lasting} ({ORDINALS.get(nth, f'{nth}th')})"


class Application(NamedTuple):
    """The scripts by their names. The daemon is a task without one. `start` is the tick at reset; `interrupt_ticks` are the elapsed
    ticks of the base interrupts, rising; `objects` are the names of queues, semaphores and mutexes in the order of their numbers, and
    `variables` the values at reset of the variables, in their order. Of each section and key that the program ignores there is a line."""

    tasks: Dict[str, Script]
    handlers: Dict[str, Script]
    daemon: Any = None
    is_tickless: bool = False
    start: int = 0
    interrupt_ticks: List[int] = []
    objects: List[str] = []
    ignored: List[str] = []
    has_campaign: bool = False
    variables: Dict[str, int] = {}
    # The base interrupts in the order of the file, each its tick and its handler.
    interrupts: List[Tuple[int, str]] = []

    @property
    def has_arrivals(self) -> bool:
        """Whether a handler can't come at some moment, or is raised."""
        scripts = [*self.tasks.values(), *self.handlers.values()]
        return any(not it.is_armed or it.apart for it in self.handlers.values()) or any(
            op.word in OF_HANDLERS for script in scripts for op in script.ops)

    def script(self, name: str) -> Optional[Script]:
        return self.tasks.get(name) or self.handlers.get(name)

    def first_runner(self) -> Optional[str]:
        """Who runs at reset: of those that have something to do the task of highest priority, of several the first."""
        ready = [it for it in self.tasks.values() if it.ops] + [self.daemon] * (self.daemon is not None)
        first = max(ready, key=lambda it: it.priority, default=None)
        return None if first is None else first.name

    def is_tick(self, name: str) -> bool:
        """Whether the tick is meant by this name in a point."""
        return name == TICK and name not in self.handlers

    @property
    def has_sections(self) -> bool:
        """Whether a task opens critical sections."""
        return any(it.word == OPENS for script in self.tasks.values() for it in script.ops)

    def op(self, name: str, index: int) -> Optional[Op]:
        script = self.script(name)
        return None if script is None or index is None else script.op(index)


class Named(str):
    """A text of the document, and the name that the comment after it gives it."""

    given_name = ""


def read_document(name: str) -> Tuple[Dict[str, Any], List[str]]:
    """The document in the file of this name, as dictionaries and lists, and a line for each section and key that the program ignores."""
    try:
        with open(name, "rb") as file:
            return document_of(file.read().decode("utf-8-sig"))
    except OSError as why:
        raise Fault(f"cannot read {plain(name)}: {why.strerror}") from None
    except ValueError as why:
        raise Fault(f"{plain(name)} is no application: {why}") from None


def read_application(name: str) -> Application:
    """The application in the file of this name."""
    document, ignored = read_document(name)
    tasks = [script_of(it, "script") for it in entries(document, "task")]
    handlers = [script_of(it, "ops") for it in entries(document, "handler")]
    daemon = document.get("daemon")
    return Application({it.name: it for it in tasks}, {it.name: it for it in handlers},
                       script_of(daemon, "") if isinstance(daemon, dict) else None, document.get("tickless") is True,
                       number_of(document, "start"), sorted({number_of(it, "tick") for it in entries(document, "interrupt")}),
                       [str(it.get("name")) for section in OBJECTS for it in entries(document, section)], ignored,
                       isinstance(document.get("campaign"), dict),
                       {str(it.get("name")): number_of(it, "initial") for it in entries(document, "variable")},
                       [(number_of(it, "tick"), str(it.get("handler"))) for it in entries(document, "interrupt")])


def document_of(text: str) -> Tuple[dict, List[str]]:
    """As read_document. What reads it names the fault as a ValueError."""
    try:
        from rtosim_check import ignored, nodes, toml_reader
    except ImportError:
        return document_of_library(text), []
    try:
        root = toml_reader.read_document(text)
    except nodes.NotToml as why:
        raise ValueError(f"not TOML: {plain(str(why))}") from None
    lines = [f"line {text.count(chr(10), 0, it.span[0] if it.span else 0) + 1}: {it.message}" for _, it in ignored.of_document(root)]
    return values_of(root, text), lines


def document_of_library(text: str) -> Dict[str, Any]:
    try:
        import tomllib
    except ImportError:
        raise ValueError("to read it, Python 3.11 is needed") from None
    return tomllib.loads(text)


def values_of(node: Any, text: str) -> Any:
    """The plain values of a document that is read with its places in this text; of a text the name too."""
    if hasattr(node, "members"):
        return {key: values_of(it.value, text) for key, it in node.members.items()}
    if hasattr(node, "items"):
        return [values_of(it, text) for it in node.items]
    naming = NAMING_COMMENT.match(text, node.end) if isinstance(node.value, str) else None
    if naming is None:
        return node.value
    found = Named(node.value)
    found.given_name = plain(" ".join(naming[1].split()))[:LONGEST_NAME]
    return found


def entries(document: Dict[str, Any], section: str) -> List[Dict[str, Any]]:
    found = document.get(section, [])
    return [it for it in found if isinstance(it, dict)] if isinstance(found, list) else []


def script_of(entry: Dict[str, Any], key: str) -> Script:
    ops = entry.get(key, [])
    texts = [it for it in ops if isinstance(it, str)] if isinstance(ops, list) else []
    return Script(str(entry.get("name")), [Op(it.split(), getattr(it, "given_name", "")) for it in texts],
                  entry.get("endless") is True, number_of(entry, "priority"), entry.get("armed") is not False, number_of(entry, "apart"))


def number_of(table: Dict[str, Any], key: str) -> int:
    found = table.get(key)
    return found if isinstance(found, int) else 0
