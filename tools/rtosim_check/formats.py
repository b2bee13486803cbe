"""The format of an application as tables: sections, keys, ops and points, as docs/FORMATS.md has them.

What messages say of a rule is said here. The verdict is never made of these tables: it is the program's."""
from __future__ import annotations

import re
from typing import Any, Dict, List, Optional, Tuple

# A word of an op or a point, with its start and its end in the text.
Word = Tuple[str, int, int]
MOST_OF_A_NUMBER = 4294967295
# The greatest limit of ticks of a tickless application, 2^48.
MOST_TICKLESS = 281474976710656
NUMBER = re.compile("[0-9]{1,10}")
NAME = re.compile("[A-Za-z][A-Za-z0-9_]{0,15}")
A_NAME = "a name is 1 to 16 ASCII letters, digits and `_`, and begins with a letter"
OBJECTS = ("queue", "binary", "counting", "mutex")
NAMED = (*OBJECTS, "group", "variable", "handler", "task")
# The word for the last answer, and those of conditions, which name no variable there.
ANSWER, WORDS_OF_CONDITIONS = "answer", ("none", "not", "below", "above")
# The ops on the last answer, and with them all that are about variables.
ARITHMETIC = ("add", "sub", "mul", "div", "mod", "and", "or", "xor")
OF_VARIABLES = ("load", "store", *ARITHMETIC)
# The section of the task that does handlers' commands; a file has one at most.
DAEMON = "daemon"
# How a message calls what a section names.
CALLED = {
    "queue": "queue", "binary": "binary semaphore", "counting": "counting semaphore", "mutex": "mutex", "group": "event group",
    "variable": "variable", "handler": "handler", "task": "task", "interrupt": "interrupt", DAEMON: "daemon",
}
PLURALS = {
    "queue": "queues", "binary": "binary semaphores", "counting": "counting semaphores", "mutex": "mutexes",
    "group": "event groups", "variable": "variables", "handler": "handlers", "task": "tasks",
}


# -- sections and keys


class Key:
    """A key of a section: its name, the kind of its value, whether it must be there, and the rule in a sentence."""

    def __init__(self, name: str, kind: str, rule: str, needed: bool = True, least: int = 0, most: int = 0) -> None:
        self.name, self.kind, self.rule, self.needed, self.least, self.most = name, kind, rule, needed, least, most
        # The greatest number if the application is tickless.
        self.most_tickless = most


class Section:
    """A section of the file; `is_list` if its entries have two brackets each."""

    def __init__(self, name: str, is_list: bool, most: int, rule: str, *keys: Key) -> None:
        self.name, self.is_list, self.most, self.rule = name, is_list, most, rule
        self.keys = {key.name: key for key in keys}

    @property
    def header(self) -> str:
        return f"[[{self.name}]]" if self.is_list else f"[{self.name}]"


def number_key(name: str, least: int, most: int, what: str, default: Optional[int] = None) -> Key:
    rule = f"{name} is {what}, an integer from {least} to {most}"
    rule += "" if default is None else f"; the default is {default}"
    return Key(name, "an integer", rule, default is None, least, most)


def texts_key(name: str, most: int, rule: str, example: str) -> Key:
    return Key(name, "an array of texts", f"{rule}, such as {example}", True, 0, most)


def limit_of_ticks() -> Key:
    key = number_key("ticks", 1, 1000000, "the number of elapsed ticks after which a run ends", 1000000)
    key.rule += f"; with tickless = true it may be up to {MOST_TICKLESS}"
    key.most_tickless = MOST_TICKLESS
    return key


TOGETHER = "a file has at most 32 queues, semaphores and mutexes together"
ENDLESS = Key(
    "endless", "a boolean", "endless = true is for a task that serves forever: a run passes without its end; the default is false",
    False)
THE_NAME = Key("name", "a name", f"{A_NAME}; each name of a file is used once")
ARMED = Key(
    "armed", "a boolean", "armed = false is for an interrupt that can't be injected until an op arms it; the default is true", False)
MOST_APART = 1000000
SECTIONS = {it.name: it for it in (
    Section("limits", False, 1, "[limits] says when a run ends at the latest",
            limit_of_ticks(),
            number_key("steps", 1, 1000000, "the number of steps after which a run ends", 1000000)),
    Section("queue", True, 32, TOGETHER, THE_NAME,
            number_key("length", 1, 256, "the number of items that fit into the queue")),
    Section("binary", True, 32, TOGETHER, THE_NAME),
    Section("counting", True, 32, TOGETHER, THE_NAME,
            number_key("max", 1, 65535, "the greatest count of the semaphore"),
            number_key("initial", 0, 65535, "the count at reset, at most max", 0)),
    Section("mutex", True, 32, TOGETHER, THE_NAME),
    Section("group", True, 16, "a file has at most 16 event groups", THE_NAME),
    Section("variable", True, 32, "a file has at most 32 variables, which all tasks and handlers share", THE_NAME,
            number_key("initial", 0, MOST_OF_A_NUMBER, "the variable's value at reset", 0)),
    Section("handler", True, 16, "a file has at most 16 handlers", THE_NAME,
            texts_key("ops", 16, "ops are what the handler does: an array of at most 16 texts", '["send rx 7"]'), ARMED,
            number_key("apart", 0, MOST_APART, "the least number of elapsed ticks from one coming of the handler to its next injection", 0)),
    Section("task", True, 32, "a file has 1 to 32 tasks, each under its own [[task]]", THE_NAME,
            number_key("priority", 0, 31, "the base priority (a larger number is a higher priority)"),
            ENDLESS,
            texts_key("script", 256, "script is what the task does: an array of at most 256 texts", '["work 3", "give s"]')),
    Section(DAEMON, False, 1, "[daemon] is the task that sets and clears bits for handlers, one of the 32 tasks", THE_NAME,
            number_key("priority", 0, 31, "the daemon's priority (a larger number is a higher priority)"),
            number_key("length", 1, 256, "the number of commands that fit into the daemon's queue")),
    Section("interrupt", True, 1024, "a file has at most 1024 base interrupts, and at most 4 at one tick",
            number_key("tick", 1, 1000000, "the elapsed tick at which the handler runs"),
            Key("handler", "a handler's name", "handler is the name of the [[handler]] that runs at that tick")),
    Section("campaign", False, 1, "[campaign] has the points at which handlers and ticks are injected",
            texts_key("points", 1000000, "points say before which steps handlers or ticks come: an array of texts", '["all uart", "12 uart"]')),
)}
START = number_key("start", 0, MOST_OF_A_NUMBER, "the time at reset, above the first table", 0)
TICKLESS = Key(
    "tickless", "a boolean",
    "tickless = true, above the first table, lets one step of idle pass all ticks up to the next event; "
    "the default is false", False)
# The keys above the first table.
TOP_KEYS = {it.name: it for it in (START, TICKLESS)}
EXAMPLE_OF_A_DAEMON = '[daemon] with name = "daemon", priority = 31, length = 10'
EXAMPLE_OF_A_TASK = '[[task]] with name = "a", priority = 1, script = ["work 3"]'

# What else people write for a section or a key.
MEANT_SECTIONS = {
    "semaphore": "binary", "sem": "binary", "binary_semaphore": "binary", "counting_semaphore": "counting", "event_group": "group",
    "events": "group", "event": "group", "isr": "handler", "irq": "interrupt", "thread": "task", "points": "campaign",
    "injection": "campaign", "timer_task": DAEMON, "daemon_task": DAEMON, "timer_service": DAEMON, "tmr_svc": DAEMON,
    "tickless_idle": "tickless", "configuse_tickless_idle": "tickless", "var": "variable", "global": "variable", "globals": "variable",
    "shared": "variable", "memory": "variable", "counter": "variable", "volatile": "variable", "static": "variable", "int": "variable",
    "uint32_t": "variable",
}
MEANT_KEYS = {
    "prio": "priority", "size": "length", "capacity": "length", "depth": "length", "ops": "script", "code": "script",
    "script": "ops", "body": "ops", "maximum": "max", "init": "initial", "count": "initial", "value": "initial", "default": "initial", "at_reset": "initial",
    "time": "tick", "at": "tick",
    "isr": "handler", "irq": "handler", "ticks": "tick", "tick": "ticks", "point": "points", "forever": "endless",
    "infinite": "endless", "never_ends": "endless",
    "configtimer_task_priority": "priority", "configtimer_queue_length": "length", "queue_length": "length",
    "enabled": "armed", "enable": "armed", "active": "armed", "disarmed": "armed", "disabled": "armed", "masked": "armed",
    "interval": "apart", "min_interval": "apart", "minimum_interval": "apart", "gap": "apart", "spacing": "apart", "inter_arrival": "apart",
    "min_inter_arrival": "apart", "distance": "apart",
}


# -- the arguments of ops


class Number:
    """A number of a range, or another word."""

    or_else = ""

    def __init__(self, letter: str, least: int = 0, most: int = MOST_OF_A_NUMBER, what: str = "a number") -> None:
        self.letter, self.least, self.most = letter, least, most
        self.rule = f"{letter} is {what}, {least} to {most}"

    def fits(self, word: str) -> bool:
        return bool(NUMBER.fullmatch(word)) and self.least <= int(word) <= self.most


class Wait(Number):
    """How long a call waits at most."""

    or_else = ", or forever"

    def __init__(self) -> None:
        super().__init__("w", 0, MOST_OF_A_NUMBER - 1)
        self.rule = f"w is the timeout in ticks, 0 to {self.most}{self.or_else}"

    def fits(self, word: str) -> bool:
        return word == "forever" or super().fits(word)


class Turns(Number):
    """How many turns a loop has at most."""

    or_else = ", or forever"

    def __init__(self) -> None:
        super().__init__("n", 1, 1000)
        self.rule = f"n is the number of turns, 1 to {self.most}, or forever, which only a break ends"

    def fits(self, word: str) -> bool:
        return word == "forever" or super().fits(word)


class Value(Number):
    """A number, or the last answer."""

    or_else = ", or answer"

    def __init__(self, letter: str, what: str) -> None:
        super().__init__(letter)
        self.rule = f"{letter} is {what}, 0 to {self.most}, or the word answer for the last answer"

    def fits(self, word: str) -> bool:
        return word == ANSWER or super().fits(word)


class Operand(Number):
    """A number, or the name of a variable."""

    or_else = ", or the name of a variable"
    kinds = ("variable",)

    def __init__(self, least: int = 0) -> None:
        super().__init__("O", least)
        self.rule = f"O is a number, {least} to {self.most}{self.or_else}"

    def fits(self, word: str) -> bool:
        return is_name(word) or super().fits(word)


class Condition(Number):
    """What the last answer must be, in one word or two."""

    or_else = ", the name of a variable, or none"
    # The first words of two, each with whether none may follow.
    FRONTS = {"not": True, "below": False, "above": False}
    kinds = ("variable",)

    def __init__(self) -> None:
        super().__init__("C")
        self.rule = (f"C is what the last answer must be: n, none, not n, not none, below n or above n. n is a number, 0 to {self.most}, "
                     "or a variable; none is neither below nor above it")

    def fits(self, word: str) -> bool:
        return word == "none" or self.is_value(word)

    def is_value(self, word: str) -> bool:
        """Whether it is a number, or may be the name of a variable."""
        return super().fits(word) or is_name(word) and word not in WORDS_OF_CONDITIONS

    def fits_all(self, words: List[str]) -> bool:
        if len(words) == 2 and words[0] in self.FRONTS:
            return self.is_value(words[1]) or words[1] == "none" and self.FRONTS[words[0]]
        return len(words) == 1 and self.fits(words[0])


class Action(Number):
    """What becomes of a notification value, in one word or two."""

    # The words that stand alone, and those that a value follows.
    ALONE, FRONTS = ("none", "increment"), ("bits", "overwrite", "keep")

    def __init__(self) -> None:
        super().__init__("A")
        self.value = Value("V", "a number")
        self.rule = (f"A is {', '.join(self.ALONE)}, {', '.join(f'{it} V' for it in self.FRONTS[:-1])} or {self.FRONTS[-1]} V, "
                     f"which says what happens to its notification value; {self.value.rule}")

    def fits(self, word: str) -> bool:
        return word in self.ALONE

    def fits_all(self, words: List[str]) -> bool:
        if len(words) == 2 and words[0] in self.FRONTS:
            return self.value.fits(words[1])
        return len(words) == 1 and self.fits(words[0])


class Choice:
    """One of some words."""

    def __init__(self, letter: str, rule: str, *words: str) -> None:
        self.letter, self.words = letter, words
        self.rule = f"{letter} is {' or '.join(words)}: {rule}"

    def fits(self, word: str) -> bool:
        return word in self.words


class Name:
    """The name of one of these kinds."""

    def __init__(self, letter: str, what: str, *kinds: str) -> None:
        self.letter, self.what, self.kinds = letter, what, kinds
        self.rule = f"{letter} is {what}"

    def fits(self, word: str) -> bool:
        return is_name(word)


def is_name(word: str) -> bool:
    return bool(NAME.fullmatch(word))


Q = Name("q", "a queue", "queue")
S = Name("s", "a semaphore", "binary", "counting")
M = Name("m", "a mutex", "mutex")
G = Name("g", "an event group", "group")
X = Name("x", "a variable", "variable")
T = Name("t", "a task", "task")
H = Name("h", "a handler", "handler")
V = Value("V", "an item")
W = Wait()
B = Number("b", 1, 16777215, "a mask of bits")


# One of these, or of their kinds.
Argument = Any


class Op:
    """An op: its word, its arguments, and what it does."""

    def __init__(self, word: str, *arguments: Argument, does: str) -> None:
        self.word, self.arguments, self.does = word, arguments, does

    @property
    def usage(self) -> str:
        return " ".join((self.word, *(it.letter for it in self.arguments)))

    @property
    def rule(self) -> str:
        return "; ".join((f"{self.usage}: {self.does}", *(it.rule for it in self.arguments)))

    def fits(self, given: List[str]) -> bool:
        """Whether these words are its arguments."""
        before = len(self.arguments) - 1
        if self.has_condition or self.has_action:
            return len(given) > before and self.fits_first(given[:before]) and self.arguments[-1].fits_all(given[before:])
        return len(given) == len(self.arguments) and self.fits_first(given)

    def fits_first(self, given: List[str]) -> bool:
        """Whether these words are its first arguments."""
        return all(it.fits(word) for it, word in zip(self.arguments, given))

    @property
    def has_action(self) -> bool:
        """Whether its last argument is an action of a notify, of one word or two."""
        return any(isinstance(it, Action) for it in self.arguments)

    @property
    def has_condition(self) -> bool:
        """Whether its one argument is a condition, of one word or two."""
        return any(isinstance(it, Condition) for it in self.arguments)

    @property
    def kinds(self) -> Tuple[str, ...]:
        """The kinds of what it may name; a condition, which is about the last answer, has none here."""
        return next((it.kinds for it in self.arguments if isinstance(it, (Name, Operand))), ())

    def name_at(self, given: List[str]) -> Optional[Tuple[int, Tuple[str, ...]]]:
        """The index of the one of its words, which fit, that is a name, and the kinds of what it may name; None if none is."""
        if self.has_condition:
            last = len(given) - 1
            return (last, Condition.kinds) if is_name(given[last]) and given[last] != "none" else None
        found = ((at, it.kinds) for at, it in enumerate(self.arguments) if isinstance(it, (Name, Operand)) and is_name(given[at]))
        return next(found, None)

    def uses_answer(self, given: List[str]) -> bool:
        """Whether these words, which are its arguments, use the last answer as a number."""
        if self.has_action:
            return given[-1] == ANSWER and len(given) > len(self.arguments)
        return self.word in ARITHMETIC or any(isinstance(it, Value) and word == ANSWER for it, word in zip(self.arguments, given))


def table_of(*ops: Op) -> Dict[str, Op]:
    return {op.word: op for op in ops}


# About when interrupts come, in a task or a handler.
ABOUT_HANDLERS = (
    Op("arm", H, does="lets an interrupt come if it is injected"),
    Op("disarm", H, does="keeps an interrupt from coming if it is injected"),
    Op("raise", H, Number("n", 1, MOST_APART, "the number of ticks until then"),
       does="has a device bring the interrupt n ticks from now, and no longer when it was due before"),
    Op("cancel", H, does="takes a raise back"),
)
TASK_OPS = table_of(
    Op("work", Number("n", 1, 1000000, "the number of ticks"), does="computes for n ticks"),
    Op("delay", Number("n", what="the number of ticks"), does="sleeps for n ticks"),
    Op("delay_until", Number("n", 1, what="the number of ticks"), does="sleeps until n ticks after the time from which it counts"),
    Op("yield", does="lets the next task of its priority run"),
    Op("time", does="returns the tick"),
    Op("stamp", does="notes the time for the next since"),
    Op("since", does="returns the number of ticks since the last stamp, or since reset"),
    Op("mark", Value("V", "a number"), does="writes a line with V"),
    Op("expect", Condition(), does="ends the run with check unless C holds"),
    Op("if", Condition(), does="continues with the next op if C holds, and otherwise after its else, or after the end that closes it"),
    Op("else", does="begins the part of an if that is done if its condition doesn't hold"),
    Op("repeat", Turns(), does="begins a loop of n turns, which an end closes"),
    Op("break", does="leaves the innermost loop"),
    Op("end", does="closes a loop or an if"),
    Op("send", Q, V, W, does="puts an item last into a queue"),
    Op("send_front", Q, V, W, does="puts an item first into a queue"),
    Op("overwrite", Name("q", "a queue of length 1", "queue"), V, does="puts an item in place of the one that is there"),
    Op("receive", Q, W, does="takes the first item of a queue"),
    Op("peek", Q, W, does="returns the first item of a queue and leaves it there"),
    Op("waiting", Q, does="returns the number of items in a queue"),
    Op("spaces", Q, does="returns the number of free places in a queue"),
    Op("take", S, W, does="takes a semaphore"),
    Op("give", S, does="gives a semaphore"),
    Op("lock", M, W, does="locks a mutex"),
    Op("unlock", M, does="unlocks a mutex that the task holds"),
    Op("set", G, B, does="sets bits of an event group"),
    Op("clear", G, B, does="clears bits of an event group"),
    Op("bits", G, does="returns the bits of an event group"),
    Op("wait", G, B, Choice("c", "which of its bits must be set", "any", "all"),
       Choice("k", "what happens to them then", "keep", "clear"), W, does="waits for bits of an event group"),
    Op("notify", T, Action(), does="notifies a task, perhaps itself, and returns 1, or 0 if keep finds a notification pending"),
    Op("notify_take", Choice("k", "what happens to the value then", "clear", "decrement"), W,
       does="waits until the task's own notification value isn't 0, and returns it"),
    Op("notify_wait", Number("E", what="a mask of bits to clear first, if no notification is pending"),
       Number("X", what="a mask of bits to clear at the end, if one is pending"), W,
       does="waits until a notification of the task itself is pending, and returns its notification value"),
    Op("notify_clear", does="clears the pending state of the task's own notification, and returns 1, or 0 if none was pending"),
    Op("notify_value_clear", Number("b", what="a mask of bits to clear"),
       does="clears bits of the task's own notification value, and returns the value before"),
    Op("suspend", T, does="suspends a task"),
    Op("resume", T, does="resumes a suspended task"),
    Op("suspend_all", does="holds the scheduler"),
    Op("resume_all", does="ends one suspend_all"),
    Op("enter_critical", does="opens a critical section, in which no handler and no tick comes"),
    Op("exit_critical", does="closes one enter_critical"),
    Op("load", X, does="returns the value of a variable"),
    Op("store", X, Value("V", "its new value"), does="gives a variable a new value, and returns it"),
    Op("add", Operand(), does="returns the last answer plus O, modulo 2^32"),
    Op("sub", Operand(), does="returns the last answer minus O, modulo 2^32"),
    Op("mul", Operand(), does="returns the last answer times O, modulo 2^32"),
    Op("div", Operand(1), does="returns the last answer divided by O, rounded down"),
    Op("mod", Operand(1), does="returns the remainder of the last answer divided by O"),
    Op("and", Operand(), does="returns the bits that are set in both the last answer and O"),
    Op("or", Operand(), does="returns the bits that are set in the last answer, in O, or in both"),
    Op("xor", Operand(), does="returns the bits that are set in either the last answer or O, but not in both"),
    *ABOUT_HANDLERS,
)
HANDLER_OPS = table_of(
    Op("send", Q, V, does="puts an item last into a queue, if it has room"),
    Op("send_front", Q, V, does="puts an item first into a queue, if it has room"),
    TASK_OPS["overwrite"],
    Op("receive", Q, does="takes the first item of a queue, if there is one"),
    Op("peek", Q, does="returns the first item of a queue, if there is one"),
    TASK_OPS["give"],
    Op("notify", T, Action(), does="notifies a task, and returns 1, or 0 if keep finds a notification pending"),
    TASK_OPS["resume"],
    Op("set", G, B, does="has the daemon set bits of an event group, if its queue has room for the command"),
    Op("clear", G, B, does="has the daemon clear bits of an event group, if its queue has room for the command"),
    TASK_OPS["bits"], TASK_OPS["mark"],
    Op("expect", Condition(), does="unless C holds, ends the handler, and after this step the run with check"),
    TASK_OPS["if"], TASK_OPS["else"],
    Op("end", does="closes an if"),
    TASK_OPS["load"], TASK_OPS["store"], *(TASK_OPS[it] for it in ARITHMETIC), *ABOUT_HANDLERS,
)
# How deep loops are at most, and how deep blocks are, which are loops and ifs.
DEEPEST_LOOP, DEEPEST = 4, 8
OPS = {"task": TASK_OPS, "handler": HANDLER_OPS}
# Ops of handlers that are commands to the daemon.
COMMANDS = ("set", "clear")
# Ops of loops, ops that measure, and ops of critical sections, which a handler has none of.
LOOPS, MEASURES, MASKS = ("repeat", "break"), ("stamp", "since"), ("enter_critical", "exit_critical")
# Ops about the task's own notification, and those of them that wait for one.
AWAITS = ("notify_take", "notify_wait")
OWN = (*AWAITS, "notify_clear", "notify_value_clear")
# Ops about when interrupts come.
ARMS, DISARMS, RAISES, CANCELS = "arm", "disarm", "raise", "cancel"
OF_HANDLERS = tuple(it.word for it in ABOUT_HANDLERS)

# What FreeRTOS and others call the ops.
MEANT_OPS = {
    "vtaskdelay": "delay", "vtaskdelayuntil": "delay_until", "xtaskdelayuntil": "delay_until", "taskyield": "yield",
    "xtaskgettickcount": "time", "xqueuesend": "send", "xqueuesendtoback": "send", "xqueuesendtofront": "send_front",
    "xqueueoverwrite": "overwrite", "xqueuereceive": "receive", "xqueuepeek": "peek", "uxqueuemessageswaiting": "waiting",
    "uxqueuespacesavailable": "spaces", "xsemaphoretake": "take", "xsemaphoregive": "give", "xeventgroupsetbits": "set",
    "xeventgroupclearbits": "clear", "xeventgroupgetbits": "bits", "xeventgroupwaitbits": "wait", "vtasksuspend": "suspend",
    "vtaskresume": "resume", "xtaskresume": "resume", "vtasksuspendall": "suspend_all", "xtaskresumeall": "resume_all",
    "taskenter_critical": "enter_critical", "taskexit_critical": "exit_critical", "portenter_critical": "enter_critical",
    "portexit_critical": "exit_critical", "taskdisable_interrupts": "enter_critical", "taskenable_interrupts": "exit_critical",
    "disable_interrupts": "enter_critical", "enable_interrupts": "exit_critical", "__disable_irq": "enter_critical",
    "__enable_irq": "exit_critical", "critical": "enter_critical", "mask": "enter_critical", "unmask": "exit_critical",
    "leave_critical": "exit_critical", "end_critical": "exit_critical", "begin_critical": "enter_critical",
    "sleep": "delay", "recv": "receive", "read": "receive", "get": "receive", "pop": "receive", "put": "send", "push": "send",
    "while": "repeat", "until": "repeat", "when": "if", "elif": "else", "elseif": "else", "elsif": "else", "otherwise": "else",
    "endif": "end", "end_if": "end", "fi": "end", "done": "end", "endloop": "end", "endwhile": "end", "leave": "break", "exit": "break",
    "write": "send", "post": "give", "release": "give", "signal": "give", "acquire": "take", "loop": "repeat", "for": "repeat",
    "assert": "expect", "configassert": "expect", "print": "mark", "log": "mark", "trace": "mark", "now": "time", "compute": "work",
    "run": "work", "elapsed": "since", "lap": "since", "timestamp": "stamp", "start_timer": "stamp", "deadline": "since",
    "set_bits": "set", "clear_bits": "clear", "get_bits": "bits", "wait_bits": "wait",
    "assign": "store", "let": "store", "ldr": "load", "fetch": "load", "plus": "add", "sum": "add", "minus": "sub", "subtract": "sub",
    "less": "sub", "times": "mul", "multiply": "mul", "divide": "div", "modulo": "mod", "rem": "mod", "remainder": "mod",
    "bitand": "and", "bitor": "or", "bitxor": "xor", "eor": "xor",
    "xtasknotify": "notify", "xtasknotifygive": "notify", "vtasknotifygive": "notify", "ultasknotifytake": "notify_take",
    "xtasknotifywait": "notify_wait", "xtasknotifystateclear": "notify_clear", "ultasknotifyvalueclear": "notify_value_clear",
    "notify_give": "notify", "notification": "notify", "wait_notify": "notify_wait", "take_notify": "notify_take",
    "notify_state_clear": "notify_clear", "notify_clear_value": "notify_value_clear",
    "nvic_enableirq": "arm", "nvic_disableirq": "disarm", "nvic_setpendingirq": "raise", "nvic_clearpendingirq": "cancel",
    "hal_nvic_enableirq": "arm", "hal_nvic_disableirq": "disarm", "irq_set_enabled": "arm", "enable_irq": "arm", "disable_irq": "disarm",
    "enable": "arm", "disable": "disarm", "unarm": "disarm", "trigger": "raise", "pend": "raise", "schedule": "raise", "unraise": "cancel",
    "abort": "cancel", "portyield": "yield", "printf": "mark", "hal_delay": "work", "hal_gettick": "time", "xqueueisqueueempty": "peek",
    "osmutexacquire": "lock", "osmutexrelease": "unlock", "ossemaphoreacquire": "take", "ossemaphorerelease": "give",
    "osmessagequeueput": "send", "osmessagequeueget": "receive", "osmessagequeuegetcount": "waiting", "osmessagequeuegetspace": "spaces",
    "oseventflagsset": "set", "oseventflagsclear": "clear", "oseventflagsget": "bits", "oseventflagswait": "wait",
    "osthreadflagsset": "notify", "osthreadflagswait": "notify_wait", "osthreadflagsclear": "notify_value_clear",
    "osdelay": "delay", "osdelayuntil": "delay_until", "osthreadyield": "yield", "osthreadsuspend": "suspend", "osthreadresume": "resume",
    "oskernellock": "suspend_all", "oskernelunlock": "resume_all", "oskernelgettickcount": "time",
}
# What others write for an op whose next word is a variable, and the ops for it; {x} is the variable, {v} a word after it.
MEANT_OF_VARIABLES = {
    "read": ("load {x}",), "get": ("load {x}",), "receive": ("load {x}",), "peek": ("load {x}",), "write": ("store {x} {v}",),
    "set": ("store {x} {v}",), "put": ("store {x} {v}",), "send": ("store {x} {v}",), "inc": ("load {x}", "add 1", "store {x} answer"),
    "increment": ("load {x}", "add 1", "store {x} answer"), "incr": ("load {x}", "add 1", "store {x} answer"),
    "dec": ("load {x}", "sub 1", "store {x} answer"), "decrement": ("load {x}", "sub 1", "store {x} answer"),
    "decr": ("load {x}", "sub 1", "store {x} answer"), "clear": ("store {x} 0",), "reset": ("store {x} 0",), "zero": ("store {x} 0",),
}
# The operators of C that change a variable, and the ops for them.
OPERATORS = {"+": "add", "-": "sub", "*": "mul", "/": "div", "%": "mod", "&": "and", "|": "or", "^": "xor"}
# Ops that do the like to things of other kinds.
KIN = (("receive", "take", "lock", "wait"), ("send", "give", "unlock", "set", "store", "notify"), ("waiting", "bits"),
       ("load", "receive", "bits", "take", "lock", "peek", "waiting", "spaces"))
# What else people write in a condition: an operator for the words of one, and for `<=` and `>=` the word whose number is one off.
MEANT_FRONTS = {"==": "", "=": "", "is": "", "equals": "", "eq": "", "!=": "not", "<>": "not", "!": "not", "ne": "not", "isnt": "not",
                "<": "below", "less": "below", "lt": "below", "under": "below", ">": "above", "greater": "above", "more": "above",
                "gt": "above", "over": "above"}
MEANT_WITH_EQUAL = {"<=": ("below", 1), "le": ("below", 1), ">=": ("above", -1), "ge": ("above", -1)}
MEANT_ANSWERS = {"pdPASS": "1", "pdTRUE": "1", "true": "1", "pdFAIL": "0", "pdFALSE": "0", "errQUEUE_FULL": "0"}
MEANT_NONE = ("nothing", "null", "NULL", "fail", "failed", "errQUEUE_EMPTY", "empty", "false")
MEANT_WAITS = ("portmax_delay", "infinite", "infinity", "inf", "ever", "always", "max", "-1", "endless", "0xffffffff", "4294967295",
               "wait_forever", "oswaitforever", "none", "never")
# What else people write for a notify's action, and for one of some words.
MEANT_ACTIONS = {
    "enoaction": "none", "esetbits": "bits", "eincrement": "increment", "esetvaluewithoverwrite": "overwrite", "nothing": "none",
    "esetvaluewithoutoverwrite": "keep", "inc": "increment", "incr": "increment", "add": "increment", "give": "increment", "set": "bits",
    "set_bits": "bits", "setbits": "bits", "or": "bits", "mask": "bits", "value": "overwrite", "store": "overwrite", "write": "overwrite",
    "no_overwrite": "keep",
}
MEANT_CHOICES = {"pdtrue": "clear", "pdfalse": "decrement", "true": "clear", "false": "decrement", "dec": "decrement"}
MEANT_TURNS = ("always", "infinite", "infinity", "inf", "ever", "true", "endless", "while", "loop", "0", "-1")


# -- points

STEP = Number("STEP", 0, 1000000, "a number")
# In a point it is the tick interrupt, unless a handler has this name.
TICK = "tick"
MEANT_TICK = dict.fromkeys(("systick", "sys_tick", "tick_interrupt", "xtaskincrementtick", "tick_isr"), TICK)
A_POINT = 'a point is a step, 0 to 1000000, and a handler or tick, such as "12 uart", or "all uart" for each step of the base run, \
or "all uart from 3 to 9" for these'
A_RANGE = 'a range of points is all, a handler or tick, from, its first step, to, and its last step, such as "all uart from 3 to 9"'
SEVERAL = 'a point is one to three pairs of a step and a handler or tick, with steps in order, such as "12 uart 15 timer"'
MOST_PAIRS = 3
# How many of them the schema takes, which is for this version alone.
PAIRS = 3
MOST_POINTS = 1000000


def op_of(section: str, text: str) -> Tuple[List[str], Any]:
    """The words of an op and the op that they spell, which is None if this check doesn't know it."""
    words = [it[0] for it in words_of(text)]
    op = OPS[section].get(words[0]) if words else None
    return words, op if op and op.fits(words[1:]) else None


def words_of(text: str) -> List[Word]:
    """The words of an op or a point, each with its start and its end. Only U+0020 separates."""
    return [(it.group(), it.start(), it.end()) for it in re.finditer("[^ ]+", text)]
