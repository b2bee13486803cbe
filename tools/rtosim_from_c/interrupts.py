"""Which interrupts a driver enables and disables: calls of CMSIS and of HALs, and what `main` leaves of them for the scheduler."""
from typing import TYPE_CHECKING, Dict, List, Optional

from . import trees
from .calls import OF_INTERRUPTS, SETUP
from .trees import Node

if TYPE_CHECKING:
    from .unit import Handler, Unit

# How CMSIS ends the number of an interrupt, and its handler.
NUMBER, HANDLER = "_IRQn", "_IRQHandler"


def handlers_of(unit: "Unit", call: Node) -> "List[Handler]":
    """The handlers of the interrupt that is the argument of a call, as EXTI0_IRQn; none if it is another expression."""
    name = number_of(trees.arguments(call))
    return [it for it in unit.handlers if name is not None and it.function == name[: -len(NUMBER)] + HANDLER]


def number_of(words: List[Node]) -> Optional[str]:
    node = words[0] if len(words) == 1 else None
    while node is not None and trees.kind(node) == "Cast":
        node = node.expr
    name = node.name if node is not None and trees.kind(node) == "ID" else None
    return name if name is not None and name.endswith(NUMBER) else None


def armed_by_main(unit: "Unit") -> Dict[str, bool]:
    """Of each handler whose interrupt `main` enables or disables, by its name: whether it has enabled it last."""
    found: Dict[str, bool] = {}
    for function in unit.reached([it for it in SETUP if it in unit.functions]):
        for call in trees.calls_of(unit.functions[function]):
            called = trees.called(call) or ""
            word = OF_INTERRUPTS.get(called)
            if word is not None and called not in unit.directives.ignored:
                found.update({it.name: word == "arm" for it in handlers_of(unit, call)})
    return found


def is_disarmed(unit: "Unit", name: str, texts: List[str]) -> bool:
    """Whether a handler is disarmed at reset: a task or a handler arms it, as one of these ops, and `main` doesn't. On a board every
    interrupt is disabled at reset; one that nothing here enables is enabled by code that isn't here."""
    armed = armed_by_main(unit).get(name)
    return f"arm {name}" in texts if armed is None else not armed
