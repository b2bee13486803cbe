"""Names of an application file: 1 to 16 letters, digits and `_`, the first a letter, all of them different."""
import re
from typing import Dict, Set, Tuple

MOST = 16
# Words that a script reads as something else in the place of a variable or a condition.
WORDS = ("none", "not", "below", "above", "answer", "forever")


class Names:
    """The names that are taken, and what of C each one is."""

    def __init__(self) -> None:
        self.taken: Set[str] = set()
        self.of: Dict[Tuple[str, str], str] = {}

    def name(self, kind: str, text: str, shown: str = "") -> str:
        """The name of this thing of C: the same each time, and another than those of all other things."""
        if (kind, text) not in self.of:
            self.of[kind, text] = self.free(fitting(shown or text))
            self.taken.add(self.of[kind, text])
        return self.of[kind, text]

    def free(self, wanted: str) -> str:
        found, number = wanted, 1
        while found in self.taken or found in WORDS:
            number += 1
            found = wanted[: MOST - len(str(number)) - 1] + f"_{number}"
        return found


def fitting(text: str) -> str:
    letters = re.sub(r"[^A-Za-z0-9_]", "_", text)
    return (letters if letters[:1].isalpha() else f"x{letters}")[:MOST]


def of_handler(function: str) -> str:
    """The name of a handler: that of the function, without what says that it is one."""
    name = re.sub(r"(_IRQHandler|_ISR|IRQHandler|_Handler)$", "", function) or function
    return re.sub(r"_?[Cc]allback$", "", name) if len(name) > MOST else name
