"""A document that is refused, and the place of its fault: the nodes there, and how a message calls it."""
from __future__ import annotations

from typing import Any, Callable, List, Optional, Union

from .application import Application, Entry
from .formats import MEANT_SECTIONS, SECTIONS, TICKLESS, TOP_KEYS
from .nearness import near
from .nodes import Array, Boolean, Node, Span, Table
from .verdict import Place

SHOWN = 40


class Context:
    """The text of a file, its document, and the place of a fault. `takes_several` returns whether the program takes several
    injections in a point."""

    def __init__(self, text: str, root: Table, place: Place, takes_several: Callable[[], bool]) -> None:
        self.text, self.root, self.place, self.takes_several = text, root, place, takes_several
        self.application = Application(root)
        # The nodes along the place, as far as there are any, each with the span that a message points at.
        self.nodes, self.spans = [root], [(0, 1)]
        for word in place.words:
            if not self.follow(word):
                break

    def follow(self, word: Union[int, str]) -> bool:
        node = self.nodes[-1]
        if isinstance(word, int) and isinstance(node, Array) and word < len(node.items):
            self.nodes.append(node.items[word])
            self.spans.append(node.items[word].span)
            return True
        if isinstance(word, str) and isinstance(node, Table) and word in node.members:
            self.nodes.append(node.members[word].value)
            self.spans.append(node.members[word].span)
            return True
        return False

    @property
    def is_found(self) -> bool:
        return len(self.nodes) == len(self.place.words) + 1

    @property
    def node(self) -> Any:
        """The node of the place, or None if it isn't there."""
        return self.nodes[-1] if self.is_found else None

    @property
    def nearest(self) -> Span:
        """The span of what there is of the place."""
        return self.spans[-1]

    @property
    def section(self) -> Any:
        return SECTIONS.get(self.place.section)

    @property
    def key(self) -> Any:
        """The key of the format at the place."""
        if self.place.key is None:
            return TOP_KEYS.get(self.place.section)
        return self.section.keys.get(self.place.key) if self.section else None

    @property
    def is_tickless(self) -> bool:
        found = self.root.get(TICKLESS.name)
        return isinstance(found, Boolean) and found.value

    @property
    def most(self) -> int:
        """The greatest number of the key at the place."""
        return self.key.most_tickless if self.is_tickless else self.key.most

    @property
    def entry(self) -> Any:
        """The entry of a list that the place is in, or None."""
        if self.place.index is None or len(self.nodes) < 3:
            return None
        return Entry(self.place.section, self.place.index, self.nodes[2])

    @property
    def label(self) -> str:
        """As `task "drv", script 1`."""
        words = self.place.section if self.entry is None else self.entry.label
        if self.place.key is not None:
            words += f", {self.place.key}" + ("" if self.place.at is None else f" {self.place.at}")
        return words

    def line_of(self, offset: int) -> int:
        return self.text.count("\n", 0, offset) + 1

    def lost(self, kinds: List[str]) -> Optional[str]:
        """Which section is meant by one that isn't known, if the file has none of these kinds; or None."""
        for name, member in self.root.members.items():
            meant = near(name, kinds, MEANT_SECTIONS) if name not in SECTIONS else None
            if meant:
                return f"line {self.line_of(member.span[0])} has {member.shown}: did you mean {SECTIONS[meant].header}?"
        return None

    def source(self, node: Node) -> str:
        """A value as it is in the file, in one line and not too long."""
        text = " ".join(self.text[node.start : node.end].split())
        return text if len(text) <= SHOWN else text[:SHOWN] + ".."
