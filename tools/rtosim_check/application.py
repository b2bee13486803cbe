"""What a document holds of the format, as far as it can be read: entries, names, texts of ops and points."""
from __future__ import annotations

from typing import Dict, Iterator, List, Optional, Tuple

from .formats import DAEMON, NAME, NAMED, NUMBER, SECTIONS, STEP, TICK
from .nodes import Array, Integer, Table, Text


class Entry:
    """An entry of a section: which one, its table, and its name if it has one."""

    def __init__(self, section: str, index: int, table: Table) -> None:
        self.section, self.index, self.table = section, index, table
        name = table.get("name") if isinstance(table, Table) else None
        self.name: Optional[str] = name.value if isinstance(name, Text) else None

    @property
    def label(self) -> str:
        """As `task "drv"`, or `task 0` if it has no good name."""
        return f'{self.section} "{self.name}"' if self.name and NAME.fullmatch(self.name) else f"{self.section} {self.index}"

    def texts(self) -> List[Tuple[int, Text]]:
        """The nodes of its ops, those that are texts."""
        array = self.table.get("script" if self.section == "task" else "ops")
        return [(at, it) for at, it in enumerate(array.items) if isinstance(it, Text)] if isinstance(array, Array) else []


class Application:
    """The document by sections and by names. `daemon` is the entry of the daemon, or None."""

    def __init__(self, root: Table) -> None:
        self.root = root
        daemon = root.get(DAEMON)
        self.daemon = Entry(DAEMON, 0, daemon) if isinstance(daemon, Table) else None
        self.entries = {name: list(self.entries_of(name)) for name, section in SECTIONS.items() if section.is_list}
        self.named: Dict[str, Entry] = {}
        for entry in self.all_entries():
            if entry.name is not None:
                self.named.setdefault(entry.name, entry)

    def all_entries(self) -> List[Entry]:
        """What has a name, in the order in which the names are checked."""
        entries = [it for section in NAMED for it in self.entries[section]]
        return entries if self.daemon is None else [*entries, self.daemon]

    def entries_of(self, section: str) -> Iterator[Entry]:
        array = self.root.get(section)
        items = array.items if isinstance(array, Array) else []
        return (Entry(section, index, it) for index, it in enumerate(items) if isinstance(it, Table))

    def names_of(self, kinds: Tuple[str, ...]) -> List[str]:
        return [name for name, entry in self.named.items() if entry.section in kinds]

    def points(self) -> Optional[List[Text]]:
        """The nodes of the points, or None if there is no such array."""
        campaign = self.root.get("campaign")
        array = campaign.get("points") if isinstance(campaign, Table) else None
        return array.items if isinstance(array, Array) else None

    def has_handler(self, name: str) -> bool:
        return any(it.name == name for it in self.entries["handler"])

    def ticks_of_points(self) -> int:
        """How many ticks a point injects at most: a run may end so many ticks after its limit, which isn't tested between them."""
        if self.has_handler(TICK):
            return 0
        texts = [it.value for it in self.points() or [] if isinstance(it, Text) and TICK in it.value]
        return max((sum(handler == TICK for _, handler in pairs_of(it)) for it in texts), default=0)


def range_of(text: str) -> Optional[Tuple[str, int, int]]:
    """The handler of `all HANDLER` or `all HANDLER from A to B`, and its first and its last step; None if the text is another point."""
    if "all" not in text:
        return None
    words = [it for it in text.split(" ") if it]
    if len(words) == 2 and words[0] == "all":
        return words[1], STEP.least, STEP.most
    if len(words) == 6 and words[0] == "all" and STEP.fits(words[3]) and STEP.fits(words[5]):
        return words[1], int(words[3]), int(words[5])
    return None


def pairs_of(text: str) -> List[Tuple[Optional[int], str]]:
    """A point's text as pairs of a step and a handler; of `all HANDLER`, with steps or without, the step is None."""
    found = range_of(text)
    if found:
        return [(None, found[0])]
    words = [it for it in text.split(" ") if it]
    return [(int(step), handler) for step, handler in zip(words[::2], words[1::2]) if NUMBER.fullmatch(step)]


def integer_of(table: Optional[Table], key: str) -> Optional[int]:
    """The number that a key of a table has, or None."""
    node = table.get(key) if isinstance(table, Table) else None
    return node.value if isinstance(node, Integer) else None
