"""Two reports of two versions of an application: which classes are new, gone, larger, smaller. Rows are classed by cause, so that a
class keeps its name from one version to the other."""
from typing import Any, List, NamedTuple, Sequence

from .faults import counted
from .output import Text
from .table import Given, aligned, command_of

# A class of rows, as classes.py makes it, or None.
Class = Any


class Change(NamedTuple):
    """A class of either report, or of both."""

    name: str
    old: Class
    new: Class

    @property
    def word(self) -> str:
        if self.is_new_failure and self.old is not None:
            return "fails now"
        if self.old is None or self.new is None:
            return "new" if self.old is None else "gone"
        rows = self.new.rows - self.old.rows
        return "larger" if rows > 0 else "smaller" if rows < 0 else "same"

    @property
    def is_new_failure(self) -> bool:
        return self.new is not None and not self.new.verdict.passes and (self.old is None or self.old.verdict.passes)

    @property
    def is_larger_failure(self) -> bool:
        """Whether more rows fail so than before: some of them may have another cause."""
        return self.word == "larger" and self.fails

    @property
    def fails(self) -> bool:
        return not (self.new or self.old).verdict.passes

    def cells(self) -> List[str]:
        rows = [f"{it.rows:,}" if it else "-" for it in (self.old, self.new)]
        return [self.word, *rows, "fails" if self.fails else "passes", self.name]


HEADINGS = ["", "old rows", "new rows", "", "class"]


def changes_of(old: Sequence[Class], new: Sequence[Class]) -> List[Change]:
    """Failures that are new first, then other classes that fail, then those that pass."""
    olds, news = {it.name: it for it in old}, {it.name: it for it in new}
    found = [Change(name, olds.get(name), news.get(name)) for name in {**news, **olds}]
    return sorted(found, key=lambda it: (not it.is_new_failure, not it.is_larger_failure, not it.fails))


def write_changes(output: Text, old: Sequence[Class], new: Sequence[Class], given: Given) -> int:
    """The table, with the command of each failure that is new, or has more rows, below it. Returns how many there are."""
    changes = changes_of(old, new)
    failures, larger = sum(it.is_new_failure for it in changes), sum(it.is_larger_failure for it in changes)
    more = f", {larger:,} larger" if larger else ""
    output.line(f"{rows_of(old)} before, {rows_of(new)} now; {counted(failures, 'failure')} new{more}")
    told = [it for it in changes if it.word != "same"]
    same = len(changes) - len(told)
    if told:
        output.line()
        heading, *lines = aligned([HEADINGS, *(it.cells() for it in told)], {1, 2})
        output.line(heading)
        for it, line in zip(told, lines):
            output.line(line)
            if it.is_new_failure or it.is_larger_failure:
                output.line(f"       {command_of(it.new.first, given)}")
    if same:
        output.line(f"{counted(same, 'class')} of as many rows as before")
    return failures + larger


def rows_of(classes: Sequence[Class]) -> str:
    return f"{counted(sum(it.rows for it in classes), 'row')} in {counted(len(classes), 'class')}"
