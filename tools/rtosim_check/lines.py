"""Lines and columns of a text, and a line of it with a caret under what is meant."""
from __future__ import annotations

import bisect
import unicodedata
from typing import Tuple

from rtosim_report.escaping import plain

from .nodes import Span

WIDTH = 110
MARGIN = 30


class Lines:
    """The lines of a text. A line and a column count from 1, a column in characters."""

    def __init__(self, text: str) -> None:
        self.text = text
        self.starts = [0]
        at = text.find("\n")
        while at >= 0:
            self.starts.append(at + 1)
            at = text.find("\n", at + 1)

    def line_of(self, offset: int) -> int:
        return bisect.bisect_right(self.starts, offset)

    def place(self, offset: int) -> Span:
        """The line and the column."""
        line = self.line_of(offset)
        start = self.starts[line - 1]
        return line, offset - start + 1 - (line == 1 and self.text.startswith("\ufeff") and offset > 0)

    def line(self, number: int) -> Tuple[int, str]:
        """Where the line starts, and its text without its end."""
        start = self.starts[number - 1]
        end = self.text.find("\n", start)
        text = self.text[start : len(self.text) if end < 0 else end]
        return start, text[:-1] if text.endswith("\r") else text

    def excerpt(self, start: int, end: int) -> Tuple[int, str, str]:
        """The line of the span, fit to be shown, and carets under the part of the span that is in it. A long line is cut."""
        number = self.line_of(start)
        begins, text = self.line(number)
        first, last = start - begins, max(start - begins + 1, min(end - begins, len(text)))
        left = max(0, first - MARGIN) if len(text) > WIDTH else 0
        right = min(len(text), left + WIDTH)
        before, marked = shown(text[left:first]), shown(text[first : min(last, right)])
        after = shown(text[min(last, right) : right])
        front, back = "..." if left else "", "..." if right < len(text) else ""
        line = front + before + marked + after + back
        return number, line, " " * (width(before) + len(front)) + "^" * max(1, width(marked))


def shown(text: str) -> str:
    """A part of a line without control characters, and with spaces for a tab."""
    return plain(text.replace("\ufeff", "").replace("\t", "    "))


def width(text: str) -> int:
    """How many columns of a terminal the text takes."""
    return sum(columns(it) for it in text)


def columns(character: str) -> int:
    if unicodedata.combining(character) or unicodedata.category(character) in ("Cf", "Mn", "Me"):
        return 0
    return 2 if unicodedata.east_asian_width(character) in "WF" else 1
