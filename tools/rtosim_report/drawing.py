"""What pictures have in common: numbers, texts and their widths, colours for light and for dark."""
from __future__ import annotations

from typing import List, Optional, Tuple
from xml.sax.saxutils import escape

from .output import Text as Output

FONT = "ui-monospace, 'DejaVu Sans Mono', Menlo, Consolas, monospace"
FONT_SIZE = 12
CHARACTER = 7.3
# A title says of this many texts that they are folded.
MOST_TOLD = 20

# (selector, in light, in dark)
COMMON_STYLES = [
    (".paper", "fill:#ffffff", "fill:#14171c"),
    ("text", "fill:#1d2430", "fill:#e3e7ee"),
    (".quiet", "fill:#5b6573", "fill:#9aa5b4"),
    (".fails", "fill:#b3261e", "fill:#ff8a80"),
    (".rule", "stroke:#d5dae1", "stroke:#343c47"),
    (".stripe", "fill:#f4f6f9", "fill:#1b2028"),
]


def number(value: float) -> str:
    """At most two digits after the point."""
    text = f"{value:.2f}".rstrip("0").rstrip(".")
    return "0" if text in ("", "-0") else text


def width_of(text: str) -> float:
    return len(text) * CHARACTER


def style_sheet(styles: List[Tuple[str, str, str]]) -> str:
    """Rules for light, and for a reader who prefers dark."""
    rules = COMMON_STYLES + styles
    light = "".join(f"{selector}{{{light}}}" for selector, light, _ in rules)
    dark = "".join(f"{selector}{{{dark}}}" for selector, _, dark in rules)
    fixed = f"text{{font:{FONT_SIZE}px {FONT};white-space:pre}}.title{{font-size:14px;font-weight:600}}"
    return f"<style>{fixed}{light}@media (prefers-color-scheme:dark){{{dark}}}</style>"


def start(output: Output, width: float, height: float, styles: List[Tuple[str, str, str]], title: str) -> None:
    output.line(
        f'<svg xmlns="http://www.w3.org/2000/svg" width="{number(width)}" height="{number(height)}"'
        f' viewBox="0 0 {number(width)} {number(height)}" role="img">'
    )
    output.line(f"<title>{escape(title)}</title>")
    output.line(style_sheet(styles))
    output.line(f'<rect class="paper" width="{number(width)}" height="{number(height)}"/>')


def end(output: Output) -> None:
    output.line("</svg>")


def box(left: float, top: float, width: float, height: float, classes: str,
        title: Optional[str] = None) -> str:
    shape = f'<rect class="{classes}" x="{number(left)}" y="{number(top)}" width="{number(width)}" height="{number(height)}"'
    return f"{shape}/>" if title is None else f"{shape}><title>{escape(title)}</title></rect>"


def label(left: float, base: float, text: str, classes: str = "", anchor: str = "start",
          title: Optional[str] = None) -> str:
    named = f' class="{classes}"' if classes else ""
    placed = "" if anchor == "start" else f' text-anchor="{anchor}"'
    told = "" if title is None else f"<title>{escape(title)}</title>"
    return f'<text{named} x="{number(left)}" y="{number(base)}"{placed}>{escape(text)}{told}</text>'


def line(left: float, top: float, right: float, bottom: float, classes: str, title: Optional[str] = None) -> str:
    shape = (
        f'<line class="{classes}" x1="{number(left)}" y1="{number(top)}" x2="{number(right)}" y2="{number(bottom)}"'
    )
    return f"{shape}/>" if title is None else f"{shape}><title>{escape(title)}</title></line>"


def nice_interval(least: float) -> int:
    """The least of 1, 2, 5, 10, 20 .. that is not below this."""
    power = 1
    while True:
        for factor in (1, 2, 5):
            if factor * power >= least:
                return factor * power
        power *= 10


class Labels:
    """Rows for labels of one lane: a label goes to the first row in which it overlaps none. If there is no room for it, it is counted after the
    last label of the row that ends first."""

    GAP = 6

    def __init__(self, rows: int, limit: float = float("inf")) -> None:
        self.rows: List[List[Label]] = [[] for _ in range(rows)]
        self.limit = limit

    def add(self, left: float, text: str, classes: str = "") -> None:
        """A text that begins here, or as far to the left as it must to end before the limit."""
        left = min(left, self.limit - width_of(text + " +99"))
        for row in self.rows:
            if not row or left >= row[-1].end + self.GAP:
                row.append(Label(left, text, classes))
                return
        self.fold(text)

    def add_kept(self, left: float, text: str, classes: str = "") -> None:
        """A text that is always shown. If there is no room, the texts in its place are counted after it."""
        left = min(left, self.limit - width_of(text + " +99"))
        row = min(self.rows, key=lambda row: sum(left < it.end + self.GAP for it in row))
        kept = Label(left, text, classes)
        while row and left < row[-1].end + self.GAP:
            last = row.pop()
            kept.folded[:0] = [last.text, *last.folded]
        row.append(kept)

    def fold(self, text: str) -> None:
        """A text that isn't shown."""
        row = min((it for it in self.rows if it), key=lambda it: it[-1].end, default=None)
        if row is not None:
            row[-1].folded.append(text)

    def placed(self) -> List[Tuple[int, Label]]:
        """Each label, with the number of its row."""
        return [(at, it) for at, row in enumerate(self.rows) for it in row]


class Label:
    """A text at a place, and those that are folded into it."""

    def __init__(self, left: float, text: str, classes: str) -> None:
        self.left, self.text, self.classes = left, text, classes
        self.folded: List[str] = []

    @property
    def shown(self) -> str:
        return f"{self.text} +{len(self.folded):,}" if self.folded else self.text

    @property
    def end(self) -> float:
        return self.left + width_of(self.shown)

    def shape(self, base: float) -> str:
        if not self.folded:
            return label(self.left, base, self.text, self.classes)
        more = self.folded[:MOST_TOLD] + [".."] * (len(self.folded) > MOST_TOLD)
        return label(self.left, base, self.shown, self.classes, title="and " + "; ".join(more))
