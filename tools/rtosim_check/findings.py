"""What the check finds in a file: faults and warnings, and the whole of a file."""
from __future__ import annotations

from typing import List, Optional, Tuple

from .lines import Lines
from .nodes import Span

FAULT, WARNING = "error", "warning"


class Finding:
    """A fault or a warning: its kind, its span in the text or None, what it says in a line, and the rule in a sentence."""

    def __init__(self, severity: str, kind: str, span: Optional[Span], message: str, rule: Optional[str] = None,
                 program: Optional[str] = None) -> None:
        self.severity, self.kind, self.span, self.message = severity, kind, span, message
        self.rule, self.program = rule, program


class Checked:
    """A file that was checked: its name, its lines (None if it has no text), what was found, and the status."""

    def __init__(self, name: str, lines: Optional[Lines] = None) -> None:
        self.name, self.lines = name, lines
        self.findings: List[Finding] = []
        self.could_be_checked = True

    def add(self, finding: Finding) -> None:
        self.findings.append(finding)

    def count(self, severity: str) -> int:
        return sum(it.severity == severity for it in self.findings)

    def place(self, finding: Finding) -> Optional[Tuple[int, int, int, int]]:
        """The line and column of a finding, and those of its end."""
        if self.lines is None or finding.span is None:
            return None
        start, end = finding.span
        (line, column), (end_line, end_column) = self.lines.place(start), self.lines.place(max(end, start))
        return line, column, end_line, end_column
