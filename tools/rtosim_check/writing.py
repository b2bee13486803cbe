"""What is found, as text for people, as JSON, and as annotations of GitHub's runners."""
from __future__ import annotations

import json
import re
import textwrap
from typing import Dict, Optional, Union

from rtosim_report.escaping import plain
from rtosim_report.faults import counted
from rtosim_report.output import Text as Output

from .findings import Checked, FAULT, Finding, WARNING
from .lines import WIDTH

BOLD, RED, YELLOW, DIM, RESET = "\x1b[1m", "\x1b[31m", "\x1b[33m", "\x1b[2m", "\x1b[0m"


class Text:
    """Texts for people: the place, the message, the line with a caret, the rule, and what the program says."""

    def __init__(self, has_colours: bool) -> None:
        self.has_colours = has_colours
        self.files = self.faults = self.warnings = 0

    def colour(self, text: str, *colours: str) -> str:
        return "".join(colours) + text + RESET if self.has_colours else text

    def write(self, output: Output, checked: Checked) -> None:
        self.files += 1
        self.faults += checked.count(FAULT)
        self.warnings += checked.count(WARNING)
        for finding in checked.findings:
            self.write_finding(output, checked, finding)

    def write_finding(self, output: Output, checked: Checked, finding: Finding) -> None:
        place = checked.place(finding)
        where = plain(checked.name) + (f":{place[0]}:{place[1]}" if place else "")
        colour = RED if finding.severity == FAULT else YELLOW
        severity = self.colour("warning: ", colour) if finding.severity == WARNING else ""
        output.line(f"{self.colour(where + ':', BOLD)} {severity}{self.colour(message_of(finding), BOLD)}")
        margin = ""
        if place and checked.lines and checked.lines.text and finding.span:
            number, line, carets = checked.lines.excerpt(*finding.span)
            margin = " " * max(4, len(str(number)))
            output.line(f"{number:>4} | {line}")
            output.line(f"{margin} | {self.colour(carets, colour)}")
        margin = (margin or "    ") + "   "
        for line in textwrap.wrap(plain(finding.rule or ""), WIDTH):
            output.line(margin + line)
        if finding.program:
            output.line(margin + self.colour(plain(finding.program), DIM))

    def end(self, output: Output) -> None:
        counts = (counted(self.files, "file"), counted(self.faults, "fault"), counted(self.warnings, "warning"))
        output.line("{}: {}, {}".format(*(re.sub("^0 ", "no ", it) for it in counts)))


def message_of(finding: Finding) -> str:
    """The message, fit for a terminal; a tab is spelled as people know it."""
    return plain(finding.message.replace("\t", "\\t").replace("\n", "\\n"))


class Json:
    """An object a file, a line each."""

    def __init__(self, _: bool) -> None:
        pass

    def write(self, output: Output, checked: Checked) -> None:
        findings = [self.object_of(checked, it) for it in checked.findings]
        output.line(json.dumps({"file": checked.name, "checked": checked.could_be_checked, "findings": findings}))

    def object_of(self, checked: Checked, finding: Finding) -> Dict[str, Optional[Union[int, str]]]:
        line, column, end_line, end_column = checked.place(finding) or (None,) * 4
        return {
            "severity": finding.severity, "kind": finding.kind, "line": line, "column": column, "end_line": end_line,
            "end_column": end_column, "message": finding.message, "rule": finding.rule, "program": finding.program,
        }

    def end(self, output: Output) -> None:
        pass


class GitHub:
    """Annotations, a line each."""

    def __init__(self, _: bool) -> None:
        pass

    def write(self, output: Output, checked: Checked) -> None:
        for finding in checked.findings:
            place = checked.place(finding)
            properties = [f"file={property_of(checked.name)}"]
            if place:
                names = ("line", "col", "endLine", "endColumn") if place[0] == place[2] else ("line", "col")
                properties += [f"{name}={number}" for name, number in zip(names, place)]
            properties.append(f"title={property_of(finding.kind)}")
            more = [it for it in (finding.rule, finding.program) if it]
            output.line(f"::{finding.severity} {','.join(properties)}::{data_of(chr(10).join([message_of(finding), *more]))}")

    def end(self, output: Output) -> None:
        pass


def data_of(text: str) -> str:
    """A text as the data of a command: no line of it ends the command."""
    return plain(text.replace("%", "%25").replace("\r", "%0D").replace("\n", "%0A"))


def property_of(text: str) -> str:
    return data_of(text).replace(":", "%3A").replace(",", "%2C")


FORMATS = {"text": Text, "json": Json, "github": GitHub}
