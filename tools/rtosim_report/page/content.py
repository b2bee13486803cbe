"""What the page shows: the classes with their first rows whole, all points by class, the base run, the scripts.

Each text is kept once. Rows of one class and one handler whose numbers and steps rise by one are kept as one stretch."""
from __future__ import annotations

import hashlib
import re
from array import array
from typing import Any, Dict, List, Optional, Tuple

from .. import timeline
from ..classes import OutcomeClass
from ..colours import colours_of, has_light_text
from ..escaping import plain, shell_word
from ..job import Job
from ..lanes import Timeline
from ..output import Text
from ..reading import Run
from ..report import Head, Line
from ..show import Mark, Pair, all_pairs
from ..table import base_words, span, words_of
from .embedding import json_text

# A JSON object.
Json = Dict[str, Any]
# A run of more lines is too long for a page.
MOST_LINES = 20_000
LONGEST_SLUG = 60
# If a run is too long, this many lines before and after its injection are shown. The same goes for its first difference, its end, and the
# base run's end.
AROUND = 150


class Texts:
    """Each text once, by a number."""

    def __init__(self) -> None:
        self.numbers: Dict[str, int] = {}

    def number(self, text: str) -> int:
        return self.numbers.setdefault(text, len(self.numbers))


class Points:
    """All rows in order. A stretch has five numbers: its first row, the first step, the handler, the class, and how many rows it has."""

    def __init__(self) -> None:
        self.handlers, self.stretches = Texts(), array("q")
        self.several: List[List[Any]] = []
        self.missed: List[List[Any]] = []

    def add(self, head: Head, class_index: int) -> None:
        assert head.row is not None, "a row of a campaign has a number"
        if not head.is_reached:
            self.missed.append([head.row, head.point.text(), class_index])
            return
        if not head.point.is_single:
            self.several.append([head.row, head.point.text(), class_index])
        step, handler = head.point[0].step, self.handlers.number(head.point[0].handler)
        last = self.stretches[-5:]
        if last and [head.row, step, handler, class_index] == [last[0] + last[4], last[1] + last[4], *last[2:4]]:
            self.stretches[-1] += 1
        else:
            self.stretches.extend((head.row, step, handler, class_index, 1))


class Content:
    """Reads a job's report."""

    def __init__(self, job: Job) -> None:
        self.job = job
        self.texts, self.points = Texts(), Points()
        # The first row of each class as JSON; and the index of a class, by its identity.
        self.firsts: List[str] = []
        self.indices: Dict[int, int] = {}
        self.classes = job.classify(self.see)
        self.rows = job.total.rows
        name = job.given.application or job.given.report
        self.title = f"{plain(name)}: {self.rows:,} rows" if name and name != "-" else f"{self.rows:,} rows"

    def see(self, run: Run, found: OutcomeClass) -> None:
        """Takes a row and its class. The first row of a class is kept whole."""
        index = self.indices.setdefault(id(found), len(self.indices))
        if index == len(self.firsts):
            self.firsts.append(json_text(self.run_content(self.whole(run))))
        self.points.add(run.head, index)

    def whole(self, run: Run) -> Run:
        """The whole row. If only its head is there, the program is asked for the rest, if it can be."""
        is_head = not run.text and run.head.steps > 0
        return self.job.made.row(run.head.row) if is_head and self.job.made else run

    def run_content(self, run: Run) -> Json:
        content: Json = {"head": run.head.text(), "row": run.head.row}
        if self.job.has_heads_alone:
            return {**content, "tooLong": 0}
        pairs = all_pairs(run, self.job.base)
        if len(pairs) > MOST_LINES:
            shown, folds = excerpt(pairs)
            content.update(folds=folds, **self.pairs_content(shown, 0))
        else:
            content.update(self.pairs_content(pairs, self.shared(pairs)))
        lines = sum(it.row is not None for it in pairs)
        if lines > MOST_LINES:
            return {**content, "tooLong": lines}
        return {**content, "lanes": self.lanes_content(self.with_source(timeline.of_row(run, self.job.base, self.job.texts)))}

    def with_source(self, found: Timeline) -> Timeline:
        found.source_map = self.job.source_map
        return found

    def shared(self, pairs: List[Pair]) -> int:
        """How many lines the row has in common with the base run, from the beginning on. The page has these once."""
        base = self.job.base
        if base is None or len(base.lines) > MOST_LINES:
            return 0
        return next((at for at, it in enumerate(pairs) if it.mark is not Mark.SAME or at >= len(base.lines)), len(pairs))

    def pairs_content(self, pairs: List[Pair], shared: int) -> Json:
        """The marks, the row's lines after the shared ones, and the base run's lines that the row doesn't have."""
        others = [it.base for it in pairs if it.base is not None and it.mark in (Mark.NUMBERS, Mark.OTHER, Mark.ONLY_BASE)]
        lines = [it.row for it in pairs[shared:] if it.row is not None]
        return {"marks": "".join(it.mark.value for it in pairs), "shared": shared, "lines": self.lines_content(lines),
                "others": self.lines_content(others)}

    def lines_content(self, lines: List[Line]) -> List[int]:
        """Step, tick and text of each, one after the other."""
        return [it for step, tick, what in lines for it in (int(step), int(tick), self.texts.number(what.decode()))]

    def lanes_content(self, found: Timeline) -> Json:
        lanes = {it: at for at, it in enumerate(found.lanes)}
        text, clock = self.texts.number, found.clock
        return {
            "steps": found.steps, "names": [[it.name, it.kind.value] for it in found.lanes],
            "bars": [[lanes[it.lane], it.start, it.end, it.doing.name.lower(), it.call] for it in found.bars],
            "notes": [[lanes[it.lane], it.step, int(it.is_injected), text(found.told(it))] for it in found.notes],
            "windows": [[lanes[it.lane], it.start, it.end, it.kind.name.lower()] for it in found.windows],
            "endings": [[lanes[lane], at] for lane, at in found.endings], "injections": [[it.step, it.handler] for it in found.injections],
            "variables": [[name, [at for it in stretches for at in (it.start, it.end, it.value)]]
                          for name, stretches in found.variables.items()],
            "clock": [clock.start, clock.boundaries, clock.ticks],
            "ops": [[lanes[lane], [at for it in ops for at in (it.start, it.end, it.op)]] for lane, ops in found.ops.items()],
        }

    def base_content(self) -> Optional[Json]:
        base = self.job.base
        if base is None:
            return None
        content: Json = {"words": base_words(base), "lines": [], "head": base.head.text() if base.head else None}
        if len(base.lines) > MOST_LINES:
            return {**content, "tooLong": len(base.lines)}
        content["lines"] = self.lines_content(base.lines)
        if base.head is not None:
            content["lanes"] = self.lanes_content(self.with_source(timeline.of_base(base, self.job.texts)))
        return content

    def class_content(self, it: OutcomeClass, colour: str) -> Json:
        return {
            "index": self.indices[id(it)], "number": it.number, "name": it.name, "link": link_of(it.name), "words": words_of(it),
            "verdict": it.verdict.text, "fails": not it.verdict.passes, "isBase": it.is_base, "rows": it.rows,
            "missed": it.not_reached, "steps": span(it.fewest_steps, it.most_steps), "ticks": span(it.fewest_ticks, it.most_ticks),
            "handlers": list(it.handlers), "colour": colour, "isLight": has_light_text(colour),
        }

    def command_content(self) -> Json:
        """The parts of the command that shows a row."""
        given = self.job.given
        if given.application is not None:
            return {"run": f"rtosim run {shell_word(given.application)}", "takesPoints": given.takes_points}
        if given.report is None or given.report == "-":
            return {}
        return {"show": shell_word(given.report), "base": f" --base {shell_word(given.base)}" if given.base else ""}

    def scripts_content(self) -> List[List[Any]]:
        texts = self.job.texts
        if texts is None:
            return []
        scripts = [*texts.tasks.values(), *texts.handlers.values()]
        return [[it.name, it.name in texts.tasks, [op.text for op in it.ops]] for it in scripts]

    def source_content(self) -> Optional[Json]:
        """The file that was translated, and the lines of C of each op, by task and handler."""
        found = self.job.source_map
        if found is None:
            return None
        return {"main": found.main, "lines": {name: list(map(found.column, ops)) for name, ops in found.owners()}}

    def write(self, output: Text) -> None:
        """Writes the object, a line for each key. The texts are last, since only then all of them are known."""
        colours = colours_of(self.classes)
        points = self.points
        parts = {
            "title": self.title, "rows": self.rows, "command": self.command_content(), "scripts": self.scripts_content(),
            "source": self.source_content(),
            "base": self.base_content(), "classes": [self.class_content(it, colours[it.number]) for it in self.classes],
            "handlers": list(points.handlers.numbers), "points": list(points.stretches), "several": points.several,
            "missed": points.missed,
        }
        output.line("{")
        for key, value in parts.items():
            output.line(f'"{key}":{json_text(value)},')
        output.line(f'"texts":{json_text(list(self.texts.numbers))}')
        output.line("}")

    def write_firsts(self, output: Text) -> None:
        """Writes the first row of each class as an element of its own. A browser parses it only when it is looked at."""
        for index, it in enumerate(self.firsts):
            output.line(f'<script type="application/json" id="first-{index}">{it}</script>')


def excerpt(pairs: List[Pair]) -> Tuple[List[Pair], List[List[int]]]:
    """The pairs around the injection, the first difference and both ends. Each fold is the number of the shown pairs before it, and how many
    pairs it leaves out."""
    marked = [at for at, it in enumerate(pairs) if it.mark is not Mark.SAME]
    differing = [at for at in marked if pairs[at].mark is not Mark.OWN]
    ends = [at for at, it in enumerate(pairs) if it.row is not None][-1:]
    shown: List[Pair] = []
    folds: List[List[int]] = []
    last = -1
    for at, it in enumerate(pairs):
        if any(abs(at - there) <= AROUND for there in (*marked[:1], *differing[:1], *ends, len(pairs) - 1)):
            if at > last + 1:
                folds.append([len(shown), at - last - 1])
            shown.append(it)
            last = at
    return shown, folds


def link_of(name: str) -> str:
    """The fragment of a link to the class of this name."""
    slug = re.sub(r"[^A-Za-z0-9]+", "-", name).strip("-").lower()[:LONGEST_SLUG]
    return f"{slug}-{hashlib.blake2b(name.encode(), digest_size=4).hexdigest()}"
