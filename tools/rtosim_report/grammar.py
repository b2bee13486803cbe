"""The lines of a report, as docs/FORMATS.md has them.

The words of ops are not listed here: an op of a later version reads like the others."""
from __future__ import annotations

import re

NUMBER = rb"(?:0|[1-9][0-9]{0,9})"
# Elapsed ticks, which are up to 281474976710656.
TICKS = rb"(?:0|[1-9][0-9]{0,14})"
NAME = rb"[A-Za-z][A-Za-z0-9_]{0,15}"
WORD = rb"[a-z][a-z_]{0,23}"
ANSWER = rb"(?:none|" + NUMBER + rb")"
VERDICT = (
    rb"pass|ticks|steps|stuck|check " + NAME + rb" " + NUMBER + rb"|misuse " + NAME + rb" " + NUMBER + rb" " + NUMBER
)
END_OF_HEAD = rb"(" + VERDICT + rb") in (" + NUMBER + rb") steps, (" + TICKS + rb") ticks"

BASE_HEAD = re.compile(rb"base: " + END_OF_HEAD)
# A row's head without its first word: its number, its first injection, up to two more, and the end of the head.
INJECTION = NUMBER + rb" " + NAME
ROW_HEAD = re.compile(
    rb"(" + NUMBER + rb") at (" + NUMBER + rb") (" + NAME + rb")((?: " + INJECTION + rb"){0,2}): ([^\n]*)(?:\n|\Z)"
)
END_OF_ROW_HEAD = re.compile(rb"(not reached, )?" + END_OF_HEAD)
VERDICT_KINDS = ("pass", "check", "misuse", "ticks", "steps", "stuck")
TOTAL = re.compile(
    rb"total (" + NUMBER + rb"): "
    + b", ".join(kind.encode() + rb" (" + NUMBER + rb")" for kind in VERDICT_KINDS)
    + rb", not reached (" + NUMBER + rb")"
)

# What an event line says after its step and its tick.
WHAT = (
    rb"(?:call|isr) " + NAME + rb" " + NUMBER + rb" " + WORD + rb" = " + ANSWER
    + rb"|run (?:-|" + NAME + rb")|mark " + NAME + rb" " + NUMBER
)
EVENT_LINES = re.compile(rb"^(" + NUMBER + rb") (" + NUMBER + rb") (" + WHAT + rb")\n", re.MULTILINE)
EVENT_LINE = re.compile(rb"(" + NUMBER + rb") (" + NUMBER + rb") (" + WHAT + rb")")

# In words, for people who must mend a text.
AN_EVENT = "`S T call TASK I WORD = A`, `S T isr HANDLER I WORD = A`, `S T mark NAME N` or `S T run TASK`"
A_FIRST_LINE = "`base: VERDICT in N steps, E ticks`, `row 0 at STEP HANDLER: ..` or `total 0: ..`"
A_TOTAL = "`total P: pass A, check B, misuse C, ticks D, steps F, stuck G, not reached H`"


def a_row(number: int) -> str:
    return f"`row {number} at STEP HANDLER: VERDICT in N steps, E ticks`"
