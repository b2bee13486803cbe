"""Words that are near to one that isn't known."""
from __future__ import annotations

from typing import Any, Dict, List, Optional


def did_you_mean(text: Optional[str]) -> str:
    """The end of a message: what was meant, if something was."""
    return f"; did you mean {text}?" if text else ""


def quoted(text: Optional[str]) -> Optional[str]:
    return f'"{text}"' if text else None


def near(word: str, candidates: Any, meant: Optional[Dict[str, str]] = None) -> Optional[str]:
    """What was meant by the word, or None: another case, another name for it, few letters that differ, or a beginning."""
    lower = word.lower()
    for it in candidates:
        if it.lower() == lower:
            return it
    if meant and meant.get(lower) in candidates:
        return meant[lower]
    best = min(candidates, key=lambda it: distance(lower, it.lower()), default=None)
    if best is not None and distance(lower, best.lower()) <= allowed(word, best):
        return best
    longer = [it for it in candidates if len(word) >= 3 and it.lower().startswith(lower)]
    return longer[0] if len(longer) == 1 else None


def allowed(word: str, other: str) -> int:
    """How many letters may differ: of short words one, and none of words of one letter."""
    length = max(len(word), len(other))
    return 0 if min(len(word), len(other)) < 2 else 1 if length < 6 else 2 if length < 10 else 3


def distance(word: str, other: str) -> int:
    """How many letters must be put in, left out, replaced, or exchanged with the next one."""
    older, old = [], list(range(len(other) + 1))
    for at in range(1, len(word) + 1):
        older, old = old, next_row(word[:at], other, old, older)
    return old[-1]


def next_row(word: str, other: str, old: List[int], older: List[int]) -> List[int]:
    """The distances of the word to each beginning of the other, from those of the word without its last letters."""
    row = [len(word)]
    for there in range(1, len(other) + 1):
        is_other = word[-1] != other[there - 1]
        cost = min(old[there] + 1, row[there - 1] + 1, old[there - 1] + is_other)
        if is_other and word[-2:] == other[there - 2 : there][::-1] and there > 1 and len(word) > 1:
            cost = min(cost, older[there - 2] + 1)
        row.append(cost)
    return row
