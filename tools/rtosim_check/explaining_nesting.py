"""Why the program refuses the nesting of blocks: loops and ifs that don't open and close as they must. A handler has ifs alone."""
from __future__ import annotations

from typing import List, Optional, Tuple

from .context import Context
from .formats import DEEPEST, DEEPEST_LOOP, words_of
from .nodes import Array, Text
from .problem import Explanation, joined, told

OPENING = ("repeat", "if")
CLOSED = {"task": "each end closes the last repeat or if that is open", "handler": "each end closes the last if that is open"}
DEEP = {"task": f"loops and ifs together nest at most {DEEPEST} deep", "handler": f"ifs nest at most {DEEPEST} deep"}
NEEDS_AN_END = {"task": "each repeat and each if needs an end", "handler": "each if needs an end"}
PARTED = "an else belongs to the innermost open block, which must be an if without another else"
LEFT = "break leaves the innermost repeat that is open"


class Block:
    """A block that is open: its op's index and word, and the index of its else."""

    def __init__(self, at: int, word: str) -> None:
        self.at, self.word = at, word
        self.parted_at: Optional[int] = None


def bad_nesting(context: Context) -> Optional[Explanation]:
    array = context.nodes[3] if len(context.nodes) > 3 else None
    if not isinstance(array, Array) or context.place.at is None:
        return None
    opened = open_blocks(array.items[: context.place.at])
    if context.node is None:
        return unclosed(context, array, opened)
    problem, rule = problem_of(first_word(context.node), opened, context.place.section)
    return (context.node.span, told(context, problem), rule) if problem else None


def first_word(node: Text) -> str:
    words = words_of(node.value) if isinstance(node, Text) else []
    return words[0][0] if words else ""


def open_blocks(items: List[Text]) -> List[Block]:
    """The blocks that are still open after these ops."""
    opened = []
    for at, word in enumerate(map(first_word, items)):
        if word in OPENING:
            opened.append(Block(at, word))
        elif word == "else" and opened:
            opened[-1].parted_at = at
        elif word == "end" and opened:
            opened.pop()
    return opened


def problem_of(word: str, opened: List[Block], section: str) -> Tuple[Optional[str], Optional[str]]:
    """What is wrong with an op of this word inside the open blocks, and the rule; both None if nothing is."""
    loops = [it.at for it in opened if it.word == "repeat"]
    if word == "repeat" and len(loops) == DEEPEST_LOOP:
        return f"loops are nested five deep: those at {joined(loops)} are open", f"loops nest at most {DEEPEST_LOOP} deep"
    if word in OPENING and len(opened) == DEEPEST:
        problem = f"blocks are nested nine deep: those at {joined([it.at for it in opened])} are open"
        return problem, DEEP[section]
    if word == "end" and not opened:
        return "nothing is open here for this end to close", CLOSED[section]
    if word == "break" and not loops:
        return "no loop is open here for this break to leave", LEFT
    return problem_of_else(opened) if word == "else" else (None, None)


def problem_of_else(opened: List[Block]) -> Tuple[Optional[str], Optional[str]]:
    if not opened:
        return "no if is open here for this else to belong to", PARTED
    last = opened[-1]
    if last.word != "if":
        return f"the innermost open block is the loop at {last.at}, and a loop has no else", PARTED
    if last.parted_at is not None:
        return f"the if at {last.at} already has an else, at {last.parted_at}", PARTED
    return None, None


def unclosed(context: Context, array: Array, opened: List[Block]) -> Optional[Explanation]:
    if not opened:
        return None
    last = opened[-1]
    node = array.items[last.at]
    others = f" ({len(opened)} blocks are open)" if len(opened) > 1 else ""
    what = "loop" if last.word == "repeat" else "if"
    section, key = context.place.section, context.place.key
    start = f'{context.entry.label}, {key} {last.at}, "{node.value}": this {what} is not closed'
    return node.span, f'{start}; did you forget an "end" at the end of the {key}{others}?', NEEDS_AN_END[section]
