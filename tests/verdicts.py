"""What rt said of the functions of a check: which are proved, which are refused, and by what."""
import re

from edits import Function, functions_in

SAID = re.compile(r"^(?:so far: )?fn (\S+): (.*)")
ERROR = re.compile(r"^(?:\./)?proofs/(\S+)/\w+\.antt:\d+:\d+: error: (.*)")
UNKNOWN = re.compile(r"error: `\w+` has no function `([^`]+)`")
OPEN_GOALS = re.compile(r"`search` did not prove (.*)")
# Of a function that has an answer which doesn't show its goal rt names the other open goals only so, by where they are in the code.
OPEN_GOAL_AT = re.compile(r"^note: (src/\S+\.rt):(\d+):\d+: it is not proved that .*?\(`([^`]*)`\)")
NAME = re.compile(r"`([^`]*)`")
# Goals of safety, which say nothing of a result: what a callee requires, that a number fits, an index is within its bounds, a divisor isn't 0,
# and that a loop ends.
SAFETY = re.compile(r"overflow_|(?:slice_|offset_)?bounds-|nonzero_|.*-requires(?:-|$)|.*-smaller(?:-|$)")
# What rt says where a proof names what the body doesn't have, or lacks what the body has; and of what cites an answer that is refused.
STALE = re.compile(r"has no (?:field )?`|is not in scope|write the cases?\b|was not admitted|w(?:as|ere) not checked")


class Verdicts:
    """What rt said of a check of files with these texts, which is heard line by line."""

    def __init__(self, texts: dict[str, str] | None = None):
        self.functions = {path: functions_in(path, text) for path, text in (texts or {}).items()}
        self.proved, self.refused, self.unjudged, self.unknown = set(), {}, set(), set()
        self.lines, self.messages, self.has_verdict = [], [], False

    def hear(self, line):
        self.lines.append(line)
        self.has_verdict = self.has_verdict or line.startswith(("logic=", "only="))
        if judged := SAID.match(line):
            self.put(judged[1], judged[2])
        if named := UNKNOWN.search(line):
            self.unknown.add(named[1])
        if line.startswith(" ") and self.messages:
            self.messages[-1] += " " + line.strip()
        else:
            self.messages.append(line)

    def put(self, path, said):
        """Keeps what rt says of a function: `proved`, `proved, may wait`, `no proof: it calls ..`, or any other."""
        if re.match(r"proved\b", said):
            self.proved.add(path)
        elif " it calls " in said:
            self.unjudged.add(path)
        else:
            self.refused[path] = said

    def said_of(self, functions):
        """What rt says of those of these functions that it refuses, and of their closures; of all that it refuses, where these are none."""
        return [said for path, said in self.refused.items() if not functions or is_in_one(functions, path)]

    def errors_of(self, functions):
        """The errors in the proofs of these functions, and of their closures; all in proofs, where these are none."""
        found = [it for it in map(ERROR.match, self.messages) if it]
        return [it[2] for it in found if not functions or is_in_one(functions, it[1].replace("/", "::"))]

    def functions_at(self, path: str, line: int) -> set[Function]:
        """The functions of a file that have this line."""
        return {it for it, (first, last) in self.functions.get(path, {}).items() if first < line <= last + 1}

    def open_in(self, functions: set[Function]) -> list[str]:
        """The open goals that rt has named by where they are in these functions; all, where these are none."""
        found = [it for it in map(OPEN_GOAL_AT.match, self.messages) if it]
        return [it[3] for it in found if not functions or self.functions_at(it[1], int(it[2])) & functions]

    def goals(self, functions):
        """The goals that refuse these functions: those that are open, and those whose answers don't show them."""
        lists = [it[1] for it in map(OPEN_GOALS.search, self.said_of(functions)) if it]
        are_open = [name for it in lists for name in NAME.findall(it)] + self.open_in(functions)
        errors = [NAME.match(it) for it in self.errors_of(functions) if not STALE.search(it)]
        return [*dict.fromkeys(are_open + [it[1] if it else "?" for it in errors])]

    def why_unjudged(self, functions):
        """Of functions that are refused, but by no goal: the first thing that rt says of why."""
        return [*self.errors_of(functions), *self.said_of(functions)][0]


def is_one(functions, paths):
    """Whether one of these functions is one of those that rt calls by these paths."""
    return any(function.is_called(path) for function in functions for path in paths)


def is_in_one(functions: set[Function], path: str) -> bool:
    """Whether what rt calls by this path is one of these functions, or a closure in one."""
    return any(function.is_called(path) or function.has_closure(path) for function in functions)


def first_of(goals: list[str]) -> str:
    """The goal to name of those that refuse a function: the first that is of its result, where there is one."""
    return next((it for it in goals if not SAFETY.match(it)), goals[0])
