"""Edits of a crate's code, in the form that rt reads from must-fail/: a line 'file: PATH', and then pairs of lines
'old: TEXT' and 'new: TEXT', each TEXT one line, which is found once in what the pairs before it made of that file."""
import glob
import os
import re
import shutil
from dataclasses import dataclass

FUNCTION = re.compile(r"^( *)(?:pub(?:\([^)]*\))? )?(?:const )?(?:unsafe )?(?:extern \S+ )?fn (\w+)")
# An impl's head: its parameters, the trait if it is of one, and the type.
IMPL = re.compile(r"^(?:unsafe )?impl\b(<(?:->|[^<>]|<[^<>]*>)*>)? (?:(.+?) for )?(.+?)(?: where\b.*)?(?: \{\}?)?$")
# A type that is given others, as in `NotifyAction<u32>`: rt calls its own functions by `NotifyAction+u32`.
OF_TYPES = re.compile(r"^(\w+)<([\w, ]+)>$")
PARAMETER = re.compile(r"[<,] ?(?:const )?(\w+)")
PART_OF_A_TYPE = re.compile(r"'\w+|\w+(?!\w|::)|[&\[\](),;]")
TRAIT = re.compile(r"^(?:pub(?:\([^)]*\))? )?trait (\w+)")
CALL = re.compile(r"\b(\w+)(?:::<[^()]*>)?\(")


class BadEdit(Exception):
    """An edit that can't be read or applied, and why."""


@dataclass(frozen=True)
class Function:
    """A function of a crate: the file that it is in, the type or module that it belongs to, and its name."""

    path: str
    owner: str
    name: str

    def is_called(self, said):
        """Whether this is the function that rt calls by this path."""
        parts = said.split("::")
        return parts[-1] == self.name and (len(parts) < 2 or parts[-2] == self.owner)

    def has_closure(self, said: str) -> bool:
        """Whether rt calls a closure of this function by this path: those of a module's functions are in its part `fn`."""
        module, _, inside = said.partition("::fn::")
        parts = inside.split("::")
        if parts[:2] == [self.owner, self.name]:
            return len(parts) > 2
        return len(parts) > 1 and parts[0] == self.name and module.split("::")[-1] == self.owner

    def path_for_rt(self):
        return f"{self.owner}::{self.name}"


@dataclass(frozen=True)
class Edit:
    """What an edit changes: pairs of texts, each with the file's path below the crate's folder."""

    crate: str
    name: str
    pairs: tuple

    def applied(self, texts):
        """The texts of its files that the edit makes of those in texts, by their paths."""
        made = {}
        for path, old, new in self.pairs:
            text = made.get(path, texts.get(path))
            if text is None:
                raise BadEdit(f"there is no file {path}")
            if text.count(old) != 1:
                raise BadEdit(f"an 'old:' text stands in {path} {text.count(old)} times, and not once: {old.strip()}")
            made[path] = text.replace(old, new)
        return made

    def places(self, texts):
        """For each pair the functions that it changes."""
        found, made = [], dict(texts)
        for path, old, new in self.pairs:
            line = made[path][: made[path].index(old)].count("\n")
            found.append({it for it, (first, last) in functions_in(path, made[path]).items() if first <= line <= last})
            made[path] = made[path].replace(old, new)
        return found

    def functions(self, texts):
        """The functions that it changes."""
        return set().union(*self.places(texts))

    def copied(self, texts):
        """The function that it changes, where it changes nothing else, and a copy of it can be beside it: it is no trait's."""
        places = self.places(texts)
        function = next(iter(places[0]), None)
        if any(it != {function} for it in places) or is_of_a_trait(function, texts[function.path]):
            return None
        return function


def read_edit(crate, file):
    """The edit of a file."""
    path, old, pairs = "", None, []
    with open(file, encoding="utf-8") as it:
        lines = it.read().split("\n")
    for line in lines:
        if line.startswith("file: "):
            path = line[len("file: ") :].strip()
        elif line.startswith("old: "):
            old = line[len("old: ") :]
        elif line.startswith("new:"):
            if not path.startswith("src/") or not old:
                raise BadEdit("a 'new:' line has no 'old:' line, or no file below src/, before it")
            pairs.append((path, old, re.sub(r"\A ", "", line[len("new:") :])))
            old = None
        elif path and line.strip():
            raise BadEdit(f"a text has one line, and this is one more: {line.strip()}")
    if not pairs or old is not None:
        raise BadEdit("it has no pair of an 'old:' and a 'new:' line, or half of one")
    return Edit(crate, os.path.basename(file)[: -len(".edit")], tuple(pairs))


def owner_of(line):
    """The word by which rt calls the owner of the functions below this line, if they have one: the type, or the type and its trait."""
    if found := IMPL.match(line):
        parameters = PARAMETER.findall(found[1] or "")
        if not found[2] and (of := OF_TYPES.match(found[3])):
            return "+".join([of[1], *(it for it in re.findall(r"\w+", of[2]) if it not in parameters)])
        return spelled(found[3], parameters) + spelled(found[2] or "", parameters)
    found = TRAIT.match(line)
    return found[1] if found else None


def spelled(text: str, parameters: list[str]) -> str:
    """A type as one word, as rt has it in a path: `RefSliceU8` of `&[u8]`, without lifetimes and the impl's own parameters."""
    parts, words = PART_OF_A_TYPE.findall(text), []
    for at, part in enumerate(parts):
        if part == "[":
            words.append("Array" if ";" in inside(parts[at:]) else "Slice")
        elif part == "(":
            words.append(f"Tuple{inside(parts[at:]).count(',') + 1}")
        elif part == "&":
            words.append("Ref")
        elif part[0].isalnum() and part not in parameters:
            words.append(part[0].upper() + part[1:])
    return "".join(words)


def inside(parts: list[str]) -> list[str]:
    """Of the parts of a type that begin with a bracket those directly in it, not in one within."""
    depth, found = 0, []
    for part in parts:
        depth += (part in "[(") - (part in "])")
        if not depth:
            break
        if depth == 1:
            found.append(part)
    return found


def functions_in(path, text):
    """The functions of a file, each with the numbers of its first and its last line; of a trait only those that have a body."""
    lines, found = text.split("\n"), {}
    module = os.path.basename(path)[: -len(".rt")]
    owner, is_in_a_trait = module, False
    for at, line in enumerate(lines):
        if named := owner_of(line):
            owner, is_in_a_trait = named, bool(TRAIT.match(line))
        elif line == "}":
            owner, is_in_a_trait = module, False
        if head := FUNCTION.match(line):
            ends = (f"{head[1]}}}", f"{head[1]}{{}}")
            last = next((it for it in range(at, len(lines)) if lines[it] in ends or lines[it].endswith(";")
                         and (it == at or is_in_a_trait)), len(lines) - 1)
            if not (is_in_a_trait and lines[last].endswith(";")):
                found[Function(path, owner if head[1] else module, head[2])] = at, last
    return found


def is_of_a_trait(function, text):
    """Whether the function is in a trait, or in an implementation of one."""
    lines = text.split("\n")
    first, _ = functions_in(function.path, text)[function]
    if not lines[first].startswith(" "):
        return False
    head = next(it for it in reversed(lines[:first]) if IMPL.match(it) or TRAIT.match(it))
    return bool(TRAIT.match(head) or IMPL.match(head)[2])


def text_of(function, text):
    """The lines of a function, with the attributes and comments above it."""
    lines = text.split("\n")
    first, last = functions_in(function.path, text)[function]
    while first > 0 and re.match(r"\s*(?:#\[|//)", lines[first - 1]):
        first -= 1
    return lines[first : last + 1]


def with_beside(text, function, wrong, name):
    """The text of a file with one more function, of this name, behind the function: as it is in the wrong text."""
    copy = [re.sub(rf"\bfn {function.name}\b", f"fn {name}", it, count=1) if FUNCTION.match(it) else it for it in text_of(function, wrong)]
    lines = text.split("\n")
    _, last = functions_in(function.path, text)[function]
    return "\n".join([*lines[: last + 1], "", *copy, *lines[last + 1 :]])


def copy_proofs(folder, crate, function, name):
    """Copies what is written of the function's proof, and of those of its closures, for that of this name, and returns the folders that
    it makes."""
    made = []
    for at, folders, _ in os.walk(f"{folder}/proofs"):
        # (the closures of a module's functions are in its part `fn`)
        of = at[: -len("/fn")] if at.endswith("/fn") else at
        owner = os.path.basename(of) if of != f"{folder}/proofs" else "lib"
        if function.name not in folders or owner != function.owner:
            continue
        above = os.path.relpath(at, folder).replace(os.sep, ".")
        to = f"{at}/{name}"
        shutil.copytree(f"{at}/{function.name}", to)
        made.append(to)
        for file in glob.glob(f"{to}/**/*.antt", recursive=True):
            with open(file, encoding="utf-8") as it:
                text = re.sub(rf"(\bRattle\.{crate}\.{re.escape(above)}\.){function.name}(?=[.\s])", rf"\g<1>{name}", it.read())
            with open(file, "w", encoding="utf-8") as it:
                it.write(text)
        folders.remove(function.name)
    return made


def sources(folder):
    """The texts of a crate's code, by their paths below its folder."""
    found = {}
    for at, _, names in os.walk(f"{folder}/src"):
        for name in sorted(names):
            if name.endswith(".rt"):
                with open(f"{at}/{name}", encoding="utf-8") as file:
                    found[os.path.relpath(f"{at}/{name}", folder)] = file.read()
    return found


def reach(texts):
    """For each function of a crate all that it may call, and what these may, by the names that are called."""
    calls, named = {}, {}
    for path, text in texts.items():
        lines = text.split("\n")
        for function, (first, last) in functions_in(path, text).items():
            calls[function] = set(CALL.findall("\n".join(lines[first + 1 : last + 1])))
            named.setdefault(function.name, []).append(function)
    reached = {}
    for function in calls:
        found, left = set(), [function]
        while left:
            for it in (to for name in calls[left.pop()] for to in named.get(name, ())):
                if it not in found:
                    found.add(it)
                    left.append(it)
        reached[function] = found
    return reached
