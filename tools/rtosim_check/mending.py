"""Further faults of a file that is refused: each fault is mended in a copy of the document, and the program is asked again.

The copy is never shown. What follows from an earlier fault isn't reported: a name that is lost with the entry that has it, or blocks of a
script in which an op is none."""
from __future__ import annotations

import json
from typing import Any, Dict, List, Optional, Set, Tuple

from .formats import DAEMON, Key, MEANT_OPS, OBJECTS, OPS, SECTIONS, TICK, op_of
from .left_out import NOT_SIMULATED_OPS, not_simulated, why_needless
from .nearness import near
from .nodes import Array, Moment, Table
from .verdict import Place, Verdict

# What takes the place of an op of no block, and of one that opens, parts or closes a block.
HARMLESS = {"task": "work 1", "handler": "mark 0"}
OF_BLOCKS = {"repeat": "repeat 1", "if": "if none", "else": "else", "end": "end", "break": "break"}
KEY_OF_OPS = {"task": "script", "handler": "ops"}
# Greatest numbers that leave the most room for what else is in the file.
ROOMY = ("max",)


class CannotMend(Exception):
    """Nothing that the program takes can be put there."""


class Mending:
    """The copy of a document, and what was lost by the faults that were mended."""

    def __init__(self, root: Table) -> None:
        self.document: Dict[str, Any] = plain(root)
        # Sections that the file has, which may be lost with a fault.
        self.sections = {key for key, member in root.members.items() if not (isinstance(member.value, Array) and not member.value.items)}
        # Kinds whose names may be lost; scripts whose blocks aren't known, each as a section and an index.
        self.lost: Set[str] = set()
        self.broken: Set[Tuple[str, Optional[int]]] = set()
        self.names = 0

    def text(self) -> str:
        """The copy as a text."""
        return "".join(f"{toml_of(key)} = {toml_of(value)}\n" for key, value in self.document.items())

    def follows(self, verdict: Verdict, place: Place) -> bool:
        """Whether a fault follows from one that was mended before."""
        if verdict.kind == "UnknownName":
            return bool(self.lost.intersection(self.kinds_at(place)))
        if verdict.kind == "NoDaemon":
            return DAEMON in self.lost
        if verdict.kind == "Missing" and place.index is None and place.key is None:
            return place.section in self.sections
        return verdict.kind in ("BadNesting", "TooMany") and (place.section, place.index) in self.broken

    def mend(self, verdict: Verdict, place: Place) -> None:
        """Puts what the program takes in the place of the fault."""
        try:
            MENDERS[verdict.kind](self, place)
        except (KeyError, IndexError, TypeError, AttributeError, StopIteration):
            raise CannotMend() from None

    # -- parts

    def entry(self, place: Place) -> Dict[str, Any]:
        found = self.document[place.section]
        return found if place.index is None else found[place.index]

    def ops(self, place: Place) -> List[str]:
        return self.entry(place)[KEY_OF_OPS[place.section]]

    def fresh_name(self) -> str:
        """A name that nothing has."""
        taken = {it.get("name") for section in SECTIONS for it in self.entries(section)}
        while True:
            self.names += 1
            if f"mended_{self.names}" not in taken:
                return f"mended_{self.names}"

    def entries(self, section: str) -> List[Dict[str, Any]]:
        found = self.document.get(section)
        return [it for it in (found if isinstance(found, list) else [found]) if isinstance(it, dict)]

    def handler(self) -> str:
        """The name of a handler."""
        return next(it["name"] for it in self.entries("handler") if isinstance(it.get("name"), str))

    def source(self) -> str:
        """A name that a point may have: of a handler, or else the tick."""
        names = [it["name"] for it in self.entries("handler") if isinstance(it.get("name"), str)]
        return names[0] if names else TICK

    def kinds_at(self, place: Place) -> Tuple[str, ...]:
        """The kinds of which the name at a place must be."""
        if place.section not in OPS:
            return ("handler",)
        words, op = op_of(place.section, self.ops(place)[place.at])
        found = op.name_at(words[1:]) if op else None
        return found[1] if found else ()

    def value_of(self, section: str, key: Key) -> Any:
        """A value that the key may have."""
        if key.kind == "an integer":
            return key.most if key.name in ROOMY else key.least
        if key.kind == "a name":
            return self.fresh_name()
        return {"an array of texts": [], "a boolean": False}[key.kind] if key.kind != "a handler's name" else self.handler()

    def entry_of(self, section: str) -> Dict[str, Any]:
        return {it.name: self.value_of(section, it) for it in SECTIONS[section].keys.values() if it.needed}

    # -- what takes the place of a fault, by its kind

    def missing(self, place: Place) -> None:
        if place.key is None:
            self.document[place.section] = [self.entry_of(place.section)]
            self.lost.add(place.section)
        else:
            self.put_value(place)

    def put_value(self, place: Place) -> None:
        """A good value of the key at the place; one that needn't be there is left out."""
        entry, key = self.entry(place), SECTIONS[place.section].keys[place.key]
        entry.pop(key.name, None)
        if key.needed:
            entry[key.name] = self.value_of(place.section, key)
        if key.name == "name":
            self.lost.add(place.section)

    def wrong_value(self, place: Place) -> None:
        if place.section not in SECTIONS or place.key is None and place.index is None:
            del self.document[place.section]
            self.lost.add(place.section)
        elif place.key is None:
            self.document[place.section][place.index] = self.entry_of(place.section)
            self.lost.add(place.section)
        elif place.at is None:
            self.put_value(place)
        else:
            self.wrong_text(place)

    def wrong_text(self, place: Place) -> None:
        """An op or a point that is none."""
        if place.section not in OPS:
            self.entry(place)[place.key][place.at] = f"0 {self.source()}"
            return
        ops = self.ops(place)
        words = ops[place.at].split() if isinstance(ops[place.at], str) else []
        meant: Any = words and near(words[0], OPS["task"], MEANT_OPS)
        if not meant and not (words and (not_simulated(words[0], NOT_SIMULATED_OPS) or why_needless(words[0]))):
            self.broken.add((place.section, place.index))
        ops[place.at] = OF_BLOCKS.get(meant, HARMLESS[place.section])

    def double_name(self, place: Place) -> None:
        self.entry(place)["name"] = self.fresh_name()
        self.lost.add(place.section)

    def unknown_name(self, place: Place) -> None:
        """All that names it is mended."""
        if place.section in OPS:
            words, op = op_of(place.section, self.ops(place)[place.at])
            self.mend_ops_about(words[1 + op.name_at(words[1:])[0]], self.kinds_at(place))
        elif place.section == "interrupt":
            self.mend_handler(self.entry(place)["handler"], self.handler())
        else:
            known = {TICK, *(it.get("name") for it in self.entries("handler"))}
            unknown = next(it for it in self.entry(place)["points"][place.at].split()[1::2] if it not in known)
            self.mend_handler(unknown, self.source())

    def mend_ops_about(self, name: str, kinds: Tuple[str, ...]) -> None:
        if not any(self.entries(it) for it in kinds):
            self.lost.update(kinds)
        for section, key in KEY_OF_OPS.items():
            for entry in self.entries(section):
                ops: Any = entry.get(key)
                for at, text in enumerate(ops if isinstance(ops, list) else []):
                    op: Any
                    words, op = op_of(section, text) if isinstance(text, str) else ([], None)
                    found = op.name_at(words[1:]) if op else None
                    if found and words[1 + found[0]] == name and found[1] == kinds:
                        ops[at] = OF_BLOCKS.get(op.word, HARMLESS[section])

    def mend_handler(self, name: str, good: str) -> None:
        for it in self.entries("interrupt"):
            if it.get("handler") == name:
                it["handler"] = good
        for campaign in self.entries("campaign"):
            points: Any = campaign.get("points")
            for at, text in enumerate(points if isinstance(points, list) else []):
                words = [it for it in text.split(" ") if it] if isinstance(text, str) else []
                # of a range the one word after `all`
                handlers = range(1, 2 if words[:1] == ["all"] else len(words), 2)
                if any(words[it] == name for it in handlers if it < len(words)):
                    points[at] = " ".join(good if it == name and place in handlers else it for place, it in enumerate(words))

    def plain_op(self, place: Place) -> None:
        self.ops(place)[place.at] = HARMLESS[place.section]

    def no_daemon(self, place: Place) -> None:
        """A daemon is there from now on."""
        self.document[DAEMON] = self.entry_of(DAEMON)

    def bad_nesting(self, place: Place) -> None:
        """An op that can't be there is taken away; a block that is left open is closed."""
        ops = self.ops(place)
        self.broken.add((place.section, place.index))
        if place.at < len(ops):
            ops[place.at] = HARMLESS[place.section]
        else:
            ops.append("end")

    def too_many(self, place: Place) -> None:
        if place.key is not None:
            key = SECTIONS[place.section].keys[place.key]
            del self.entry(place)[key.name][key.most :]
            self.broken.add((place.section, place.index))
        elif place.section == DAEMON:
            del self.document[DAEMON]
            self.lost.add(DAEMON)
        elif place.index is not None:
            taken = {it.get("tick") for it in self.entries("interrupt")}
            self.entry(place)["tick"] = next(it for it in range(1, 1 << 20) if it not in taken)
        else:
            earlier = OBJECTS[: OBJECTS.index(place.section)] if place.section in OBJECTS else ()
            most = SECTIONS[place.section].most - sum(len(self.document.get(it, [])) for it in earlier)
            del self.document[place.section][most:]
            self.lost.add(place.section)


MENDERS = {
    "Missing": Mending.missing, "WrongKind": Mending.wrong_value, "OutOfRange": Mending.wrong_value, "DoubleName": Mending.double_name,
    "TooMany": Mending.too_many, "BadOp": Mending.wrong_text, "UnknownName": Mending.unknown_name, "OverwriteLength": Mending.plain_op,
    "BadNesting": Mending.bad_nesting, "NoDaemon": Mending.no_daemon,
}


def plain(node: Any) -> Any:
    """A copy of a node as dictionaries, lists and values; a moment stays a node."""
    if isinstance(node, Table):
        return {key: plain(member.value) for key, member in node.members.items()}
    if isinstance(node, Array):
        return [plain(it) for it in node.items]
    return node if isinstance(node, Moment) else node.value


def toml_of(value: Any) -> str:
    """A value, or a key, in TOML."""
    if isinstance(value, dict):
        return "{" + ", ".join(f"{toml_of(key)} = {toml_of(it)}" for key, it in value.items()) + "}"
    if isinstance(value, list):
        return "[" + ", ".join(map(toml_of, value)) + "]"
    if isinstance(value, Moment):
        return value.value
    if isinstance(value, str):
        return json.dumps(value, ensure_ascii=False).replace("\x7f", "\\u007f")
    return {True: "true", False: "false"}[value] if isinstance(value, bool) else repr(value)
