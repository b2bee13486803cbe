"""What `rt ci` refuses of crates that rattle proves, by rt's own functions.

rattle's status says whether a crate is proved. rt also judges what rattle says of it, and the text of its sources. The functions by
which it does so are parts of rt that nothing promises: if one is missing, or returns something else than is known here, OtherRt is
raised."""
from __future__ import annotations

import contextlib
import importlib.machinery
import importlib.util
import io
import os
import re
import shutil
from typing import Any, Iterable, Iterator, NoReturn, Optional, Pattern, Set, Tuple

# What rattle says last of a library that is proved, and words that no crate of a repository may have there.
PROVED = "logic=proved functions=1 sum=0 native=nat,char,string logic-built=trusted libraries-built=trusted statements=trusted\n"
NEVER = ("hides=1", "bugs=1", "may-abort=1", "unknown=1")
# How the lines begin that show where a crate has what is refused.
HAS_CHOSEN = re.compile(r"\S+ (?:note|warning): `\S+` has chosen a term")
LAST_LINE, NOTE, HIDES = re.compile("logic="), re.compile("note: "), re.compile("hides ")


class OtherRt(Exception):
    """rt has other parts than those that are used here, or they answer otherwise."""


class Refused(Exception):
    """rt ci refuses a crate. Each word says why, beginning with the crate's name or the path of a file."""

    def __str__(self) -> str:
        return "\n".join(f"rt ci refuses {it}" for it in self.args)


@contextlib.contextmanager
def parts_of_rt() -> Iterator[None]:
    """Within it parts of rt are called: whatever fails there is raised as OtherRt."""
    try:
        yield
    except (Refused, OtherRt):
        raise
    except (Exception, SystemExit) as error:
        raise OtherRt(f"{type(error).__name__}: {error}") from error


def loaded_rt() -> Any:
    """The command rt as a module, which has loaded what it knows of crates, `rtlib`."""
    loader = importlib.machinery.SourceFileLoader("rt", os.path.realpath(shutil.which("rt") or "rt"))
    spec = importlib.util.spec_from_loader("rt", loader)
    assert spec
    module = importlib.util.module_from_spec(spec)
    loader.exec_module(module)
    return module


def text_of(place: str) -> Optional[str]:
    """The text of a file, or None if there is none."""
    if not os.path.isfile(place):
        return None
    with open(place, encoding="utf-8") as file:
        return file.read()


def proofs_in(lines: Iterable[str]) -> Iterator[Tuple[str, str]]:
    """The name of each crate that is proved, and what rattle says of it, out of what rt passes on of several. What ends in `only=` is of
    the quick look by which rt begins."""
    said = []
    for line in lines:
        said.append(line)
        if line.startswith(("logic=", "only=")):
            name = next((it.split()[1].rstrip(":") for it in said if it.startswith("crate ")), None)
            if name and line.startswith("logic="):
                yield name, "".join(f"{it}\n" for it in said)
            said = []


class Judge:
    """Judges the crate of a program, which is in this folder, and those that it builds on."""

    def __init__(self, folder: str) -> None:
        with parts_of_rt():
            self.rt = loaded_rt()
            self.proved: Set[Any] = set()
            self.lib = self.rt.rtlib
            self.lib.stop, self.lib.Crate = self.refuse, self.rt.Crate
            root = self.lib.root_above(folder)
            self.rt.Crate.allowed = self.rt.handles_of(root)
            program = self.rt.Crate(folder, root, {})
            self.crates = [*program.below(), program]
            self.look_at_itself()

    def refuse(self, why: str) -> NoReturn:
        """What rt does when it stops."""
        raise Refused(self.rt.FLAGS.sub("", why))

    def look_at_itself(self) -> None:
        """Raises OtherRt unless what is known here of a last line is taken, and with each of the words that are not allowed there refused."""
        lowest = self.crates[0]
        lines = [PROVED.replace(" sum=", f" {it} sum=") for it in NEVER]
        if self.fault(lowest, PROVED) or not all(self.fault(lowest, it) for it in lines):
            raise OtherRt("it judges the last line of a proof otherwise")

    def look_at_texts(self) -> None:
        """Raises Refused if rt ci refuses the text of a crate."""
        # (warnings, which rt check prints too)
        with parts_of_rt(), contextlib.redirect_stderr(io.StringIO()):
            for crate in self.crates:
                self.look_at_listing(crate)
                self.lib.stop_on_links(crate.folder)
                self.lib.stop_on_unread(crate.folder, self.crates)
                self.lib.stop_on_text(crate, "verdict")
                self.rt.stop_on_words(crate)
                self.look_at_code(crate)

    def look_at_listing(self, crate: Any) -> None:
        """Raises Refused for the crate's name, or for libraries of the kit by which it could reach what HANDLES doesn't allow."""
        if crate.name in self.rt.TAKEN:
            raise Refused(f"{crate.name}: it has the name of a library of the toolchain")
        if {"libc", "os"} & {*crate.of_kit} and not {"Net", "Processes"} & {*crate.allowed}:
            raise Refused(f"{crate.name}: crates.txt lists libc or os, which reach past the handles")

    def look_at_code(self, crate: Any) -> None:
        """Raises Refused for what the crate's code names."""
        code = self.lib.code_of(crate.folder)
        if re.search(self.rt.RENAMES, code):
            raise Refused(f"{crate.name}: it renames std, or takes it whole")
        if re.search(self.rt.IGNORED, code):
            raise Refused(f"{crate.name}: it has a test that nothing runs, under #[ignore]")
        for handle, words in self.rt.REACHES.items():
            if handle not in crate.allowed and re.search(words, code):
                raise Refused(f"{crate.name}: it names what only the handle {handle} reaches, which HANDLES does not allow")

    def fault(self, crate: Any, said: str) -> Optional[Tuple[str, Pattern[str]]]:
        """Why rt ci refuses a crate of which rattle says this, and what the lines begin with that show where; or None."""
        lib, own, last = self.lib, {it.name for it in [crate, *crate.below()]}, said.rstrip("\n").rpartition("\n")[2]
        beyond = crate.miscounted(last)
        tests = [
            (lib.chose_a_term(said, not crate.is_program), "a tactic chose a term that a contract may read", HAS_CHOSEN),
            (lib.swallows_text(said), "a macro call may hide text that only looks like code", lib.BY_MACRO),
            (own & lib.writers_of_impls(said), "a macro of this repository writes an impl that no source shows", lib.BY_MACRO),
            (lib.CATCHES_ALL.search(said), "a pattern takes every value, where a constructor was probably meant", lib.CATCHES_ALL),
            (any(crate.says_search(*it) for it in lib.FILLED_IN.findall(said)), "`search` fills in what a clause says", lib.FILLED_IN),
            (not lib.VERDICT.search(said), "rattle's last line has a word on which no verdict may rest", LAST_LINE),
            (" bugs=" in last, "rattle refused, or couldn't finish, a part of what it generated itself", NOTE),
            (beyond, beyond, HIDES),
        ]
        return next(((why, shows) for is_so, why, shows in tests if is_so), None)

    def look_at_proof(self, crate: Any, said: str) -> None:
        """Raises Refused if rt ci refuses the crate, though rattle says this of it and proves it."""
        with parts_of_rt():
            if found := self.fault(crate, said):
                why, shows = found
                places = [it for it in said.split("\n") if shows.match(it)]
                places = [re.sub(r"^(?:\./)?(?=(?:src|specs|proofs)/)", f"crates/{crate.name}/", it) for it in places]
                raise Refused(*(f"{crate.name}: {it}" for it in [*places, why]))

    def look_at_calls(self, place: str) -> None:
        """Raises Refused if the program, which is at this place, calls what HANDLES doesn't allow."""
        program = self.crates[-1]
        with parts_of_rt():
            program.out = io.StringIO()
            if program.calls_beyond(place):
                raise Refused(f"{program.name}: {re.sub('^rt: ', '', program.out.getvalue().strip())}")


class JudgeOfKept(Judge):
    """Judges what rt proves over the proofs that it keeps. Of a library that is as it was built rt says nothing, so what has been
    judged is recorded beside the stamp by which rt takes it."""

    def record_of(self, crate: Any) -> Tuple[str, str]:
        """The record, and what it has once the present library is judged."""
        at = f"{crate.folder}/out/rlib"
        return f"{at}/judged", f"{text_of(f'{at}/stamp')} {', '.join(crate.allowed)}\n"

    def is_judged(self, crate: Any) -> bool:
        record, wanted = self.record_of(crate)
        return not crate.is_program and text_of(record) == wanted

    def have_said_again(self) -> None:
        """Has rt build anew, over the proofs that it keeps, what is there without having been judged."""
        for crate in self.crates:
            stamp = f"out/{crate.name}.stamp" if crate.is_program else "out/rlib/stamp"
            if not self.is_judged(crate):
                with contextlib.suppress(FileNotFoundError):
                    os.remove(f"{crate.folder}/{stamp}")

    def look_at_proofs(self, lines: Iterable[str]) -> None:
        """Raises Refused if rt ci refuses a crate that is proved by these lines of rt."""
        for name, said in proofs_in(lines):
            for crate in [it for it in self.crates if it.name == name]:
                self.look_at_proof(crate, said.replace(" incremental=trusted\n", "\n"))
                self.proved.add(crate)

    def finish(self, place: str) -> None:
        """Raises OtherRt if a crate has not been judged, and Refused as look_at_calls does. Otherwise records what has been judged."""
        for crate in self.crates:
            if crate not in self.proved and not self.is_judged(crate):
                raise OtherRt(f"it says nothing of the proof of {crate.name}")
        self.look_at_calls(place)
        for crate in self.crates[:-1]:
            record, text = self.record_of(crate)
            with contextlib.suppress(OSError), open(record, "w", encoding="utf-8") as file:
                file.write(text)
