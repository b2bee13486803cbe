"""Runs the program before anything of it is proved, by `rt try`, which compiles the sources anew each time and keeps nothing.

That is done in a copy of the sources, in a folder for temporary files, so that nothing of the checkout is written, neither the program
nor what is kept of proofs. `rt try` runs the program in a folder of its own: a word that names a file is given to it as a copy of that
file."""
from __future__ import annotations

import os
import re
import stat
import subprocess
import tempfile
from typing import Dict, Iterable, List, Optional, Tuple

import ending
import proving

ROOT = proving.ROOT
SECONDS = 60
MOST_WRITTEN = "1 MiB"
CANNOT_WRITE, READER_LEFT = 5, 141
# The last line of `rt try`, if the program ended by itself, and those with which it reports on the run.
HAS_ENDED = re.compile(r"run=ended status=(\d+) .*\bproved=no")
ABOUT_THE_RUN = re.compile(r"(?:interpreter|checked|races): |run=")
# What is read of a file at most: /dev/zero has no end.
MOST_READ = 1 << 28
# The names that `rt try` keeps for itself in the program's folder.
TAKEN = ("..", "program", "stdin", "stdout", "stderr")


def say(text: str) -> None:
    """Writes to standard error. If nobody takes it, the work goes on."""
    pass_on(2, f"rtosim: {text}\n".encode(errors="surrogateescape"))


def pass_on(stream: int, text: bytes) -> int:
    """Writes all of the text. Returns 0, or the status with which the program ends if its output can't be written."""
    at = 0
    try:
        while at < len(text):
            at += os.write(stream, text[at:])
    except BrokenPipeError:
        return READER_LEFT
    except OSError:
        return CANNOT_WRITE
    return 0


class Files:
    """The files that the words name, as copies in a folder."""

    def __init__(self, words: Iterable[str], room: str) -> None:
        self.room, self.read = room, 0
        self.copies: Dict[str, str] = {}
        self.renamed: Dict[bytes, bytes] = {}
        self.words = [self.word_for(it) for it in words]

    def word_for(self, word: str) -> str:
        """The word by which the program finds the file that this word names; the word itself if it names none."""
        place = self.place_of(word)
        if place is None:
            return word
        name, called = os.path.normpath(word), word
        if os.path.isabs(word) or name.startswith("-") or "=" in word or name.split("/")[0] in TAKEN:
            name = called = f"rtosim-preview-{len(self.renamed) + 1}"
            self.renamed[called.encode()] = os.fsencode(word)
        self.copies[name] = place
        return called

    def place_of(self, word: str) -> Optional[str]:
        """The place of a copy of the file that the word names, if it names one that can be read: a file, a pipe, or what is typed."""
        try:
            kind = os.stat(word).st_mode
            if not any(is_kind(kind) for is_kind in (stat.S_ISREG, stat.S_ISFIFO, stat.S_ISCHR)):
                return None
            with open(word, "rb") as file:
                text = file.read(MOST_READ)
        except (OSError, ValueError):
            return None
        self.read += 1
        place = f"{self.room}/file-{self.read}"
        with open(place, "wb") as copy:
            copy.write(text)
        return place

    def as_called(self, text: bytes) -> bytes:
        """The text with the words in the place of the names that the program was given."""
        for called, word in self.renamed.items():
            text = text.replace(called, word)
        return text

    def flags(self) -> List[str]:
        """The words by which `rt try` gives them to the program."""
        return [word for name, place in self.copies.items() for word in ("--data", f"{name}={place}")]

    def lay_out(self, folder: str) -> None:
        """Puts them into a folder as the program finds them."""
        for name, place in self.copies.items():
            os.makedirs(os.path.dirname(f"{folder}/{name}"), exist_ok=True)
            os.link(place, f"{folder}/{name}")


class Answer:
    """What the program wrote to its two streams, and its status; or, without a status, what rt said in its place."""

    def __init__(self, out: bytes, err: bytes, status: Optional[int]) -> None:
        self.out, self.err, self.status = out, err, status


def copied_sources(room: str) -> str:
    """Makes a copy of the crates that the program builds on, a repository of its own, and returns its root."""
    copy = f"{room}/copy"
    names = [*proving.below("rtosim", proving.crates(ROOT)), "rtosim"]
    proving.copy_crates(dict.fromkeys(names, ["src", "specs", "proofs"]), copy)
    os.mkdir(f"{copy}/.git")
    return copy


def placed(line: bytes, copy: str) -> bytes:
    """The line of rt with a place in the checkout for one in the copy, or in the folder of the program's own crate."""
    line = line.replace(os.fsencode(copy), os.fsencode(ROOT))
    return re.sub(rb"^(?:\./)?(?=src/\S+\.rt:\d)", os.fsencode(f"{ROOT}/crates/rtosim/"), line)


def tried(copy: str, files: Files) -> Tuple[bytes, bytes]:
    """What the program writes, and what rt says of it, below what the program writes to its standard error."""
    words = ["rt", "try", "--seconds", str(SECONDS), *files.flags(), "--", *files.words]
    streams = {"stdin": subprocess.DEVNULL, "stdout": subprocess.PIPE, "stderr": subprocess.PIPE}
    return ending.run(words, lambda rt: rt.communicate(), cwd=f"{copy}/crates/rtosim", **streams)


def answer(files: Files) -> Answer:
    """Compiles the program and runs it, and returns its answer."""
    with tempfile.TemporaryDirectory(prefix="rtosim-preview-") as room:
        copy = copied_sources(room)
        written, said = tried(copy, files)
    lines = [placed(it, copy) for it in said.splitlines(keepends=True)]
    ended = HAS_ENDED.match(lines[-1].decode(errors="replace")) if lines else None
    if not ended:
        return Answer(b"", b"".join(lines), None)
    while lines and ABOUT_THE_RUN.match(lines[-1].decode(errors="replace")):
        lines.pop()
    return Answer(written, b"".join(lines), int(ended[1]))
