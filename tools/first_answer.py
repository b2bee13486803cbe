"""The answer that a call gives before the program is proved, and whether the proved program gives the same.

The answer is that of a preview (tools/previewing.py). What the words name is read once, and both programs are given these bytes: a pipe can
be read only once, and a file may be edited during the proof. Of the proved program's answer nothing is printed and nothing is kept: it is
compared as it comes, up to the first byte that differs."""
from __future__ import annotations

import os
import subprocess
import tempfile
from typing import IO, Any, Callable, Dict, Iterable, List, Optional, Tuple

import ending
import previewing
from previewing import pass_on, say

ROOT = previewing.ROOT
PROGRAM = f"{ROOT}/crates/rtosim/out/rtosim"
# As bin/rtosim does, which has looked at RTOSIM_MEMORY before.
LIMITED = '. "$0"; read_memory; limit_memory; exec "$@"'
BEFORE = "an answer that isn't proved comes in a minute or two, and then the proof"
UNPROVED = "the answer above isn't proved yet. The proof comes now; if it is interrupted, the next call goes on where it stopped"
NO_ANSWER = "there is no answer before the proof, for what is said above"
STAYS_UNPROVED = "the answer above isn't proved"
CHANGED = "the sources were changed after it"
NOW_PROVED = "the same call now prints the proved one"
NO_MEMORY, DIFFERS = 4, 70
BYTES = 1 << 16


def limited(words: Iterable[str]) -> List[str]:
    """The words that start the program with a limit on its memory."""
    return ["/bin/sh", "-c", LIMITED, f"{ROOT}/tools/memory.sh", PROGRAM, *words]


def first_difference(stream: IO[bytes], wanted: bytes) -> Optional[int]:
    """The first place at which the stream differs from the bytes that are wanted; None if it doesn't."""
    at = 0
    while part := stream.read(BYTES):
        here = wanted[at : at + len(part)]
        if part != here:
            return at + len(os.path.commonprefix([part, here]))
        at += len(part)
    return None if at == len(wanted) else at


class FirstAnswer:
    """The answer to a call of the program with these words. `room` is a folder of its own, `sources` returns the digest of the sources."""

    def __init__(self, words: Iterable[str], room: str, sources: Callable[[], str]) -> None:
        self.room, self.sources = room, sources
        self.before, self.files = sources(), previewing.Files(words, room)
        # Of nothing, until it is given.
        self.answer, self.write_fault = previewing.Answer(b"", b"", None), 0

    def give(self) -> None:
        """Prints the answer of a preview, if it has one."""
        say(BEFORE)
        self.answer = self.of_a_preview()
        self.write_fault = pass_on(1, self.answer.out)
        pass_on(2, self.files.as_called(self.answer.err))
        say(UNPROVED if self.was_given() else NO_ANSWER)

    def of_a_preview(self) -> previewing.Answer:
        """Its answer. That it has no memory is none: the proved program may have enough."""
        try:
            answer = previewing.answer(self.files)
        except OSError as error:
            return previewing.Answer(b"", f"rtosim: no preview can be made: {error}\n".encode(errors="surrogateescape"), None)
        return previewing.Answer(b"", answer.err, None) if answer.status == NO_MEMORY else answer

    def was_given(self) -> bool:
        return self.answer.status is not None

    def say_that_it_stays_unproved(self) -> None:
        if self.was_given():
            say(STAYS_UNPROVED)

    def confirm(self) -> int:
        """Runs the proved program. Returns its status; or another one, if its answer isn't the one that was given."""
        folder = f"{self.room}/run"
        os.mkdir(folder)
        self.files.lay_out(folder)
        how = {"cwd": folder, "stdin": subprocess.DEVNULL}
        if not self.was_given():
            status = ending.run(limited(self.files.words), lambda it: it.wait(), **how)
            return status if status >= 0 else 128 - status
        if difference := self.difference(how):
            also = f" ({CHANGED})" if self.sources() != self.before else ""
            say(f"the proved program gives another answer, which differs {difference}{also}: {STAYS_UNPROVED}; {NOW_PROVED}")
            return DIFFERS
        say(f"proved: the same {len(self.answer.out)} bytes")
        return self.write_fault or self.answer.status or 0

    def difference(self, how: Dict[str, Any]) -> Optional[str]:
        """How the proved program's answer differs from the one that was given; None if it doesn't."""
        with tempfile.TemporaryFile() as said:
            how = {**how, "stdout": subprocess.PIPE, "stderr": said}
            at, status = ending.run(limited(self.files.words), self.compare, **how)
            said.seek(0)
            if status == NO_MEMORY:
                return f"in its status, {NO_MEMORY}, since it has too little memory"
            if at is not None:
                return f"from byte {at} on"
            if first_difference(said, self.answer.err) is not None:
                return "on standard error"
            return None if status == self.answer.status else f"in its status, {status} and not {self.answer.status}"

    def compare(self, program: ending.Popen) -> Tuple[Optional[int], int]:
        """The first place at which its output differs, and its status."""
        assert program.stdout
        at = first_difference(program.stdout, self.answer.out)
        if at is not None:
            ending.end(program)
        return at, program.wait()
