"""Worlds of `lpt run - --views`, which answer the lines of a script, all at once or line by line.

`show journal` behind a line ends its answer, and tells how many events have happened.
"""

from __future__ import annotations

import contextlib
import subprocess
import tempfile
from collections.abc import Iterable, Iterator
from types import TracebackType
from typing import NamedTuple

from .program import DONE, ProgramError, Word, failure, run, start

#: What a script can ask for with `--views`.
VIEWS = ("show link", "show senders", "show receptions", "show jobs")
COMMAND = ("run", "-", "--views")
# The status of a run that an unreadable line ended.
UNREADABLE = 2
_JOURNAL = b"show journal"


class Answer(NamedTuple):
    """What a line prints, and how many events have happened then."""

    printed: list[str]
    events: int


def answers(octets: Iterable[bytes]) -> Iterator[Answer]:
    """The answers in what a world prints. Lines behind the last of them aren't given."""
    printed: list[str] = []
    for it in octets:
        text = it.decode("utf-8", "replace").rstrip("\n")
        if text.startswith("journal "):
            yield Answer(printed, int(text[8:]))
            printed = []
        else:
            printed.append(text)


def answer_all(blocks: Iterable[Iterable[bytes]], *options: Word) -> tuple[list[Answer], str]:
    """The answer to each block of lines, in one new world, and what was said on standard error. Behind a block with
    an unreadable line, which ends the world, there are no answers."""
    octets = b"".join(b"%s\n" % line for block in blocks for line in (*block, _JOURNAL))
    ran = run(*COMMAND, *options, octets=octets, accepted=(*DONE, UNREADABLE))
    found = list(answers(ran.printed.splitlines()))
    if ran.status == UNREADABLE and b": unreadable" not in ran.printed[-40:]:
        raise failure("run", ran.status, ran.said)
    return found, ran.said


class Session:
    """A world that answers line by line. Close it, or use it in a `with`."""

    def __init__(self, *options: Word) -> None:
        self.events = 0
        self._said = tempfile.TemporaryFile()
        self._program = start(*COMMAND, *options, stdin=subprocess.PIPE, said=self._said, apart=True)
        assert self._program.stdin is not None and self._program.stdout is not None
        self._asked, self._printed = self._program.stdin, self._program.stdout
        try:
            # Options that the program refuses are told here.
            self.ask("")
        except ProgramError:
            self.close()
            raise

    def ask(self, line: str) -> list[str]:
        """What a line prints. `ProgramError` if it ends the world: `status` is `UNREADABLE` if it can't be read."""
        octets = line.encode("utf-8", "surrogateescape")
        is_journal = octets.split() == _JOURNAL.split()
        with contextlib.suppress(BrokenPipeError):
            self._asked.write(octets + (b"\n" if is_journal else b"\n%s\n" % _JOURNAL))
            self._asked.flush()
        answer = next(answers(self._printed), None)
        if answer is None:
            status = self._program.wait()
            self._said.seek(0)
            raise failure("run", status, self._said.read().decode(errors="replace"))
        self.events = answer.events
        return [*answer.printed, f"journal {self.events}"] if is_journal else answer.printed

    def close(self) -> None:
        """Ends the world."""
        with contextlib.suppress(BrokenPipeError):
            self._asked.close()
        self._printed.close()
        try:
            self._program.wait(1)
        except subprocess.TimeoutExpired:
            # It is busy with a line whose answer nobody awaits.
            self._program.kill()
            self._program.wait()
        self._said.close()

    def __enter__(self) -> Session:
        return self

    def __exit__(
        self, kind: type[BaseException] | None, error: BaseException | None, trace: TracebackType | None
    ) -> None:
        self.close()
