"""The program `lpt`: where it is, and what it prints. Nothing of the protocol is known here.

The program is that of LPT in the environment, if it is set; otherwise the first of these that is there: that beside
the package's files, that of its checkout, that of the place in which it is installed, and `lpt` on the path.
Each call starts the program once, with the words of a command line.
"""

from __future__ import annotations

import json
import os
import pathlib
import shutil
import subprocess
import tempfile
from collections.abc import Collection, Iterator
from typing import Any, IO, NamedTuple, Union

#: A word of a command line.
Word = Union[str, "os.PathLike[str]"]
#: A command's statuses if all was done, and perhaps something was found that is wrong.
DONE = (0, 1)


class ProgramError(Exception):
    """The program isn't there, or didn't do what was asked. The text is what it said; `status` is its status, if it
    ended with one, and less than 0 if a signal ended it."""

    def __init__(self, said: str, status: int | None = None) -> None:
        super().__init__(said)
        self.status = status


class Ran(NamedTuple):
    """How a command ended: its status, what it printed, and what it said on standard error."""

    status: int
    printed: bytes
    said: str


def path() -> str:
    """Where the program is; `ProgramError` if it is nowhere."""
    if os.environ.get("LPT"):
        return os.environ["LPT"]
    here = pathlib.Path(__file__).resolve().parent
    above = list(here.parents)
    places = [here / "lpt", *(it / name for it in above[1:2] for name in ("crates/lpt/out/lpt", "lpt"))]
    places += [it / "bin/lpt" for it in above[3:4]]
    for place in places:
        if place.is_file() and os.access(place, os.X_OK):
            return str(place)
    found = shutil.which("lpt")
    if found is None:
        raise ProgramError(f"lpt isn't in {', '.join(map(str, places))}, nor on the path: name it in LPT")
    return found


def failure(command: str, status: int, said: str) -> ProgramError:
    """What is raised of a command that ended with a status it shouldn't have: the program's words, if it had any."""
    end = f"status {status}" if status >= 0 else f"signal {-status}"
    return ProgramError(said.strip() or f"lpt {command} ended with {end}", status)


def start(
    *words: Word, stdin: IO[bytes] | int, said: IO[bytes], apart: bool = False
) -> subprocess.Popen[bytes]:
    """A started command whose standard output is a pipe. What it says goes to the file `said`, which never fills.
    An interrupt at the terminal, as by Ctrl-C, doesn't reach a command that is `apart`."""
    command = path()
    try:
        return subprocess.Popen(
            [command, *words], stdin=stdin, stdout=subprocess.PIPE, stderr=said, start_new_session=apart
        )
    except OSError as error:
        raise ProgramError(f"{command}: {error.strerror}") from error


def run(*words: Word, octets: bytes = b"", accepted: Collection[int] = DONE) -> Ran:
    """Runs a command on these octets as its standard input, to its end. Another status than the accepted ones is
    raised as `ProgramError`, with the program's words."""
    with tempfile.TemporaryFile() as said, start(*words, stdin=subprocess.PIPE, said=said) as program:
        printed, _ = program.communicate(octets)
        said.seek(0)
        ran = Ran(program.returncode, printed, said.read().decode(errors="replace"))
    if ran.status not in accepted:
        raise failure(str(words[0]), ran.status, ran.said)
    return ran


def lines(*words: Word, octets: bytes = b"", accepted: Collection[int] = DONE) -> Iterator[bytes]:
    """The lines that a command prints, each as soon as it comes. At the end a status that isn't accepted is raised
    as `ProgramError`. If no more lines are asked for, the program is ended."""
    with tempfile.TemporaryFile() as given, tempfile.TemporaryFile() as said:
        given.write(octets)
        given.seek(0)
        with start(*words, stdin=given, said=said) as program:
            assert program.stdout is not None
            try:
                yield from program.stdout
            except GeneratorExit:
                program.kill()
                raise
        if program.returncode not in accepted:
            said.seek(0)
            raise failure(str(words[0]), program.returncode, said.read().decode(errors="replace"))


def rows(*words: Word, octets: bytes = b"", accepted: Collection[int] = DONE) -> Iterator[dict[str, Any]]:
    """The objects that a command prints as JSON, one in each line; otherwise as `lines`."""
    return map(json.loads, lines(*words, octets=octets, accepted=accepted))
