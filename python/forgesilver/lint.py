"""Why lines of a script can't be read, and where: what `python3 -m forgesilver lint` says, without a run.

A line is judged by the forms and kinds of `lines`. Whether it can be read, `lpt run` says too, and tests/lint compares
the two.
"""

from __future__ import annotations

import os
import re
import sys
from collections.abc import Iterable, Iterator, Sequence
from typing import NamedTuple

from .lines import FORMS, KINDS
from .session import VIEWS

LONGEST_SCRIPT = 16_777_216
LONGEST_LINE = 140_000
# So many octets are read at once.
_READ = 65_536
# So many octets of a word are shown.
_SHOWN = 40
# What the areas of a load may have together, each with a header of 8 octets, and how many there may be.
_AREA_ROOM, _AREA_HEADER, _MOST_AREAS = 65_527, 8, 255
_LONG_LOAD = "the packet of a load has at most 65542 octets"
_MOST_DIGITS = 10


class ScriptError(Exception):
    """A script can't be read to its end, or is too long. The text says why."""


class Finding(NamedTuple):
    """Why a line can't be read. `column` is the place of the word at fault, from 1, or that behind the line where a
    word is missing."""

    column: int
    reason: str
    word: bytes = b""

    def said(self) -> bytes:
        """The reason, and the front of the word, with a question mark for each octet that would move the cursor."""
        if not self.word:
            return self.reason.encode()
        shown = re.sub(rb"[\0-\x1f\x7f]", b"?", self.word[:_SHOWN])
        return b"%s: %s%s" % (self.reason.encode(), shown, b".." if len(self.word) > _SHOWN else b"")


class _Shape(NamedTuple):
    """The kinds of the words behind those that a form begins with, and of words that may follow them, once or again
    and again."""

    kinds: list[str]
    more: list[str]
    is_repeated: bool

    def kinds_of(self, count: int) -> list[str]:
        """The kinds of so many words, or of fewer where no more may follow, or of more where some are missing."""
        found = list(self.kinds)
        while self.more and len(found) < count:
            found += self.more
            if not self.is_repeated:
                break
        return found


def _shapes() -> dict[tuple[str, ...], _Shape]:
    """The shapes of all forms but those of views, by the words that they begin with."""
    found = {}
    for form in FORMS:
        needed, _, more = form.partition(" [")
        words = needed.split()
        own = tuple(it for it in words if it.islower())
        if form not in VIEWS:
            found[own] = _Shape(words[len(own):], more.rstrip(" .]").split(), more.endswith("..]"))
    return found


_SHAPES = _shapes()
_COMMANDS = {own[0] for own in _SHAPES}


def _either(words: Sequence[str]) -> str:
    """One of these words, in words."""
    return f"{', '.join(words[:-1])} or {words[-1]}"


_NO_SHOW = f"show is followed by {_either([own[1] for own in _SHAPES if len(own) > 1])}"


class _Areas:
    """What the areas of a load leave of its packet."""

    def __init__(self) -> None:
        self._room, self._left = _AREA_ROOM, _MOST_AREAS

    def wrong(self, kind: str, word: bytes) -> str | None:
        """Why a word of this kind has no place in the load."""
        if kind == "ADDR":
            if not self._left:
                return f"a load has at most {_MOST_AREAS} areas"
            return _LONG_LOAD if self._room <= _AREA_HEADER else None
        if kind != "HEX":
            return None
        if word == b"-":
            return "an area of a load has at least one octet"
        self._room -= _AREA_HEADER + len(word) // 2
        self._left -= 1
        return _LONG_LOAD if self._room < 0 else None


def explain(line: bytes) -> Finding | None:
    """Why a line can't be read that stands here without its line feed, and the carriage return before that."""
    if len(line) > LONGEST_LINE:
        return Finding(LONGEST_LINE + 1, f"the line has more than {LONGEST_LINE} octets")
    found = list(re.finditer(rb"[^ ]+", line))
    words = [it[0] for it in found]
    if not words or words[0].startswith(b"#"):
        return None
    fault = _fault(words)
    if fault is None:
        return None
    at, reason = fault
    if at == len(words):
        return Finding(len(line) + 1, reason)
    if words[at].startswith(b"#"):
        reason = "a comment needs a line of its own"
    return Finding(found[at].start() + 1, reason, words[at])


def _fault(words: list[bytes]) -> tuple[int, str] | None:
    """Which word is at fault, from 0, and why. One behind the last is missing."""
    own = tuple(it.decode("latin-1") for it in words[:2 if words[0] == b"show" else 1])
    if own[0] not in _COMMANDS:
        return 0, "there is no such command"
    if own == ("show",):
        return 1, "what is to be shown is missing"
    if own not in _SHAPES:
        return 1, _NO_SHOW
    kinds = _SHAPES[own].kinds_of(len(words) - len(own))
    areas = _Areas()
    for at, kind in enumerate(kinds, len(own)):
        if at == len(words):
            return at, f"{kind} is missing"
        is_sourced = kind == "ID" or own == ("plain",) and kind == "FLAGS"
        why = _wrong_sourced(kind, words[at]) if is_sourced else _wrong(kind, words[at])
        if why is None and own == ("load",):
            why = areas.wrong(kind, words[at])
        if why is not None:
            return at, why
    end = len(own) + len(kinds)
    return (end, "nothing may follow the last word") if end < len(words) else None


def _wrong_sourced(kind: str, word: bytes) -> str | None:
    """Why a word isn't such a number, with a source before it or without one."""
    source, slash, behind = word.partition(b"/")
    if not slash:
        return _wrong(kind, word)
    why = _wrong("SOURCE", source)
    if why is None and b"/" in behind:
        return "one slash alone may stand after SOURCE"
    return why or _wrong(kind, behind)


def _wrong(kind: str, word: bytes) -> str | None:
    """Why a word isn't of this kind."""
    known = KINDS[kind]
    if known.words:
        return None if word in [it.encode() for it in known.words] else f"{kind} is {_either(known.words)}"
    if kind == "HEX":
        if word != b"-" and not re.fullmatch(rb"[0-9A-Fa-f]+", word):
            return "HEX is pairs of hexadecimal digits, or - for no octets"
        return None if word == b"-" or len(word) % 2 == 0 else "HEX has an odd number of digits"
    if not word.isdigit() or len(word) > _MOST_DIGITS:
        return f"{kind} is a number of 1 to {_MOST_DIGITS} digits"
    if known.least <= int(word) <= known.most:
        return None
    return f"{kind} is a number from {known.least} to {known.most}"


def findings(script: Iterable[bytes]) -> Iterator[list[tuple[int, Finding]]]:
    """What is found in a script, by the numbers of its lines, after each piece of its octets that comes. `ScriptError`
    if there are too many, after what is found in the whole lines before."""
    rest, number, left, is_long = b"", 1, LONGEST_SCRIPT, False
    for octets in script:
        piece, end = octets[:left], octets[:left].rfind(b"\n") + 1
        found = _found_in(rest + piece[:end], number, is_long) if end else []
        if end:
            number += piece.count(b"\n")
            rest, is_long = b"", False
        rest = b"" if is_long else rest + piece[end:]
        if len(rest) > LONGEST_LINE:
            found += _found_in(rest, number)
            rest, is_long = b"", True
        yield found
        if len(octets) > left:
            raise ScriptError(f"more than {LONGEST_SCRIPT} octets")
        left -= len(octets)
    yield _found_in(rest, number)


def _found_in(text: bytes, number: int, is_told: bool = False) -> list[tuple[int, Finding]]:
    """What is found in these lines, of which the first has this number, and perhaps its front was told of as a long
    one's."""
    found, place = [], 0
    # A line that has nothing but its end can be read.
    for it in re.finditer(rb"[^\n]+", text):
        number += text.count(b"\n", place, it.start())
        place, line = it.start(), it[0]
        if line.endswith(b"\r") and it.end() < len(text) and len(line) <= LONGEST_LINE:
            line = line[:-1]
        finding = None if is_told and not place else explain(line)
        if finding:
            found.append((number, finding))
    return found


def _reads(path: str) -> Iterator[bytes]:
    """What each read of a script gives, `-` for standard input."""
    try:
        with open(0 if path == "-" else path, "rb", buffering=0, closefd=path != "-") as script:
            while octets := script.read(_READ):
                yield octets
    except OSError as error:
        raise ScriptError(f"{error.strerror} (os error {error.errno})") from error


def _judged(path: str, name: str) -> bool:
    """Writes what is found in a script as soon as it is found; whether that is something."""
    is_found = False
    for found in findings(_reads(path)):
        for number, it in found:
            sys.stdout.buffer.write(b"lpt: %s:%d:%d: %s\n" % (os.fsencode(name), number, it.column, it.said()))
        sys.stdout.flush()
        is_found |= bool(found)
    return is_found


def main(scripts: list[str]) -> int:
    """Writes what is found in scripts. The status is 1 if that is something, and 3 if one can't be read."""
    status = 0
    for path in scripts:
        name = "standard input" if path == "-" else path
        try:
            status = max(status, int(_judged(path, name)))
        except ScriptError as error:
            print(f"Read\nlpt: {name}: {error}", file=sys.stderr)
            status = 3
    return status
