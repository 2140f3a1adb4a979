"""Keeps what the prover refused, as it must, beside the kit's kept proofs, so that a later check on this machine
doesn't try it again.

An entry's name is a sum of all that the verdict rests on: what was tried, its crate's files and what that lists,
the libraries below as they were built, the kit, and this package. So an entry never goes stale. It trusts whoever
can write into that folder, as `rt ci` does: the user alone who runs the checks. LPT_ANEW=1 takes nothing from it.
"""

from __future__ import annotations

import functools
import hashlib
import json
import os
import pathlib
import stat
import tempfile
from typing import Iterator, Optional

from crates import KIT, below, rlib

from .crate import Crate

# Where `rt ci` keeps what it has proved.
STORE = KIT.parent / "rattle-kept"
FOLDER = "lpt-edits"
# So many entries are kept at most, each of some hundred octets; the ones longest unused go first.
MOST = 20_000
# What a verdict rests on: of the kit, of a crate, and of this package.
OF_KIT = ["KIT-ID", "WHAT", "bin", "toolchain", "logic_built", "rattle/logic", "rattle/antt", "rlibs"]
OF_CRATE = ["src", "specs", "proofs"]
HERE = pathlib.Path(__file__).resolve().parent


def sum_of(said: object) -> str:
    """A sum of what is said, as it is printed."""
    return hashlib.sha256(repr(said).encode()).hexdigest()


def files_of(folder: pathlib.Path, parts: list[str]) -> Iterator[pathlib.Path]:
    """The files below these parts of a folder, in one order."""
    for part in parts:
        for at, folders, names in os.walk(folder / part):
            folders.sort()
            yield from (pathlib.Path(at, it) for it in sorted(names))
        if (folder / part).is_file():
            yield folder / part


def contents(folder: pathlib.Path, parts: list[str]) -> list[tuple[str, str]]:
    """Each file below these parts of a folder, with a sum of what is in it."""
    files = files_of(folder, parts)
    return [(str(it.relative_to(folder)), hashlib.sha256(it.read_bytes()).hexdigest()) for it in files]


@functools.lru_cache(maxsize=None)
def kit_sum() -> str:
    """A sum of the kit, by the size and time of each of its files, and of what tries the edits (not of its tests)."""
    states = [(str(it), it.lstat().st_size, it.lstat().st_mtime_ns) for it in files_of(KIT, OF_KIT)]
    trying = [it for it in sorted(HERE.glob("*.py")) if it.name != "tests.py"]
    own = [(it.name, it.read_text(encoding="utf-8")) for it in [*trying, HERE.parent / "crates.py"]]
    return sum_of((states, own))


@functools.lru_cache(maxsize=None)
def library_sum(room: pathlib.Path, name: str) -> str:
    """A sum of a library as it was built in a room."""
    return sum_of(contents(rlib(room, name), [f"{name}.rlib"]))


def store() -> Optional[pathlib.Path]:
    """The folder in which verdicts are kept; None if all is to be tried, if nobody keeps proofs on this machine, or
    if others can write there."""
    if os.environ.get("LPT_ANEW") == "1":
        return None
    try:
        found = STORE.lstat()
        if not stat.S_ISDIR(found.st_mode) or found.st_uid != os.geteuid() or found.st_mode & 0o077:
            return None
        (STORE / FOLDER).mkdir(mode=0o700, exist_ok=True)
    except OSError:
        return None
    return STORE / FOLDER


class Kept:
    """What is kept of a crate in a folder: why the prover refused what was tried of it."""

    def __init__(self, crate: Crate, folder: Optional[pathlib.Path]) -> None:
        self.folder = folder
        libraries = [(it, library_sum(crate.room, it)) for it in below(crate.name, crate.libraries)]
        listed = crate.libraries[crate.name]
        self.base = sum_of((kit_sum(), crate.name, listed, contents(crate.folder, OF_CRATE), libraries))

    def entry(self, tried: object) -> pathlib.Path:
        """Where it is kept what came of this try."""
        return self.folder / sum_of((self.base, tried))

    def reason(self, tried: object) -> Optional[str]:
        """Why the prover refused this, if that is kept."""
        if not self.folder:
            return None
        entry = self.entry(tried)
        try:
            said = json.loads(entry.read_text(encoding="utf-8"))
            os.utime(entry)
            return said["reason"] if said["name"] == entry.name else None
        except (OSError, ValueError, KeyError, TypeError):
            return None

    def keep(self, tried: object, reason: str) -> None:
        """Keeps why the prover refused this. A machine without room keeps nothing."""
        if not self.folder:
            return
        entry = self.entry(tried)
        try:
            with tempfile.NamedTemporaryFile("w", dir=self.folder, delete=False, encoding="utf-8") as file:
                json.dump({"name": entry.name, "reason": reason}, file)
            os.replace(file.name, entry)
        except OSError:
            pass


def shrink(folder: Optional[pathlib.Path]) -> None:
    """Takes the entries longest unused away, until so many are left as may be."""
    found = sorted(folder.iterdir(), key=lambda it: it.stat().st_mtime) if folder else []
    for it in found[: max(0, len(found) - MOST)]:
        it.unlink(missing_ok=True)
