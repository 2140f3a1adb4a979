"""Compiles the tests of tests/rust, with the kit's checks in the code in place of a proof.

    native.py TOP [NAME..]   writes TOP/build/native/NAME, a program for each folder NAME of tests/rust, or for these;
                             where no source has changed, nothing

A folder's files are sources of a crate, lib.rt the first, with `.in` behind their names, since the kit wants each
file of Rust to be of a crate that crates.txt lists, and would prove it. What they list stands in tests/rust/crates.
"""

from __future__ import annotations

import fcntl
import hashlib
import pathlib
import sys
import tempfile
from concurrent.futures import ThreadPoolExecutor

sys.dont_write_bytecode = True
import compiling  # noqa: E402: it stands beside this file
from crates import below, libraries, sources  # noqa: E402
from lanes import GIB_A_PROOF, lanes  # noqa: E402

# What the tests themselves take of the kit.
OF_KIT = ["std_alloc"]


def folders(top: pathlib.Path) -> dict[str, list[str]]:
    """The folders of tests, and the crates that each lists."""
    lines = (top / "tests/rust/crates").read_text(encoding="utf-8").splitlines()
    return {name: listed.split() for name, _, listed in (it.partition(": ") for it in lines)}


def sum_of(top: pathlib.Path, name: str, listed: list[str]) -> str:
    """A sum of all that a program is made of."""
    known = libraries(top)
    crates = sorted({*listed, *(it for crate in listed for it in below(crate, known))})
    files = [*sorted((top / "tests/rust" / name).iterdir()), *sorted((top / "tools").glob("*.py")), top / "crates.txt"]
    files += [file for it in crates for file in sorted((top / "crates" / it / "src").rglob("*.rt"))]
    said = hashlib.sha256()
    for file in files:
        said.update(f"{file.relative_to(top)}\n".encode() + file.read_bytes())
    return said.hexdigest()


def make(top: pathlib.Path, name: str, listed: list[str]) -> pathlib.Path:
    """The program of a folder's tests, which is made first where it isn't there, of what it would be made of now."""
    to = top / "build/native"
    to.mkdir(parents=True, exist_ok=True)
    made, kept, now = to / name, to / f"{name}.sum", sum_of(top, name, listed)
    with open(to / f"{name}.lock", "w", encoding="utf-8") as lock:
        fcntl.flock(lock, fcntl.LOCK_EX)
        if not made.exists() or not kept.exists() or kept.read_text(encoding="utf-8") != now:
            with tempfile.TemporaryDirectory(dir=to, prefix="room.") as folder:
                compile_tests(top, name, listed, pathlib.Path(folder), made)
            kept.write_text(now, encoding="utf-8")
    return made


def compile_tests(top: pathlib.Path, name: str, listed: list[str], room: pathlib.Path, made: pathlib.Path) -> None:
    """Compiles a folder's tests in a room, and puts the program where it belongs."""
    (room / "src").mkdir()
    for file in (top / "tests/rust" / name).iterdir():
        (room / "src" / file.stem).write_bytes(file.read_bytes())
    known = libraries(top)
    own = sorted({*listed, *(it for crate in listed for it in below(crate, known))})
    words = ["--test", "src/lib.rt", *sources(top, own, OF_KIT)]
    compiling.program(compiling.module(room, f"lpt_{name}_tests", words), room / "program", 0)
    (room / "program").replace(made)


def programs(top: pathlib.Path, names: list[str]) -> list[pathlib.Path]:
    """The programs of these folders' tests, or of all, made side by side."""
    known = folders(top)
    with ThreadPoolExecutor(lanes(GIB_A_PROOF)) as pool:
        return list(pool.map(lambda it: make(top, it, known[it]), names or list(known)))


if __name__ == "__main__":
    programs(pathlib.Path(sys.argv[1]).resolve(), sys.argv[2:])
