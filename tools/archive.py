"""Builds the libraries for C over what the kit has proved of their crates.

    archive.py copy TOP ROOM      copies the crates of the libraries into a room in which `rt ci` is to
                                  run, with those below them and without must-fail edits
    archive.py build ROOM TOP [PROCESSOR]
                                  writes TOP/build: for each library the archive of its crate's
                                  exports, a shared library of it, and files for pkg-config; ROOM is
                                  such a room, or a copy of the repository in which `rt ci` has run.
                                  For aarch64 these go to TOP/build/aarch64, the shared ones where a
                                  compiler for it is on the path

`rt ci` keeps no archive of a static library, so it would be proved a second time to have one. So the
crates for C are plain libraries, which `rt ci` keeps. The static library is written here: for each
`pub fn lpt_..` of the crate it has a function for C of the same name, parameters and contract, which
calls that one. That it meets this contract is proved as the archive is built.
"""

from __future__ import annotations

import fcntl
import hashlib
import os
import pathlib
import re
import shlex
import shutil
import subprocess
import sys
import tempfile
from concurrent.futures import ThreadPoolExecutor
from typing import NamedTuple

sys.dont_write_bytecode = True
from crates import KIT, libraries, prover  # noqa: E402: it stands beside this file


class Processor(NamedTuple):
    """A processor that libraries are built for: its end target, the folder below build, and a compiler that
    links its shared libraries, in place of which CC may name another."""

    target: str
    folder: str
    compiler: str


PROCESSORS = {
    "x86_64": Processor("x86_64-unknown-linux-gnu", ".", "cc"),
    "aarch64": Processor("aarch64-unknown-linux-gnu", "aarch64", "aarch64-linux-gnu-gcc"),
}


class Library(NamedTuple):
    """A library: its crate, its name, what it is, the library that its header takes types from, and
    what is compiled into a shared one."""

    crate: str
    name: str
    description: str
    requires: str
    sources: list[str]


LIBRARIES = [
    Library("lpt_c", "lpt", "Space packets, PUS headers and large packet transfer", "", []),
    Library(
        "lpt_c_end", "lpt_end", "One end of a link of large packet transfer", "lpt",
        ["examples/c/memory/heap.c"],
    ),
    Library(
        "lpt_c_ground", "lpt_ground", "Ground's end of a pass that carries a job to its end", "lpt",
        ["examples/c/memory/heap.c"],
    ),
]

# In rt fmt's layout: a function's head, with its contract, ends where its body begins on a line of
# its own.
EXPORT = re.compile(r"^pub fn (lpt_\w+)\((.*?)\)((?: -> \w+)?\n.*?)^\{$", re.M | re.S)
GHOST_USE = re.compile(r"^ghost use .*;$", re.M)
TYPE = re.compile(r"\bLpt\w+")
PARAMETER = re.compile(r"(\w+): [^,]+")


def module_of(crate, text):
    """The exports of a source of a crate; nothing where it has none."""
    exports, types, has_global = [], set(), False
    for name, parameters, contract in EXPORT.findall(text):
        given = ", ".join(PARAMETER.findall(parameters))
        types |= set(TYPE.findall(parameters))
        has_global = has_global or "Global" in parameters
        head = f'#[unsafe(no_mangle)]\npub extern "C" fn {name}({parameters}){contract}'
        exports.append(f"{head}{{\n    {crate}::{name}({given})\n}}\n")
    uses = GHOST_USE.findall(text)
    uses += [f"use {crate}::{{{', '.join(sorted(types))}}};"] if types else []
    uses += ["use std::alloc::Global;"] if has_global else []
    return "\n".join([*uses, "", *exports]) if exports else ""


def write_exports(sources, crate, to):
    """Writes the static library's sources into a folder."""
    root = ["//! What C can call.", "#![tactic(auto)]", ""]
    (to / "src").mkdir()
    for file in sorted(sources.glob("*.rt")):
        module = module_of(crate, file.read_text(encoding="utf-8"))
        if module:
            root.append(f"mod {file.stem};")
            (to / "src" / file.name).write_text(module, encoding="utf-8")
    (to / "src/lib.rt").write_text("\n".join([*root, ""]), encoding="utf-8")


def with_below(top: pathlib.Path) -> list[str]:
    """The crates of the libraries, with all below them."""
    known, found = libraries(top), [it.crate for it in LIBRARIES]
    for crate in found:
        found += [it for it in known[crate] if it in known and it not in found]
    return found


def copy(top: pathlib.Path, room: pathlib.Path) -> None:
    """Copies the crates of the libraries."""
    found = with_below(top)
    for crate in found:
        unread = shutil.ignore_patterns("out", "must-fail")
        shutil.copytree(top / "crates" / crate, room / "crates" / crate, ignore=unread)
    text = (top / "crates.txt").read_text(encoding="utf-8").splitlines(keepends=True)
    kept = [it for it in text if re.split("[ :]", it)[0] in found]
    (room / "crates.txt").write_text("".join(kept), encoding="utf-8")
    shutil.copy(top / "HANDLES", room)


def archive(room: pathlib.Path, library: Library, processor: Processor, to: pathlib.Path) -> None:
    """Builds a library's archive."""
    name = f"{library.crate}_exports"
    listed = [library.crate, *libraries(room)[library.crate]]
    words = prover("build", name, "src/lib.rt", listed, room)
    words += ["--crate-type", "staticlib", "--target", processor.target]
    words += ["--toolchain", f"{KIT}/toolchain", "-o", str(to)]
    with tempfile.TemporaryDirectory(prefix="lpt-exports-") as folder:
        write_exports(room / "crates" / library.crate / "src", library.crate, pathlib.Path(folder))
        subprocess.run(words, cwd=folder, check=True)


def declared(header: pathlib.Path) -> list[str]:
    """The functions of a library that its header declares."""
    text = re.sub(r"/\*.*?\*/", " ", header.read_text(encoding="utf-8"), flags=re.S)
    return sorted(set(re.findall(r"\b(lpt_\w+)\([^()]*\);", text)))


def shared(top: pathlib.Path, library: Library, compiler: list[str], folder: pathlib.Path) -> None:
    """Links the shared library of an archive in a folder: it exports what the header declares alone, and
    its code can't be written to, nor its stack or what the loader has filled in be executed or changed."""
    header, name = top / f"include/{library.name}.h", f"lib{library.name}.so.0"
    script = folder / f"{name}.exports"
    script.write_text(f"{{ global: {' '.join(f'{it};' for it in declared(header))} local: *; }};\n")
    words = [*compiler, "-shared", "-O2", "-fPIC", "-fvisibility=hidden", f"-I{top}/include"]
    words += [str(top / it) for it in library.sources]
    words += ["-Wl,--whole-archive", str(folder / f"lib{library.name}.a"), "-Wl,--no-whole-archive"]
    words += [f"-Wl,-soname,{name}", f"-Wl,--version-script={script}", "-Wl,--no-undefined-version"]
    words += [f"-Wl,-z,{it}" for it in ("defs", "text", "relro", "now", "noexecstack")]
    subprocess.run([*words, "-Wl,--gc-sections", "-o", str(folder / name)], check=True)
    script.unlink()


def version_of(top: pathlib.Path) -> str:
    """The libraries' version."""
    return (top / "docs/help/version").read_text(encoding="utf-8").strip()


def package(top: pathlib.Path, library: Library, place: str, version: str, folder: pathlib.Path) -> None:
    """Writes a library's files for pkg-config: of its archive, and of the shared one. They say in which
    folder of TOP it will stand."""
    told = f"{library.description}, {'not proved' if 'unproved' in version else 'proved'}"
    for suffix, file in (("", f"-l:lib{library.name}.a"), ("_shared", f"-l:lib{library.name}.so.0")):
        lines = [
            f"prefix={top}", "", f"Name: {library.name}{suffix}", f"Description: {told}",
            f"Version: {version}", f"Requires: {library.requires and library.requires + suffix}",
            "Cflags: -I${prefix}/include", f"Libs: -L${{prefix}}/{place} {file}", "",
        ]
        (folder / f"{library.name}{suffix}.pc").write_text("\n".join(lines), encoding="utf-8")


def sums(top: pathlib.Path, room: pathlib.Path | None = None) -> str:
    """A checksum of all that the libraries are made of, with the crates of a room if one is given."""
    crates = room or top
    places = [(top, it) for it in ("include", "examples/c/memory", "docs/help/version", "tools/archive.py")]
    places += [(crates, f"crates/{it}/{part}") for it in with_below(crates) for part in ("src", "specs")]
    files = [(it.relative_to(of), it) for of, place in places for it in (of / place, *(of / place).rglob("*"))]
    found = (f"{name} {hashlib.sha256(it.read_bytes()).hexdigest()}\n" for name, it in sorted(files) if it.is_file())
    return hashlib.sha256("".join(found).encode()).hexdigest() + "\n"


def build(room: pathlib.Path, top: pathlib.Path, name: str = "x86_64") -> None:
    """Writes the libraries for a processor, and behind them the checksum of what they are made of: of the
    crates in the room, because those of the repository may have changed since they were copied."""
    processor = PROCESSORS[name]
    to = top / "build" / processor.folder
    to.mkdir(parents=True, exist_ok=True)
    compiler = shlex.split(os.environ.get("CC") or processor.compiler)
    with tempfile.TemporaryDirectory(dir=to, prefix="room.") as made:
        folder = pathlib.Path(made)
        (folder / "sums").write_text(sums(top, room), encoding="utf-8")
        with ThreadPoolExecutor() as pool:
            list(pool.map(lambda it: archive(room, it, processor, folder / f"lib{it.name}.a"), LIBRARIES))
        for library in LIBRARIES:
            if name == "x86_64" or shutil.which(compiler[0]):
                shared(top, library, compiler, folder)
            package(top, library, str(pathlib.PurePosixPath("build") / processor.folder), version_of(top), folder)
        for file in sorted(folder.iterdir(), key=lambda it: it.name == "sums"):
            file.replace(to / file.name)


def is_built(top: pathlib.Path, name: str = "x86_64") -> bool:
    """Whether the libraries for a processor are there, of what they would be made of now."""
    made = top / "build" / PROCESSORS[name].folder / "sums"
    are_there = all((made.parent / f"lib{it.name}.a").is_file() for it in LIBRARIES)
    return are_there and made.is_file() and made.read_text(encoding="utf-8") == sums(top)


def built(top: pathlib.Path, name: str = "x86_64") -> pathlib.Path:
    """The folder of the libraries, which are built first where they aren't there: over what ./check has
    proved in this copy of the repository, or by ./build-c."""
    below = top / "crates/lpt_packet/out/rlib"
    (top / "build").mkdir(exist_ok=True)
    with open(top / "build/lock", "w", encoding="utf-8") as lock:
        fcntl.flock(lock, fcntl.LOCK_EX)
        if not is_built(top, name):
            is_room = (below / "lpt_packet.rlib").is_dir() and not (below / "stamp").exists()
            words = [str(top / "build-c"), *(["--for", name] if name != "x86_64" else [])]
            if is_room:
                words = [sys.executable, __file__, "build", str(top), str(top), name]
            subprocess.run(words, stdout=subprocess.PIPE, stderr=subprocess.STDOUT, check=True)
    return top / "build" / PROCESSORS[name].folder


def main(verb: str, *words: str) -> int:
    """Does what is asked."""
    paths = [pathlib.Path(it).resolve() for it in words[:2]]
    if verb == "copy":
        copy(*paths)
    elif verb == "build":
        build(*paths, *words[2:])
    elif verb == "is_built":
        return not is_built(paths[0], *words[1:])
    return 0


if __name__ == "__main__":
    sys.exit(main(*sys.argv[1:]))
