"""The crates of the repository or of a copy of it, and how the prover is asked of one."""

from __future__ import annotations

import pathlib
import re
import shutil
from typing import Iterable

KIT = pathlib.Path(shutil.which("rt") or "rt").resolve().parent.parent


def libraries(room: pathlib.Path) -> dict[str, list[str]]:
    """The libraries that each crate lists in crates.txt, where comments and empty lines may stand between."""
    found = {}
    for line in (room / "crates.txt").read_text(encoding="utf-8").splitlines():
        name, _, listed = line.partition("#")[0].partition(":")
        if name.strip():
            found[name.split()[0]] = listed.split()
    return found


def below(name: str, known: dict[str, list[str]]) -> list[str]:
    """The repository's own libraries below a crate, by name."""
    own = [it for it in known[name] if it in known]
    return sorted({*own, *(it for library in own for it in below(library, known))})


def rlib(room: pathlib.Path, name: str) -> pathlib.Path:
    """The folder in which a room has the library of a crate."""
    return room / "crates" / name / "out/rlib"


def prover(verb: str, name: str, root: str, listed: list[str], room: pathlib.Path) -> list[str]:
    """The prover's words for a crate of this name that lists these libraries of the kit or of a room, in which
    they are built."""
    known = libraries(room)
    own = [it for it in listed if it in known]
    words = [f"{KIT}/bin/rattle", verb, "--crate-name", name, root]
    for it in ["std", *(it for it in listed if it not in known)]:
        words += ["--extern", f"{it}={KIT}/rlibs/{it}.rlib"]
    for it in own:
        words += ["--extern", f"{it}={rlib(room, it)}/{it}.rlib"]
    all_below = sorted({*own, *(it for library in own for it in below(library, known))})
    for folder in [KIT / "rlibs", *(rlib(room, it) for it in all_below)]:
        words += ["-L", f"dependency={folder}"]
    words += ["--antt-project", f"{KIT}/rattle/logic/antt-project.json"]
    return [*words, "--logic-built", f"{KIT}/logic_built", "--links", f"{name}=", "--jobs", "1"]


def sources(room: pathlib.Path, crates: list[str], listed: Iterable[str] = ()) -> list[str]:
    """The words that hand these crates, and the kit's libraries that they or what is compiled list, to the kit as
    sources."""
    known, of_kit, words = libraries(room), ["core", "std", *listed], []
    for crate in crates:
        uses = dict.fromkeys(["core", "std", *known[crate]])
        of_kit += [it for it in known[crate] if it not in known]
        words += ["--lib", f"{crate}:{','.join(uses)}={room}/crates/{crate}/src/lib.rt"]
    of_kit = list(dict.fromkeys(of_kit))
    for name in of_kit:
        uses = re.findall(r"^dep (\w+)$", (KIT / f"rlibs/{name}.rlib/format").read_text("utf-8"), re.M)
        of_kit += [it for it in uses if it not in of_kit]
        words += ["--lib", f"{name}:{','.join(uses)}={KIT}/rattle/{name}/src/lib.rt"]
    return words
