"""A crate of the room: its sources, its definitions and its proofs as they stand."""

from __future__ import annotations

import functools
import json
import pathlib
from dataclasses import dataclass
from typing import Iterator, Optional

from crates import rlib

from .sources import TYPE, Function, functions_of, module_of, without_bodies


@dataclass(eq=False)
class Crate:
    """A crate of the room, with what each crate of the room stands on."""

    room: pathlib.Path
    name: str
    libraries: dict[str, list[str]]

    @property
    def folder(self) -> pathlib.Path:
        """Where it stands."""
        return self.room / "crates" / self.name

    @functools.cached_property
    def paths(self) -> list[str]:
        """Its sources."""
        return sorted(str(it.relative_to(self.folder)) for it in self.folder.glob("src/**/*.rt"))

    @functools.cached_property
    def known(self) -> list[str]:
        """The whole names of its functions."""
        return list(self.functions())

    def functions(self) -> Iterator[str]:
        """The whole names of its functions; of a static library, which keeps no list of them, as its files
        have them."""
        code = rlib(self.room, self.name) / f"{self.name}.rlib/toolchain/mir.json"
        if code.exists():
            names = [name for name, _ in json.loads(code.read_text(encoding="utf-8"))]
            yield from (it for it in names if it.startswith(f"{self.name}::"))
            return
        places = {name: module_of(path) for path in self.paths for name in TYPE.findall(self.text(path))}
        for it in self.written():
            place = places.get(it.name.partition("::")[0], [])
            yield "::".join([self.name, *place, it.name])

    def written(self) -> Iterator[Function]:
        """The functions of its files."""
        return (it for path in self.paths for it in functions_of(path, self.text(path)))

    def text(self, path: str) -> str:
        """The text of a file as it stands."""
        return (self.folder / path).read_text(encoding="utf-8")

    def function(self, name: str) -> str:
        """The text of a function as it stands."""
        it = self.standing.get(name)
        return "\n".join(self.text(it.path).split("\n")[it.first : it.last]) if it else ""

    def answers(self, name: str) -> str:
        """The answers that are written of a function."""
        file = self.folder / folder_of(name) / "Answers.antt"
        return file.read_text(encoding="utf-8") if file.exists() else ""

    def proof(self, name: str) -> str:
        """All that is written of a function's proof."""
        files = sorted((self.folder / folder_of(name)).glob("*.antt"))
        return "\n".join(it.read_text(encoding="utf-8") for it in files)

    @functools.cached_property
    def standing(self) -> dict[Optional[str], Function]:
        """Where each of its functions stands, by its whole name."""
        return {self.whole(it.name): it for it in reversed(list(self.written()))}

    @functools.cached_property
    def promised(self) -> str:
        """All that it defines and promises: its definitions, and its sources without bodies."""
        specs = [it.read_text(encoding="utf-8") for it in sorted(self.folder.glob("specs/**/*.antt"))]
        return "\n".join(specs + [without_bodies(path, self.text(path)) for path in self.paths])

    def whole(self, name: str) -> Optional[str]:
        """A function's whole name; None where there isn't one such function."""
        found = [it for it in self.known if it.endswith(f"::{name}")]
        own = [it for it in found if it == f"{self.name}::{name}"] or found
        return own[0] if len(own) == 1 else None


def folder_of(function: str) -> str:
    """The folder of a function's proof, by its whole name."""
    return f"proofs/{function.partition('::')[2].replace('::', '/')}"
