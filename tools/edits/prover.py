"""Runs the prover on mutants of a crate, over the room's libraries."""

from __future__ import annotations

import pathlib
import shutil
import subprocess
import tempfile
from typing import Iterator, Optional

from crates import prover

from .copies import real_name
from .crate import Crate
from .mutant import Mutant
from .report import Report
from .sources import functions_of, hush

PARTS = ["src", "specs", "proofs"]

# A function that is taken by its contract.
NO_BODY = "loop {}"
NO_PROOF = """use Rattle.{module}.Statement.{{statement}}

pub {name}_spec : {{M : Type 1}} → statement M
{name}_spec = ?
"""


class Prover:
    """The prover as it is asked of one crate."""

    def __init__(self, crate: Crate) -> None:
        self.crate = crate
        root = "src/main.rt" if (crate.folder / "src/main.rt").exists() else "src/lib.rt"
        self.words = prover("check", crate.name, root, crate.libraries[crate.name], crate.room)
        self.words += ["--allow-holes"]

    def run(self, mutants: list[Mutant], texts: dict[str, str], kept: str) -> Report:
        """What the prover says of these mutants, where files have these texts. What it has proved is kept in
        a folder for the next run."""
        # By this name of the folder tools/costs.py knows whose work it is.
        with tempfile.TemporaryDirectory(prefix="lpt-edit-") as name:
            folder = pathlib.Path(name)
            for part in PARTS:
                if (self.crate.folder / part).is_dir():
                    shutil.copytree(self.crate.folder / part, folder / part)
            for path, text in texts.items():
                (folder / path).write_text(text, encoding="utf-8")
            functions = {it for mutant in mutants for it in mutant.tried()}
            hushed = {it for mutant in mutants if mutant.noted for it in mutant.tried()}
            places = dict(self.cut(folder, functions, hushed))
            for mutant in mutants:
                mutant.write_answers(folder)
            only = [word for it in sorted(functions) for word in ("--only", it.partition("::")[2])]
            ran = subprocess.run(
                [*self.words, "--incremental", kept, *only],
                cwd=folder,
                stdin=subprocess.DEVNULL,
                stdout=subprocess.PIPE,
                stderr=subprocess.STDOUT,
                errors="replace",
                check=False,
            )
        return Report(ran.stdout.splitlines(), places)

    def cut(
        self, folder: pathlib.Path, mutated: set[str], hushed: set[str]
    ) -> Iterator[tuple[str, tuple[str, range]]]:
        """Takes by its contract what this copy has of functions besides these, but for methods of a trait,
        whose theorems have another form, and has no tactics tried on those that are hushed; gives the file
        and the lines of each that is mutated."""
        for file in folder.glob("src/**/*.rt"):
            path, text = str(file.relative_to(folder)), file.read_text(encoding="utf-8")
            lines = text.split("\n")
            for it in reversed(list(functions_of(path, text))):
                whole = self.tried(it.name)
                if it.is_plain and whole and whole not in mutated:
                    lines[it.opening + 1 : it.last] = [NO_BODY]
                    cut_proof(folder, whole.split("::"))
                elif whole in hushed:
                    hush(lines, it)
            text = "\n".join(lines)
            file.write_text(text, encoding="utf-8")
            for it in functions_of(path, text):
                whole = self.tried(it.name)
                if whole in mutated:
                    yield whole, (path, range(it.first + 1, it.last + 2))

    def tried(self, name: str) -> Optional[str]:
        """The whole name of a function or of a copy of one; None where there isn't one such function."""
        real, copy = real_name(name)
        whole = self.crate.whole(real)
        return whole and whole + copy


def cut_proof(folder: pathlib.Path, path: list[str]) -> None:
    """Puts a hole in the place of a function's proof."""
    proof = folder.joinpath("proofs", *path[1:])
    shutil.rmtree(proof, ignore_errors=True)
    proof.mkdir(parents=True)
    text = NO_PROOF.format(module=".".join([path[0], "proofs", *path[1:]]), name=path[-1])
    (proof / "Proof.antt").write_text(text, encoding="utf-8")
