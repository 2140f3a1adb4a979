"""Figures that documents say of the repository, counted anew.

figures.py            prints each, with where it stands
figures.py --write    puts them into the documents

tests/documents wants that each stands where it should, as it is counted here.
"""

import ast
import pathlib
import re
import sys
from typing import NamedTuple

sys.dont_write_bytecode = True
import reading  # noqa: E402: it stands beside

TOP = pathlib.Path(__file__).resolve().parent.parent


class Figure(NamedTuple):
    """A number that a document says: what stands before it, what behind, and how it is counted."""

    document: str
    before: str
    behind: str
    value: int

    def place(self):
        """The number between the two texts, however it is written today."""
        return re.compile(f"({re.escape(self.before)})([0-9,]+)(?={re.escape(self.behind)})")

    def text(self):
        """The number as documents write it."""
        return f"{self.value:,}"

    def said(self):
        """What the document says, each time that the two texts stand there."""
        return [it[2] for it in self.place().finditer((TOP / self.document).read_text(encoding="utf-8"))]

    def write(self):
        """Puts the number into the document."""
        file = TOP / self.document
        text = file.read_text(encoding="utf-8")
        file.write_text(self.place().sub(lambda it: it[1] + self.text(), text), encoding="utf-8")


def specs():
    """All files of definitions."""
    return [it.relative_to(TOP / "crates").with_suffix("") for it in TOP.glob("crates/*/specs/**/*.antt")]


def changed_laws():
    """Of each row of tests/statements that changes something: its crate and law."""
    tree = ast.parse((TOP / "tests" / "statements").read_text(encoding="utf-8"))
    assigned = [it for it in tree.body if isinstance(it, ast.Assign) and isinstance(it.targets[0], ast.Name)]
    rows = next(it.value.elts for it in assigned if it.targets[0].id == "ROWS")
    texts = [[it.value for it in row.elts[:3]] for row in rows]
    return [(crate, law) for crate, law, change in texts if change != "as it is"]


def figures():
    """All figures."""
    read = reading.below([reading.HEADLINE])
    edits = len(list(TOP.glob("crates/*/must-fail/*.edit")))
    changed = changed_laws()
    resets = reading.below(["lpt_c_pair/specs/Resets", "lpt_c_pair/specs/Histories"])
    crates = len(list(TOP.glob("crates/*/src/lib.rt"))) + len(list(TOP.glob("crates/*/src/main.rt")))
    return [
        Figure("docs/ASSURANCE.md", "what the headline says: ", " of the", len(read)),
        Figure("docs/ASSURANCE.md", " of the ", " files in `specs/`", len(specs())),
        Figure("docs/ASSURANCE.md", " files in `specs/`, with ", " lines", sum(len(reading.lines(it)) for it in read)),
        Figure("docs/ASSURANCE.md", "lpt_c_pair/specs/Histories` lists the ", " files", len(resets)),
        Figure("docs/ASSURANCE.md", "- **Changed laws.** ", " rows of `tests/statements`", len(changed)),
        Figure("docs/ASSURANCE.md", "strengthen a claim of ", " laws: ", len(set(changed))),
        Figure("docs/CLAIMS.md", "3. The ", " wrong bodies in `must-fail/`", edits),
        Figure("docs/ARCHITECTURE.md", "The ", " crates stand in layers", crates),
    ]


def main(*words):
    """Prints them, or puts them in."""
    for figure in figures():
        if words == ("--write",):
            figure.write()
        print(f"{figure.document}: {figure.before}{figure.text()}{figure.behind}")


if __name__ == "__main__":
    main(*sys.argv[1:])
