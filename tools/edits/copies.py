"""Copies functions, so that one run can try several mutants of the same function.

A copy stands behind the function in its file, under another name and with the same promises. Its proof is
that of the function: what is written of it, with the copy's name. A copy calls what the function calls.
"""

from __future__ import annotations

import re

from .crate import Crate, folder_of
from .mutant import Mutant
from .sources import Function, functions_of

COPY = re.compile(r"_tried\d+$")
# What a proof has that fits a copy too.
FITS = {"Answers.antt", "Invariants.antt"}
# A function with this can't be copied.
OWN_NAME = re.compile(r"no_mangle|#\[cycle")


def copy_name(number: int) -> str:
    """What the name of a function's copy of this number adds to its own."""
    return f"_tried{number}"


def real_name(name: str) -> tuple[str, str]:
    """The name of the function that this is or is a copy of, and what a copy adds to it."""
    found = COPY.search(name)
    return (name[: found.start()], found[0]) if found else (name, "")


def can_be_copied(mutant: Mutant) -> bool:
    """Whether a copy of the mutant's function can be mutated in its place: a mutant of one function alone,
    that is no method of a trait and doesn't call itself."""
    if len(mutant.functions) != 1 or not mutant.is_apart:
        return False
    name, crate = next(iter(mutant.functions)), mutant.crate
    folder, (*_, place, short) = crate.folder / folder_of(name), name.split("::")
    text, calls = crate.function(name), rf"(?<!fn )(?<![\w.:]){short}\(|\b(self\.|Self::|{place}::){short}\("
    if not crate.standing[name].is_plain or OWN_NAME.search(text) or re.search(calls, text):
        return False
    return not folder.is_dir() or {it.name for it in folder.iterdir()} <= FITS


def add_copy(mutant: Mutant, texts: dict[str, str]) -> None:
    """Puts the mutant's function, as the mutant has it, behind the function in these texts of files."""
    path, mine = mutant.changes[0].path, {}
    mutant.apply(mine)
    name = next(iter(mutant.functions))
    mutated = standing(mutant.crate, name, path, mine[path])
    lines = mine[path].split("\n")[mutated.first : mutated.last + 1]
    head = mutated.head - mutated.first
    lines[head] = re.sub(r"\bfn \w+", rf"\g<0>{mutant.copy}", lines[head], count=1)
    all_lines = texts[path].split("\n")
    behind = standing(mutant.crate, name, path, texts[path]).last + 1
    all_lines[behind:behind] = ["", *lines]
    texts[path] = "\n".join(all_lines)


def standing(crate: Crate, name: str, path: str, text: str) -> Function:
    """Where a function stands in a text of a file."""
    return next(it for it in functions_of(path, text) if crate.whole(it.name) == name)
