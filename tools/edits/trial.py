"""Tries the edits of a crate, as many in one run of the prover as can be."""

from __future__ import annotations

import enum
import pathlib
import tempfile
from typing import Optional

from .copies import add_copy, can_be_copied, copy_name
from .crate import Crate
from .kept import Kept
from .mutant import BadEdit, Mutant
from .prover import Prover
from .report import Verdict


class How(enum.Enum):
    """Which edits are tried, and whether the goals that were open are written down."""

    # What is kept isn't tried, and of the rest the goals of their lines 'goal:' that fit alone.
    AS_NOTED = "--as-noted"
    # The same, but what has no line that fits is tried even if it is kept, and the line is written.
    NOTE = "--note"
    # All of them, by all their goals, and each line is written.
    ANEW = "--anew"

    @property
    def writes(self) -> bool:
        """Whether lines 'goal:' are written."""
        return self is not How.AS_NOTED


def verdicts(
    crate: Crate, folder: pathlib.Path, how: How = How.AS_NOTED, store: Optional[pathlib.Path] = None
) -> list[tuple[str, Verdict]]:
    """Tries the edits of a crate that stand in a folder: the name of each, and the verdict on it. Which were
    refused is kept in a store, if there is one, and what is kept there isn't tried again."""
    kept = Kept(crate, store)
    left, told = mutants_of(crate, folder, kept, how)
    prover = Prover(crate)
    with tempfile.TemporaryDirectory(prefix="lpt-edits-") as work:
        while left:
            mutants, texts = at_once(left)
            report = prover.run(mutants, texts, work)
            for mutant in mutants:
                verdict = report.verdict(mutant, len(mutants) > 1)
                if verdict:
                    if how.writes and verdict.is_refused and mutant.open:
                        mutant.note()
                    if verdict.is_refused:
                        kept.keep(mutant.text, verdict.reason)
                    told.append((mutant.name, verdict))
                    left.remove(mutant)
    return told


def mutants_of(
    crate: Crate, folder: pathlib.Path, kept: Kept, how: How
) -> tuple[list[Mutant], list[tuple[str, Verdict]]]:
    """The mutants that the edits of a folder make, and the verdicts on those that are kept or can't be tried."""
    mutants, told = [], []
    for file in sorted(folder.iterdir()):
        name = f"{crate.name}/{file.name}"
        try:
            reason = kept.reason((file.name, file.read_text(encoding="utf-8"))) if how is not How.ANEW else None
            mutant = None if reason and not how.writes else Mutant.of(crate, file)
            if reason and (not mutant or mutant.noted):
                told.append((name, Verdict(True, reason, True)))
            elif mutant:
                mutant.noted = None if how is How.ANEW else mutant.noted
                mutants.append(mutant)
        except (BadEdit, OSError, ValueError) as error:
            told.append((name, Verdict(False, f"BAD EDIT: {error}")))
    return mutants, told


def at_once(left: list[Mutant]) -> tuple[list[Mutant], dict[str, str]]:
    """Those that one run can try, the first among them, and the texts of files with all of them. Where a
    function is mutated by one of them, the next one mutates a copy of it."""
    first, chosen, functions, texts = left[0], [], [], {}
    for mutant in left[:1] if first.is_alone else left:
        mutant.copy = ""
        if mutant.is_alone != first.is_alone:
            continue
        before = max(functions.count(it) for it in mutant.functions)
        if before and can_be_copied(mutant):
            mutant.copy = copy_name(before + 1)
        if mutant.copy or not before and mutant.apply(texts):
            chosen.append(mutant)
            functions += mutant.functions
    for mutant in chosen:
        if mutant.copy:
            add_copy(mutant, texts)
    return chosen, texts
