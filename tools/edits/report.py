"""What the prover reports of a run of mutants, and the verdict that this is on each.

It says in a line of each function whether it is proved, and in a note with a place in the sources which goal
is open there: no answer is written of it, and no tactic showed it. A definition in a file of answers that
doesn't fit is an error there.
"""

from __future__ import annotations

import re
from dataclasses import dataclass
from typing import Iterable, Mapping, Optional

from . import answers
from .crate import folder_of
from .mutant import UNASKED, Mutant

LONGEST_REASON = 160

# A function's line, and how it begins where nothing but its goals and what it stands on is amiss.
STATE = re.compile(r"fn (\S+): (.*)")
PLAIN = re.compile(r"(no holes|depends on a hole|not proved)\b")
# A goal that is open.
OPEN = re.compile(r"note: (\S+?):(\d+):\d+: (?:it is not|`search` found no) .*?\(`([^`]+)`\)(?:;|$)")
# What the compiler doesn't take.
UNREAD = re.compile(r"(src/\S+?):(\d+):\d+: (error.*)")
# What is wrong in a file of a proof, and what of that only misses a name.
WRONG = re.compile(r"\./(proofs/\S+)/(\w+\.antt):(\d+):\d+: error: (.*)")
GONE = re.compile(r"has no |is not in scope|was not admitted|nearest: |can be named|one of its constructors")

# By a function's whole name: its file, and its lines there.
Places = Mapping[str, "tuple[str, range]"]


@dataclass(frozen=True)
class Verdict:
    """Whether a mutant is refused, what to say of it, and whether an earlier run on this machine has found that."""

    is_refused: bool
    reason: str
    is_kept: bool = False


@dataclass(frozen=True)
class Findings:
    """What was found of a function: the goals that refuse the mutant, those whose answers don't fit, and what
    else is amiss."""

    refused: list[str]
    unfit: list[str]
    amiss: list[str]


@dataclass(frozen=True)
class Wrong:
    """What is wrong in a file of a function's proof, and in which line."""

    file: str
    line: int
    what: str


class Report:
    """What the prover said of a run, in which functions stood in these lines of files: of each function its
    line, its open goals, and what is wrong in it and in the files of its proof."""

    def __init__(self, lines: list[str], places: Places) -> None:
        self.end = next((it for it in lines if "error" in it), lines[-1] if lines else "nothing")
        self.states: dict[str, str] = {}
        self.wrong: dict[str, list[Wrong]] = {}
        self.open: dict[str, list[str]] = {it: [] for it in places}
        self.unread: dict[str, list[str]] = {it: [] for it in places}
        for line in lines:
            self.take(line, places)

    def take(self, line: str, places: Places) -> None:
        """Takes what one line says."""
        state, wrong = STATE.match(line), WRONG.match(line)
        if state:
            self.states[state[1]] = state[2]
        for pattern, found in ((OPEN, self.open), (UNREAD, self.unread)):
            place = pattern.match(line)
            for name, (path, its_lines) in places.items() if place else ():
                if path == place[1] and int(place[2]) in its_lines:
                    found[name].append(place[3])
        if wrong and f"`{UNASKED}`" not in wrong[4]:
            self.wrong.setdefault(wrong[1], []).append(Wrong(wrong[2], int(wrong[3]), wrong[4]))

    def verdict(self, mutant: Mutant, is_shared: bool) -> Optional[Verdict]:
        """The verdict on a mutant; None where it is to be tried again."""
        names = [it for it in mutant.functions if it + mutant.copy in self.states]
        found = {it: self.findings(it, mutant) for it in names}
        if mutant.noted:
            return self.verdict_as_noted(mutant, found.values())
        refused = [goal for it in found.values() for goal in it.refused]
        mutant.open = mutant.shown(refused)
        if mutant.open:
            return Verdict(True, f"refused, as it must be: `{mutant.open}` is not proved")
        unfit = [(name, goal) for name, it in found.items() for goal in it.unfit]
        showing = [it for it in unfit if mutant.shown([it[1]])]
        if mutant.put_aside(showing) or not refused and mutant.put_aside(unfit):
            return None
        if refused:
            wanted = f"no goal of `{mutant.clause}` is open" if mutant.clause else "no clause is named"
            return Verdict(False, f"SHOWS NOTHING: {wanted}, but {', '.join(refused)}"[:LONGEST_REASON])
        unread = [it for name in mutant.tried() for it in self.unread.get(name, [])]
        if unread:
            return Verdict(False, f"BAD EDIT: {unread[0][:LONGEST_REASON]}")
        # Another mutant of the run may keep the prover from it.
        if is_shared:
            mutant.is_alone = not any(self.unread.values())
            return None
        if not names:
            return Verdict(False, f"BAD EDIT: it did not reach the prover: {self.end[:LONGEST_REASON]}")
        amiss = [what for it in found.values() for what in it.amiss]
        amiss += [it for it in (self.states[it + mutant.copy] for it in names) if not PLAIN.match(it)]
        if amiss:
            return Verdict(False, f"UNDECIDED: {amiss[0][:LONGEST_REASON]}")
        return Verdict(False, f"NOT REFUSED: no goal is left open of {', '.join(names)}")

    def verdict_as_noted(self, mutant: Mutant, found: Iterable[Findings]) -> Optional[Verdict]:
        """The same of a mutant whose edit says which goal was open before; where that isn't so any more, it
        is to be tried again as one that says none."""
        states = [it for it in (self.states.get(name, "") for name in mutant.tried()) if PLAIN.match(it)]
        if states and any(mutant.noted in it.unfit for it in found):
            return Verdict(True, f"refused, as it must be: `{mutant.noted}` is not proved, as before")
        # Another mutant may be what the compiler doesn't take.
        if any(self.unread.get(it) for it in mutant.tried()) or not any(self.unread.values()):
            mutant.noted = None
        return None

    def findings(self, name: str, mutant: Mutant) -> Findings:
        """What was found of a function that is mutated."""
        text, goal_aside, tried = mutant.answers(name), mutant.goal_aside(name), name + mutant.copy
        unfit, gone, amiss, owners = [], [], [], answers.names(text)
        for it in self.wrong.get(folder_of(tried), []):
            owner = owners[it.line - 1] if it.file == "Answers.antt" and it.line <= len(owners) else None
            if owner and not GONE.search(it.what):
                unfit += answers.resting_on(text, owner)
            else:
                gone += answers.resting_on(text, owner) if owner else [None]
                amiss.append(it.what)
        # An answer that names what is gone says nothing of its goal, which may go by another name now.
        lost = {it and kind_of(it) for it in gone}
        sure = [it for it in self.open[tried] if it == goal_aside or not {None, kind_of(it)} & lost]
        return Findings(sure, [it for it in unfit if it not in gone], amiss)


def kind_of(goal: str) -> tuple[str, str]:
    """What a goal is about, in whatever branch it stands: a mutant may change the branch's name."""
    return goal.partition("-")[0], goal.partition("-clause-")[2]
