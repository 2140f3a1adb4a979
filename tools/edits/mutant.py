"""Reads the must-fail edits, and makes of each the mutant that the prover is to refuse."""

from __future__ import annotations

import hashlib
import pathlib
import re
from dataclasses import dataclass, field
from typing import Iterable, Optional

from .answers import ANSWER, alone, renamed, without
from .crate import Crate, folder_of
from .sources import functions_of, without_comments

# A goal that no function has. Where an answer is wrong, the prover doesn't write down what it would have one
# write for the goals that are open, which takes a fifth of its time. So each mutant has a wrong answer to it.
UNASKED = "asked-by-none"
WRONG_ANSWER = f"\n{UNASKED} : goal.{UNASKED}\n{UNASKED} = ?\n"
# How a file of answers begins.
ANSWERS = "use Rattle.{module}.Goals as goal\n"
# What tries a goal that was open before, where no answer of it is written. So few steps are enough to see it open
# again: `--anew`, which an edit's mark comes from, tries it with all that Rattle has.
QUICK = """use Rattle.std.proofs.Common.{{arith, rules}}
use Rattle.std.proofs.lemmas.Grind.{{common_steps}}

pub {goal} : goal.{goal}
{goal} = first_of (search rules steps 40000, grind (arith, common_steps) steps 40000)
"""
# Goals that may be open beside an edit's fault: a condition of what is called, a sum or an index out of range, a
# place that isn't reached; a way on which an error is handed on; what holds of all values of a type. The last
# two may even be true of the turned body.
BESIDE = re.compile(
    r"[\w-]*?\brequires\b|overflow_|slice_bounds|index_bounds|unreachable|.*-in_err\b|.*-in-Err\b|invariant_of-"
)
# A clause that says something of errors alone, so it is open only on a way to one.
OF_ERRORS = r"ensures {} {{\s+(?:IfErr|OnErr)\b"
FILE_NAME = re.compile(r"[A-Za-z0-9_-][A-Za-z0-9_.-]*\.edit")


class BadEdit(Exception):
    """An edit that can't be tried."""


@dataclass(frozen=True)
class Change:
    """A text that stands once in a file, and what comes in its place. Marks are made of how it is printed."""

    path: str
    old: str
    new: str


@dataclass(frozen=True)
class Written:
    """What an edit's file says."""

    # All that stands there.
    text: str
    changes: list[Change]
    # The functions that are to refuse it, where it names them.
    refused: list[str]
    # What a goal's name has in it, where the edit says which goal is to be open.
    clause: list[str]
    # The goal that was open, and a mark.
    goal: list[str]


def read(file: pathlib.Path) -> Written:
    """Reads an edit's file."""
    if not FILE_NAME.fullmatch(file.name):
        raise BadEdit("its name is none of an edit")
    path, old, said = "", "", Written(file.read_text(encoding="utf-8"), [], [], [], [])
    for line in said.text.split("\n"):
        word, _, rest = line.partition(":")
        if word == "file":
            path = rest.strip()
        elif word == "old":
            old = rest.removeprefix(" ")
        elif word == "new":
            said.changes.append(Change(path, old, rest.removeprefix(" ")))
        elif word == "refused":
            said.refused.append(rest.strip())
        elif word == "clause":
            said.clause.append(rest.strip())
        elif word == "goal":
            said.goal[:] = rest.split()
    return said


@dataclass(eq=False)
class Mutant:
    """What an edit makes of a crate: its changes, and the functions that it mutates."""

    crate: Crate
    file: pathlib.Path
    changes: list[Change]
    functions: set[str]
    # It can't share a run with others; each change stands in one function.
    is_alone: bool
    is_apart: bool
    # What the name of the goal that is to be open has in it, where the edit says that.
    clause: Optional[str] = None
    # The goal that was open before, where the edit says so and the mark is still that of the texts.
    noted: Optional[str] = None
    # The function and the goal of it whose answer is put aside, and those that were before.
    aside: Optional[tuple[str, str]] = None
    were_aside: set[tuple[str, str]] = field(default_factory=set)
    # The goal that was found to be open.
    open: Optional[str] = None
    # What the name of a copy adds to the function's, where one is mutated in its place (copies.py).
    copy: str = ""
    # What stood in its file when it was read: that is tried, whatever stands there by now.
    written: str = ""

    @classmethod
    def of(cls, crate: Crate, file: pathlib.Path) -> Mutant:
        """The mutant that an edit's file makes."""
        said = read(file)
        mutant = cls(crate, file, said.changes, set(), bool(said.refused), True, written=said.text)
        mutant.functions.update(map(mutant.whole, said.refused))
        texts: dict[str, str] = {}
        for change in said.changes:
            places = mutant.places(change, texts)
            mutant.is_apart = mutant.is_apart and len(places) == 1
            mutant.functions.update([] if said.refused else map(mutant.whole, places))
        if not mutant.functions:
            raise BadEdit("it turns no function: a line 'refused: NAME' is missing")
        mutant.clause = said.clause[0] if said.clause else None
        if said.goal[1:] == [mutant.mark()] and mutant.shown(said.goal[:1]):
            mutant.noted = said.goal[0]
        return mutant

    def shown(self, goals: list[str]) -> Optional[str]:
        """The first of these open goals that shows the edit's fault: of the clause that it names or, where it
        names none, one that can't be open beside it."""
        if self.clause:
            return next((it for it in goals if self.clause in it), None)
        return next((it for it in goals if not BESIDE.match(it) and not self.is_of_errors(it)), None)

    def is_of_errors(self, goal: str) -> bool:
        """Whether a goal is of a clause of its functions that says something of errors alone."""
        said = re.compile(OF_ERRORS.format(re.escape(goal.rpartition("-clause-")[2])))
        return any(said.search(self.crate.function(it)) for it in self.functions)

    @property
    def name(self) -> str:
        """How it is called where it is told of."""
        return f"{self.crate.name}/{self.file.name}"

    @property
    def text(self) -> tuple[str, str]:
        """Its file's name, and what stood there when it was read, or was noted since."""
        return self.file.name, self.written

    def mark(self) -> str:
        """The mark of what it changes, of its functions and of what is written of their proofs, and of all
        that the crate defines and promises."""
        names = sorted(self.functions)
        said = [*map(self.crate.function, names), *map(self.crate.proof, names), self.crate.promised]
        texts = [str(self.changes), *map(without_comments, said)]
        return hashlib.sha256("\n".join(texts).encode()).hexdigest()[:8]

    def note(self) -> None:
        """Writes down in its file which goal was open, unless something else stands there by now."""
        if self.file.read_text(encoding="utf-8") != self.written:
            return
        lines = [it for it in self.written.splitlines() if not it.startswith("goal:")]
        lines.append(f"goal: {self.open} {self.mark()}")
        self.written = "\n".join(lines) + "\n"
        self.file.write_text(self.written, encoding="utf-8")

    def whole(self, name: str) -> str:
        """The whole name of a function."""
        found = self.crate.whole(name)
        if not found:
            raise BadEdit(f"the crate has no function {name}, or several")
        return found

    def places(self, change: Change, texts: dict[str, str]) -> list[str]:
        """Makes a change in these texts of files, and gives the functions in whose bodies it stands."""
        if not change.path.startswith("src/"):
            raise BadEdit(f"{change.path} is no source: that it no longer fits shows nothing")
        text = texts.get(change.path) or self.crate.text(change.path)
        count = text.count(change.old)
        if count != 1:
            raise BadEdit(f"an 'old:' text is in {change.path} {count} times, and not once")
        texts[change.path] = text.replace(change.old, change.new)
        line = text[: text.index(change.old)].count("\n")
        found = [it for it in functions_of(change.path, text) if it.head <= line < it.last]
        if any(line <= it.opening for it in found):
            raise BadEdit(f"it changes what {found[0].name} promises, and not what it does")
        return [it.name for it in found]

    def apply(self, texts: dict[str, str]) -> bool:
        """Makes its changes in these texts of files, where each fits; whether they do."""
        mine = dict(texts)
        try:
            for change in self.changes:
                self.places(change, mine)
        except BadEdit:
            return False
        texts.update(mine)
        return True

    def put_aside(self, goals: Iterable[tuple[str, str]]) -> bool:
        """Puts the answer of the first of these goals aside, each with its function, that wasn't before;
        whether there is one."""
        left = [it for it in goals if it not in self.were_aside]
        if left:
            self.aside = left[0]
            self.were_aside.add(left[0])
        return bool(left)

    def goal_aside(self, name: str) -> Optional[str]:
        """The goal of a function whose answer is put aside."""
        return self.aside[1] if self.aside and self.aside[0] == name else None

    def tried(self) -> set[str]:
        """Its functions, as they are named where it is tried."""
        return {it + self.copy for it in self.functions}

    def answers(self, name: str) -> str:
        """The answers of a function as they are tried: without one that is put aside, or that alone of the
        goal that was open before."""
        text, goal, tried = self.crate.answers(name), self.goal_aside(name), name + self.copy
        head = ANSWERS.format(module=".".join([self.crate.name, "proofs", *tried.split("::")[1:]]))
        if self.noted and self.noted not in ANSWER.findall(text):
            return head + QUICK.format(goal=self.noted)
        if self.noted or goal:
            text = alone(text, self.noted) if self.noted else without(text, goal)
        return renamed(text, name, self.copy) or head

    def write_answers(self, folder: pathlib.Path) -> None:
        """Writes the answers of its functions into the folder in which it is tried."""
        for it in self.functions:
            proof = folder / folder_of(it + self.copy)
            if not (proof / "Proof.antt").exists():
                proof.mkdir(parents=True, exist_ok=True)
                given = self.crate.folder / folder_of(it) / "Invariants.antt"
                if self.copy and given.exists():
                    text = renamed(given.read_text(encoding="utf-8"), it, self.copy)
                    (proof / given.name).write_text(text, encoding="utf-8")
                text = self.answers(it) + WRONG_ANSWER
                (proof / "Answers.antt").write_text(text, encoding="utf-8")
