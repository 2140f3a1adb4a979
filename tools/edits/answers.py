"""Reads the answers that are written of a function: its proof's Answers.antt, a text of definitions.

A definition begins in the first column with its name, and has a signature and its clauses. An answer's name
is that of its goal, as in 'pub returns : goal.returns'; other definitions help the answers.
"""

from __future__ import annotations

import re
from typing import Iterable, Optional

# In the first column: what is no definition, and what goes on with the one above.
APART = re.compile(r"(pub )?use |--")
FURTHER = re.compile(r"unfolding |[ })\]]|$")
NAME = re.compile(r"(?:pub |abbrev )*([^\s:=]+)")
# The goal may stand on a line of its own, where both don't fit into one.
ANSWER = re.compile(r"^(?:pub )?\S+ :(?: |\n +)goal\.(\S+)$", re.MULTILINE)
# What may stand in a name.
OF_A_NAME = r"[^\s(){}\[\].,;:=λ→∙]"


def names(text: str) -> list[Optional[str]]:
    """Of each line the name of the definition that has it; None of one that stands apart."""
    found, name = [], None
    for line in text.split("\n"):
        if not FURTHER.match(line):
            name = None if APART.match(line) else NAME.match(line)[1]
        found.append(name)
    return found


def without(text: str, goal: str) -> str:
    """The text without the answer of a goal."""
    lines = zip(text.split("\n"), names(text))
    return "\n".join(line for line, name in lines if name != goal)


def alone(text: str, goal: str) -> str:
    """The text with the answer of this goal alone, and what that cites."""
    lines = list(zip(text.split("\n"), names(text)))
    needed, before = {goal}, set()
    while before != needed:
        before = set(needed)
        own = "\n".join(line for line, name in lines if name in needed)
        needed |= {it for _, it in lines if it and citing([it]).search(own)}
    return "\n".join(line for line, name in lines if name is None or name in needed)


def citing(cited: Iterable[str]) -> re.Pattern[str]:
    """What cites one of these names."""
    words = "|".join(map(re.escape, cited))
    return re.compile(rf"(?<!{OF_A_NAME})(?<!\.)(?:{words})(?!{OF_A_NAME})")


def resting_on(text: str, name: str) -> list[str]:
    """The goals whose answers have this name, cite it, or cite a definition that does, in their order."""
    found, before = {name}, set()
    while before != found:
        before = set(found)
        cites = citing(found)
        found |= {it for line, it in zip(text.split("\n"), names(text)) if it and cites.search(line)}
    return [it for it in ANSWER.findall(text) if it in found]


def renamed(text: str, name: str, copy: str) -> str:
    """The text of a function's proof as that of a copy of it."""
    module = ".".join(["proofs", *name.split("::")[1:]])
    return re.sub(rf"\b{re.escape(module)}(?=\.)", module + copy, text)
