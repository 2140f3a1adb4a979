"""Reads sources in rt fmt's layout: the functions of a file, and where each stands."""

from __future__ import annotations

import pathlib
import re
from dataclasses import dataclass
from typing import Iterator

FUNCTION = re.compile(r"( *)(?:pub(?:\([a-z]+\))? )?(?:const |unsafe |extern \"C\" )*fn (\w+)")
IMPL = re.compile(r"impl(?:<(.*?)>)? (?:(?:\w+::)*(\w+)(?:<(.*)>)? for )?(\w+)")
PARAMETER = re.compile(r"(?:^|, )(\w+)")
TYPE = re.compile(r"^(?:pub(?:\([a-z]+\))? )?(?:struct|enum|union) (\w+)", re.MULTILINE)


@dataclass(frozen=True)
class Function:
    """A function of a file: its name below the crate, and its lines, which are counted from 0."""

    path: str
    indent: str
    name: str
    # Its first comment or attribute; its head with its name; where its body opens; where that ends.
    first: int
    head: int
    opening: int
    last: int
    # It is no `const fn`, and no method of a trait.
    is_plain: bool


def functions_of(path: str, text: str) -> Iterator[Function]:
    """The functions of a file that have a body of some lines."""
    lines, owner, is_own = text.split("\n"), None, True
    for head, line in enumerate(lines):
        impl, function = IMPL.match(line), FUNCTION.match(line)
        if impl:
            owner, is_own = owner_of(impl), not impl[2]
        elif line.startswith("}"):
            owner = None
        if not function or function[1] and owner is None:
            continue
        indent, name = function.groups()
        opening = opening_of(lines, head, indent)
        if lines[opening].endswith("{"):
            # A method goes by its type, in whatever file it stands.
            whole = "::".join([owner, name] if indent else [*module_of(path), name])
            last = lines.index(indent + "}", opening)
            is_plain = "const fn" not in line and (is_own or not indent)
            yield Function(path, indent, whole, first_of(lines, head), head, opening, last, is_plain)


def owner_of(impl: re.Match[str]) -> str:
    """What the methods of an impl go by: its type, or `Any`; its trait, and the unit that this is given."""
    any_type = impl[4] in PARAMETER.findall(impl[1] or "")
    return ("Any" if any_type else impl[4]) + (impl[2] or "") + ("Unit" if impl[3] == "()" else "")


def opening_of(lines: list[str], head: int, indent: str) -> int:
    """The line in which the body opens of a function with this head; or the line that has all of it."""
    opening = head
    while not re.match(rf"{indent}\S.*[{{}}]$|{indent}[{{}}]$", lines[opening]):
        opening += 1
    return opening


def first_of(lines: list[str], head: int) -> int:
    """The first line of the comments and attributes of a function with this head."""
    while head and re.match(r" *//|.*[^ {};]$", lines[head - 1]):
        head -= 1
    return head


def module_of(path: str) -> list[str]:
    """The module that a file is."""
    return [it for it in pathlib.PurePath(path).with_suffix("").parts[1:] if it != "lib"]


def without_bodies(path: str, text: str) -> str:
    """A text of a file without the bodies of its functions."""
    lines = text.split("\n")
    for it in reversed(list(functions_of(path, text))):
        del lines[it.opening + 1 : it.last]
    return "\n".join(lines)


def without_comments(text: str) -> str:
    """A text of sources or of definitions without the lines that are comments."""
    return "\n".join(it for it in text.split("\n") if not re.match(r" *(//|--)", it))


def hush(lines: list[str], function: Function) -> None:
    """Has the prover try no tactics on a function's goals."""
    own = range(function.first, function.head)
    lines[function.head : function.head] = [function.indent + "#[tactic(none)]"]
    for line in [it for it in own if lines[it].startswith(function.indent + "#[tactic(")]:
        lines[line] = function.indent + "//"
