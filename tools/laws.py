"""Copies a law of a crate beside itself, with a definition changed, so that one run of the prover tries many.

A law stands in src/laws.rt, or in another file src/laws_*.rt, with an empty body, its statement in specs/, its proof in proofs/. A copy under a name of
its own has all that lies between the law and the changed file: the law, its answers, and each file of specs/ and
proofs/ that names the changed one, itself or through others. All else is shared with the crate as it stands.
"""

from __future__ import annotations

import pathlib
import re
from dataclasses import dataclass, field
from typing import Iterator, Optional

# What a file of the crate imports of the crate: a module of its specs/ or proofs/.
OWN = r"\bRattle\.{}\.((?:specs|proofs)(?:\.\w+)+)"
SUFFIX = "Row"


@dataclass
class Laws:
    """The laws of a crate in a folder, and which of its files name which."""

    crate: str
    folder: pathlib.Path
    # The text of each file of specs/ and proofs/, by its module, as specs.Whole.
    texts: dict[str, str] = field(default_factory=dict)

    def __post_init__(self) -> None:
        self.own = re.compile(OWN.format(self.crate))
        for part in ["specs", "proofs"]:
            for path in sorted((self.folder / part).glob("**/*.antt")):
                self.texts[module_of(path, self.folder)] = path.read_text(encoding="utf-8")
        self.lines = {it: path.read_text(encoding="utf-8").split("\n") for it, path in files_of_laws(self.folder).items()}

    def imports(self, text: str) -> set[str]:
        """The files of specs/ and proofs/ that a text names."""
        found = set()
        for name in self.own.findall(text):
            # A name goes on with what stands in the module.
            words = name.split(".")
            found.update(it for it in (".".join(words[:n]) for n in range(2, len(words) + 1)) if it in self.texts)
        return found

    def answers(self, law: str) -> list[str]:
        """The files of a law's own proof."""
        return [it for it in self.texts if it.startswith(f"proofs.{module_with(self.folder, law)}.{law}.")]

    def place_of(self, law: str) -> tuple[int, int]:
        """The lines of a law in its file, with its comments and attributes."""
        lines = self.lines[module_with(self.folder, law)]
        head = next(at for at, it in enumerate(lines) if re.match(rf"pub fn {law}\b", it))
        first, last = head, head
        while first and re.match(r"//|#\[", lines[first - 1]):
            first -= 1
        # Its body is empty, or calls other laws.
        while not re.search(r"(^\}|\{\})$", lines[last]):
            last += 1
        return first, last + 1

    def text_of(self, law: str) -> str:
        """A law, with its comments and attributes."""
        return "\n".join(self.lines[module_with(self.folder, law)][slice(*self.place_of(law))])

    def head(self, law: str) -> str:
        """What stands in the law's file before the first law: its imports."""
        lines = self.lines[module_with(self.folder, law)]
        first = min(at for at, it in enumerate(lines) if re.match(r"///|#\[|pub fn ", it))
        return "\n".join(lines[:first])

    def between(self, law: str, changed: str) -> Optional[set[str]]:
        """The files between a law and the file that is changed, with both ends; None where the law's statement
        doesn't name it, itself or through others."""
        named = {it: self.imports(text) for it, text in self.texts.items()}
        used = self.text_of(law)
        heads = [it for it in self.head(law).split("\n") if names_in(it) & words_in(used)]
        stated = reached(self.imports("\n".join(heads)), named)
        if changed not in stated:
            return None
        all_of = stated | reached(set(self.answers(law)), named)
        return {it for it in all_of if changed in reached({it}, named)} | set(self.answers(law))

    def copy(self, law: str, number: int, changed: str, text: str) -> bool:
        """Writes a copy of a law, under this number, in which a file of specs/ has this text. False where the law
        doesn't rest on that file."""
        files = self.between(law, changed)
        if files is None:
            return False
        row = f"{SUFFIX}{number}"
        room, own = f"laws_row{number}", f"proofs.{module_with(self.folder, law)}."

        def renamed(it: str) -> str:
            if it.startswith(own):
                return it.replace(own, f"proofs.{room}.", 1)
            return it + row

        names = sorted(files, key=len, reverse=True)
        pattern = re.compile(
            rf"\bRattle\.{self.crate}\.({'|'.join(map(re.escape, names))}|{re.escape(own)}{law})(?!\w)"
        )

        paths = re.compile(rf"\bcrate::({'|'.join(it.replace('.', '::') for it in names)})::")

        def told(text: str) -> str:
            text = pattern.sub(lambda it: f"Rattle.{self.crate}.{renamed(it[1])}", text)
            return paths.sub(lambda it: f"crate::{renamed(it[1].replace('::', '.')).replace('.', '::')}::", text)

        # The generated modules of a law's proof go by the law's own name.
        for it in files:
            path = path_of(renamed(it), self.folder)
            path.parent.mkdir(parents=True, exist_ok=True)
            path.write_text(told(text if it == changed else self.texts[it]), encoding="utf-8")
            if not it.startswith(own):
                self.declare(it, renamed(it))
        (self.folder / f"src/{room}.rt").write_text(
            told(self.head(law)) + "\n" + told(self.text_of(law)) + "\n", encoding="utf-8"
        )
        root = self.folder / "src/lib.rt"
        root.write_text(root.read_text(encoding="utf-8").rstrip("\n") + f"\npub mod {room};\n", encoding="utf-8")
        return True

    def declare(self, module: str, copied: str) -> None:
        """Names a copied file where the file itself is named."""
        folder, _, name = module.rpartition(".")
        lib = self.folder / folder.replace(".", "/") / "Lib.antt"
        text = lib.read_text(encoding="utf-8")
        line = re.search(rf"^((?:pub )?mod ){name}$", text, re.MULTILINE)
        lib.write_text(text.rstrip("\n") + f"\n{line[1]}{copied.rpartition('.')[2]}\n", encoding="utf-8")


def files_of_laws(folder: pathlib.Path) -> dict[str, pathlib.Path]:
    """The files of a crate's laws, by module."""
    return {it.stem: it for it in sorted((folder / "src").glob("laws*.rt"))}


def module_with(folder: pathlib.Path, law: str) -> str:
    """The module of a crate in which a law stands."""
    head = re.compile(rf"^pub fn {law}\b", re.MULTILINE)
    return next(it for it, path in files_of_laws(folder).items() if head.search(path.read_text(encoding="utf-8")))


def module_of(path: pathlib.Path, folder: pathlib.Path) -> str:
    """The module that a file of specs/ or proofs/ is, below its crate."""
    return ".".join(path.relative_to(folder).with_suffix("").parts)


def path_of(module: str, folder: pathlib.Path) -> pathlib.Path:
    """The file of a module."""
    return (folder / module.replace(".", "/")).with_suffix(".antt")


def reached(names: set[str], named: dict[str, set[str]]) -> set[str]:
    """These files, and all that they name, themselves or through others."""
    found: set[str] = set()
    left = list(names)
    while left:
        it = left.pop()
        if it not in found:
            found.add(it)
            left += named.get(it, ())
    return found


def words_in(text: str) -> set[str]:
    """The words of a text."""
    return set(re.findall(r"\w+", text))


def names_in(line: str) -> set[str]:
    """The names that an import brings in."""
    listed = re.search(r"\{(.*)\}", line)
    if listed:
        return words_in(listed[1])
    return words_in(line.rpartition(" as ")[2] if " as " in line else line.rpartition(".")[2])


def rows_named(text: str) -> Iterator[int]:
    """The numbers of the copies that a line of the prover names."""
    for it in re.finditer(rf"{SUFFIX}(\d+)\b|laws_row(\d+)\b", text):
        yield int(it[1] or it[2])
