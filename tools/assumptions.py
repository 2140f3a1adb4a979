#!/usr/bin/env python3
"""What the theorems assume that README's promise cites, as one list, and what some other laws assume
besides: `tools/assumptions.py` prints each assumption with the definition where it stands, and behind
them what the premises themselves say.

An assumption stands in the comment above the definition that states it, behind `Assumed:`, as one
sentence. Those of a theorem are the ones above the definitions that its premises reach. A comment may
leave something out, so each conjunct of the premises is printed too, of these laws and of those on
resets, on what a program is handed, and on executions: the fields of a record and the factors of a
definition, as they stand, of each definition in a crate of laws."""

import pathlib
import re

TOP = pathlib.Path(__file__).resolve().parent.parent

# The statements of the theorems that README cites, in its order.
THEOREMS = [
    ("lpt_apart", "TwoEnds", "EndsWithClocksKeepThePromise"),
    ("lpt_apart", "TwoEnds", "EndsWithClocksWithholdNothing"),
    ("lpt_c_pair", "Runs", "EndsOfCKeepThePromise"),
    ("lpt_c_pair", "Programs", "ProgramsKeepTheirMemories"),
    ("lpt_c_pair", "Withheld", "EndsOfCWithholdNothing"),
    ("lpt_c_pair", "Withheld", "ProgramsWithholdNothing"),
]

# Those of laws that assume more.
OTHERS = [
    ("lpt_passes", "Chains", "DoneLeavesTheImage"),
    ("lpt_spacecraft_moves", "Lives", "GroundAndSpacecraftKeepThePromise"),
]

# Those on resets, on what is handed out and on executions.
MORE = [
    ("lpt_c_pair", "Histories", "ResetEndsOfCKeepThePromise"),
    ("lpt_c_pair", "Histories", "CarefulProgramsMayBeReset"),
    ("lpt_c_pair", "Resets", "ResetProgramsKeepTheirMemories"),
    ("lpt_c_pair", "Handed", "MessagesAreHanded"),
    ("lpt_c_pair", "Handed", "MessagesStay"),
    ("lpt_c_pair", "Handed", "ExecutionsAreTold"),
    ("lpt_c_pair", "Handed", "GivenExecutionsAreTold"),
]

HEAD = re.compile(r"^(?:abbrev |unfoldable )?pub (?:record |data )?([\w◌-]+)")
USE = re.compile(r"^use Rattle\.(lpt_\w+)\.specs\.([\w.]+?)(?:\.\{(.*)\})?(?: as (\w+))?$")
ASSUMED = "Assumed: "


class File:
    """A file of definitions: the comment and the text of each, and where its other names are from."""

    def __init__(self, crate, path):
        text = (TOP / "crates" / crate / "specs" / f"{path}.antt").read_text(encoding="utf-8")
        self.definitions, self.names, self.modules = {}, {}, {}
        comment, current = [], None
        for line in text.splitlines():
            if used := USE.match(line):
                self.add_names(*used.groups())
            elif line.startswith("--"):
                comment, current = [*comment, line.removeprefix("--").strip()], None
            elif head := HEAD.match(line):
                if head[1] not in self.definitions:
                    self.definitions[head[1]] = [" ".join(comment), ""]
                comment, current = [], head[1]
                self.definitions[current][1] += line + "\n"
            elif line and current:
                self.definitions[current][1] += line + "\n"
            elif not line:
                comment = []

    def add_names(self, crate, path, names, module):
        if names is None:
            self.modules[module or path.rpartition(".")[2]] = (crate, path)
        for name in (names or "").split(","):
            name, _, other = name.strip().partition(" as ")
            if name:
                self.names[other or name] = (crate, path, name)

    def reached(self, here, text):
        """The definitions that a text names."""
        for module, name in re.findall(r"(?:(\b\w+)\.)?([A-Za-z_]\w*)", text):
            if module in self.modules:
                yield (*self.modules[module], name)
            elif name in self.definitions:
                yield (*here, name)
            elif name in self.names:
                yield self.names[name]


FILES = {}


def file_of(crate, path):
    """A file, read once; none where it isn't one of definitions."""
    if (crate, path) not in FILES:
        there = (TOP / "crates" / crate / "specs" / f"{path}.antt").is_file()
        FILES[crate, path] = File(crate, path) if there else None
    return FILES[crate, path]


def premises(text):
    """What a statement has before its last arrow."""
    return text.rpartition("\n    → ")[0].partition("=")[2]


def assumed(comment):
    """The assumptions in a comment."""
    return re.findall(rf"{ASSUMED}([^.]*\.)", comment)


def reached_by(theorem):
    """The definitions that a theorem's premises reach, each with its comment and its text."""
    crate, path, name = theorem
    file = file_of(crate, path)
    waiting, seen = list(file.reached((crate, path), premises(file.definitions[name][1]))), set()
    while waiting:
        place = waiting.pop(0)
        file = file_of(*place[:2])
        if place not in seen and file is not None and place[2] in file.definitions:
            seen.add(place)
            yield (place, *file.definitions[place[2]])
            waiting.extend(file.reached(place[:2], file.definitions[place[2]][1]))


def assumptions(theorems=THEOREMS):
    """Each assumption, with the definitions where it stands and the theorems whose it is."""
    found = {}
    for theorem in theorems:
        for place, comment, _ in reached_by(theorem):
            for sentence in assumed(comment):
                places, whose = found.setdefault(sentence, ([], []))
                places.extend([place] if place not in places else [])
                whose.extend([theorem[2]] if theorem[2] not in whose else [])
    return found


def split_at(text, word):
    """The pieces of a text between these words that stand in no bracket."""
    depth, pieces, start = 0, [], 0
    for at, letter in enumerate(text):
        depth += (letter in "([{") - (letter in ")]}")
        if depth == 0 and text.startswith(word, at):
            pieces.append(text[start:at])
            start = at + len(word)
    return [it.strip() for it in [*pieces, text[start:]]]


def conjuncts(name, text):
    """What a definition says, piece by piece: nothing, unless it is a statement."""
    head, _, body = text.partition("\n")
    if "record " in head:
        head, _, body = text.partition(" where\n")
        fields = re.split(r"^  (?:pub )?(?=\w+ :)", body, flags=re.MULTILINE)[1:]
        return [" ".join(it.split()) for it in fields] if "(" in head else []
    arms = re.split(rf"^(?={re.escape(name)}\b)", text, flags=re.MULTILINE)[1:]
    if not re.search(r"→ Type 0\s*\Z", re.split(rf"^{re.escape(name)}\b", text, flags=re.MULTILINE)[0]):
        return []
    found = []
    for arm in arms:
        front, _, said = " ".join(arm.split()).partition(" = ")
        pieces = split_at(said, " × ")
        found += [f"{front}: {it}" for it in pieces if it != "⊤"]
    return found


def said_by_premises():
    """Each conjunct of the premises of all these laws, with the place of its definition and the laws whose it is."""
    laws, found = [*THEOREMS, *OTHERS, *MORE], {}
    crates = {crate for crate, _, _ in laws}
    for theorem in laws:
        for place, _, text in reached_by(theorem):
            for it in conjuncts(place[2], text) if place[0] in crates else []:
                found.setdefault((place, it), []).append(theorem[2])
    return found


def besides():
    """The assumptions of the other laws that README's theorems don't have, in the same form."""
    known = assumptions()
    return {sentence: it for sentence, it in assumptions(OTHERS).items() if sentence not in known}


def law(name):
    """The function whose contract is the statement of this name."""
    return re.sub(r"(?<=.)(?=[A-Z])", "_", name).lower()


if __name__ == "__main__":
    for sentence, (places, whose) in (assumptions() | besides()).items():
        print(f"- {sentence}")
        for crate, path, name in places:
            print(f"    {crate}/specs/{path}: {name}")
        print(f"    of {', '.join(whose)}")
    last = None
    for (place, conjunct), _ in said_by_premises().items():
        if place != last:
            print(f"\n{place[0]}/specs/{place[1]}: {place[2]}")
        print(f"  {conjunct}")
        last = place
