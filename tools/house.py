"""The house: what `rt ci` doesn't look at. A line for each thing that is wrong; status 1 where there is one.

house.py            looks
house.py --lower    also writes into tools/counts.txt the numbers that fell
house.py --edits    prints how many must-fail edits each crate has
house.py --sizes    prints how large the house is, to the last line and word

Some rules are written down and broken here and there. How often each is broken stands in tools/counts.txt, and
may only fall: a count above its number is wrong, and of one below it standard error tells the number to write.
So it is with how large the house is, lines and words in thousands. Such a number may rise in a commit that says
why, in a line `Grows: ..` of its message.
"""

from __future__ import annotations

import os
import pathlib
import re
import shutil
import subprocess
import sys
from dataclasses import dataclass
from typing import Callable, Iterator

sys.dont_write_bytecode = True
from crates import libraries  # noqa: E402: it stands beside this file
from edits.sources import functions_of  # noqa: E402
from synopsis import ROW  # noqa: E402

TOP = pathlib.Path(__file__).resolve().parent.parent
COUNTS = TOP / "tools/counts.txt"
WORST = 3

HOW_TO_GROW = "make one go, or write the number there and the reason into a line Grows: of the commit"
HANDLES = "Handles allowed: Threads, Wait.\n"
# A file of a crate, or a folder, as the documents name it.
NAMED = re.compile(r"\blpt_\w+/(?:src|specs|proofs)/\w+(?:/\w+)*")

LONGEST_LINE, LONGEST_FUNCTION, LONGEST_FILE, MOST_PARAMETERS = 100, 40, 400, 7
# So many crates may have a type of one name.
MOST_NAMESAKES = 3
# So many must-fail edits may there be in all, in a crate, and in one of those on whose code the promise rests; in a
# crate of more lines of source one for each so many of them.
MOST_EDITS, EDITS_OF_A_CRATE, EDITS_OF_THE_CORE, LINES_OF_AN_EDIT = 640, 12, 20, 60
CORE = set(
    """lpt_packet lpt_part lpt_memory lpt_reception lpt_table lpt_ledger lpt_node lpt_state lpt_execution lpt_share
    lpt_c_end lpt_spacecraft lpt_stream""".split()
)
IMPORT = re.compile(r" *(?:ghost |pub(?:\(crate\))? )?use ")
PASSED_ON = re.compile(r"\bErr\((\w+)\) => (?:return )?Err\(\1\)")
# What a function, and a definition, is named; and the participles that don't end in -ed.
FUNCTION = re.compile(r" *(?:pub(?:\([a-z]+\))? )?(?:const |unsafe |extern \"C\" )*fn ([a-z0-9]+)(?=[(<])")
LAW = re.compile(r"^pub fn ", re.MULTILINE)
TYPE = re.compile(r"^ *(?:pub(?:\([a-z]+\))? )?(?:struct|enum|union) (\w+)", re.MULTILINE)
DEFINITION = re.compile(r"(?:pub |abbrev )*([a-z0-9]+)(?= .*:| :|$)")
PARTICIPLES = set(
    """begun brought broken built caught chosen done drawn found gone given heard held hidden kept known left lost
    made meant met said seen sent shown spent taken told written""".split()
)
NO_PARTICIPLES = {"bed", "exceed", "feed", "need", "red", "seed", "speed"}


@dataclass(frozen=True, order=True)
class Breach:
    """Where a rule is broken, and by how much."""

    size: int
    place: str


@dataclass(frozen=True)
class Source:
    """A source, a file of definitions or one of proofs."""

    path: str
    text: str

    @property
    def lines(self) -> list[str]:
        """Its lines."""
        return self.text.splitlines()

    @property
    def is_code(self) -> bool:
        """Whether it is a source."""
        return self.path.endswith(".rt")


def long_lines(source: Source) -> Iterator[Breach]:
    """Lines that are too long and no imports."""
    for number, line in enumerate(source.lines, 1):
        if len(line) > LONGEST_LINE and not IMPORT.match(line):
            yield Breach(len(line), f"{source.path}:{number}")


def long_functions(source: Source) -> Iterator[Breach]:
    """Functions whose bodies are too long. Contracts aren't counted."""
    for it in functions_of(source.path, source.text) if source.is_code else ():
        size = it.last - it.opening - 1
        if size > LONGEST_FUNCTION:
            yield Breach(size, f"{source.path}:{it.head + 1}")


def long_files(source: Source) -> Iterator[Breach]:
    """The file itself, where it is too long."""
    size = len(source.lines)
    if size > LONGEST_FILE:
        yield Breach(size, source.path)


def errors_passed_on(source: Source) -> Iterator[Breach]:
    """Arms that give an error on as it is, where `?` would."""
    for it in PASSED_ON.finditer(source.text) if source.is_code else ():
        yield Breach(1, f"{source.path}:{source.text.count(chr(10), 0, it.start()) + 1}")


def bare_participles(source: Source) -> Iterator[Breach]:
    """Functions, and definitions of specs/, whose whole name is a participle, which doesn't say of what."""
    if not source.is_code and "/specs/" not in source.path:
        return
    named = FUNCTION if source.is_code else DEFINITION
    for number, line in enumerate(source.lines, 1):
        name = named.match(line)
        if name and (name[1] in PARTICIPLES or name[1].endswith("ed") and name[1] not in NO_PARTICIPLES):
            yield Breach(1, f"{source.path}:{number}")


def long_lists_of_parameters(source: Source) -> Iterator[Breach]:
    """Functions with too many parameters."""
    for it in functions_of(source.path, source.text) if source.is_code else ():
        count = parameters("\n".join(source.lines[it.head : it.opening + 1]))
        if count > MOST_PARAMETERS:
            yield Breach(count, f"{source.path}:{it.head + 1}")


def parameters(head: str) -> int:
    """How many parameters a function with this head has."""
    text, depth, listed = head[head.index("fn ") :].replace("->", ""), 0, ""
    for letter in text[text.index("(") :] if "<" not in text.partition("(")[0] else behind_generics(text):
        depth += (letter in "([{<") - (letter in ")]}>")
        if not depth:
            break
        listed += "," if letter == "," and depth == 1 else letter.replace(",", ";")
    return sum(bool(it.strip("( \n")) for it in listed.split(","))


def behind_generics(text: str) -> str:
    """What stands behind the parameters of a function's type."""
    depth = 0
    for at, letter in enumerate(text):
        depth += (letter == "<") - (letter == ">")
        if letter == ">" and not depth:
            return text[at + 1 :]
    return ""


RULES = {
    f"lines above {LONGEST_LINE} columns": long_lines,
    f"functions above {LONGEST_FUNCTION} lines": long_functions,
    f"files above {LONGEST_FILE} lines": long_files,
    "errors passed on without ?": errors_passed_on,
    "names that are a bare participle": bare_participles,
    f"functions with more than {MOST_PARAMETERS} parameters": long_lists_of_parameters,
}


def sources(top: pathlib.Path) -> Iterator[Source]:
    """All sources, definitions and proofs of the crates."""
    for part in ("src", "specs", "proofs"):
        for file in sorted(top.glob(f"crates/*/{part}/**/*")):
            if file.suffix in (".rt", ".antt"):
                yield Source(str(file.relative_to(top)), file.read_text(encoding="utf-8"))


def counted(top: pathlib.Path) -> dict[str, list[Breach]]:
    """Where each rule is broken, the worst first."""
    found: dict[str, list[Breach]] = {rule: [] for rule in RULES}
    for source in sources(top):
        for rule, breaches in RULES.items():
            found[rule] += breaches(source)
    return {rule: sorted(it, key=lambda it: (-it.size, it.place)) for rule, it in found.items()}


def numbers(file: pathlib.Path) -> dict[str, int]:
    """The numbers that counts may not go above."""
    lines = (it.partition(": ") for it in file.read_text(encoding="utf-8").splitlines())
    return {rule: int(number) for rule, _, number in lines if number.isdigit()}


def wrong_counts(found: dict[str, list[Breach]], known: dict[str, int]) -> Iterator[str]:
    """Counts that rose, and where the rule is broken worst."""
    for rule, breaches in found.items():
        if rule not in known:
            yield f"tools/counts.txt has no number of {rule}: there are {len(breaches)}"
        elif len(breaches) > known[rule]:
            worst = ", ".join(f"{it.place} ({it.size})" if it.size > 1 else it.place for it in breaches[:WORST])
            more = len(breaches) - known[rule]
            yield f"{rule}: {len(breaches)}, {more} more than may be (tools/counts.txt); the worst: {worst}"


def lower(file: pathlib.Path, counts: dict[str, int]) -> None:
    """Writes down the numbers that fell."""
    text = file.read_text(encoding="utf-8")
    for rule, number in numbers(file).items():
        if rule in counts and counts[rule] < number:
            text = text.replace(f"\n{rule}: {number}\n", f"\n{rule}: {counts[rule]}\n")
    file.write_text(text, encoding="utf-8")


def lines_in(part: str) -> Callable[[pathlib.Path], int]:
    """What counts the lines of all crates' sources, definitions or proofs."""
    return lambda top: sum(len(it.lines) for it in sources(top) if f"/{part}/" in it.path)


def helps(top: pathlib.Path) -> list[str]:
    """The help of each command."""
    return [it.read_text(encoding="utf-8") for it in sorted(top.glob("docs/help/*")) if it.name != "lpt"]


def options(top: pathlib.Path) -> int:
    """How many options the commands have, `--help` aside."""
    return sum(name != "help" for it in helps(top) for name, _, _ in ROW.findall(it))


def laws(top: pathlib.Path) -> int:
    """How many laws are stated of all crates."""
    return sum(len(LAW.findall(it.read_text(encoding="utf-8"))) for it in top.glob("crates/*/src/laws*.rt"))


def words(top: pathlib.Path) -> int:
    """How many words the documents have, their tables and blocks of code among them."""
    texts = (it.read_text(encoding="utf-8") for it in (*top.glob("*.md"), *top.glob("docs/*.md")))
    return sum(any(map(str.isalnum, it)) for text in texts for it in text.split())


# How large the house is, and in what each is counted.
SIZES: dict[str, tuple[Callable[[pathlib.Path], int], int]] = {
    "crates": (lambda top: len(libraries(top)), 1),
    "commands": (lambda top: len(helps(top)), 1),
    "options of commands": (options, 1),
    "laws": (laws, 1),
    "lines of sources, in thousands": (lines_in("src"), 1000),
    "lines of definitions, in thousands": (lines_in("specs"), 1000),
    "lines of proofs, in thousands": (lines_in("proofs"), 1000),
    "words of documents, in thousands": (words, 1000),
}


def sizes(top: pathlib.Path) -> dict[str, int]:
    """How large the house is, rounded up."""
    return {name: -(-count(top) // unit) for name, (count, unit) in SIZES.items()}


def wrong_sizes(found: dict[str, int], known: dict[str, int]) -> Iterator[str]:
    """What became larger than is written down."""
    for name, size in found.items():
        if name not in known:
            yield f"tools/counts.txt has no number of {name}: there are {size}"
        elif size > known[name]:
            yield f"{name}: {size}, {size - known[name]} more than may be (tools/counts.txt): {HOW_TO_GROW}"


def wrong_rises(top: pathlib.Path) -> Iterator[str]:
    """Sizes that the last commit of tools/counts.txt made larger, where its message doesn't say why. Where git knows
    of no commits, there are none."""
    if not (top / ".git").exists() or shutil.which("git") is None:
        return
    log = ["git", "-C", str(top), "log", "-1", "-p", "--format=%B", "--", "tools/counts.txt"]
    said = subprocess.run(log, stdout=subprocess.PIPE, text=True, encoding="utf-8", check=False).stdout
    if re.search(r"^Grows: \S", said, re.MULTILINE):
        return
    before = dict(re.findall(r"^-(.+): (\d+)$", said, re.MULTILINE))
    for name, number in re.findall(r"^\+(.+): (\d+)$", said, re.MULTILINE):
        if name in SIZES and name in before and int(number) > int(before[name]):
            yield f"{name}: {number} in place of {before[name]}, and the commit says no reason in a line Grows:"


def is_there(place: pathlib.Path) -> bool:
    """Whether there is a file of this name, as documents give it without an ending, or a folder."""
    return place.is_dir() or any(place.with_name(f"{place.name}{it}").is_file() for it in (".rt", ".antt"))


def wrong_crates(top: pathlib.Path) -> Iterator[str]:
    """Crates and their folders that aren't as ./lpt, the kit and the documents want them."""
    if (top / "HANDLES").read_text(encoding="utf-8") != HANDLES:
        yield "HANDLES has been changed"
    if {it.name for it in (top / "crates").iterdir()} != set(libraries(top)):
        yield "crates/ and crates.txt name different crates"
    # ./lpt looks for changes in these folders and no deeper.
    for part in ("src", "specs"):
        for folder in top.glob(f"crates/*/{part}/*/"):
            if folder.is_dir():
                yield f"{folder.relative_to(top)} is a folder in src or specs"
    for document in (top / "README.md", top / "CONTRIBUTING.md", *sorted(top.glob("docs/*.md"))):
        for place in sorted(set(NAMED.findall(document.read_text(encoding="utf-8")))):
            if not is_there(top / "crates" / place):
                yield f"{document.relative_to(top)} names crates/{place}, which isn't there"


def wrong_types(top: pathlib.Path) -> Iterator[str]:
    """Names under which too many types are defined."""
    places: dict[str, list[str]] = {}
    for file in sorted(top.glob("crates/*/src/**/*.rt")):
        for name in TYPE.findall(file.read_text(encoding="utf-8")):
            places.setdefault(name, []).append(str(file.relative_to(top)))
    for name, files in places.items():
        if len(files) > MOST_NAMESAKES:
            yield f"{len(files)} types are called {name}: {', '.join(files)}"


def edits_of(top: pathlib.Path) -> dict[str, int]:
    """How many must-fail edits each crate has that has some."""
    found = {it.name: len(list(it.glob("must-fail/*.edit"))) for it in sorted((top / "crates").iterdir())}
    return {crate: edits for crate, edits in found.items() if edits}


def wrong_edits(top: pathlib.Path) -> Iterator[str]:
    """More edits than may be, in all and of a crate: one is kept if it turns a meaning that no other turns."""
    found = edits_of(top)
    if sum(found.values()) > MOST_EDITS:
        yield f"there are {sum(found.values())} must-fail edits, and at most {MOST_EDITS} may be"
    for crate, edits in found.items():
        source = sum(len(it.read_text(encoding="utf-8").splitlines()) for it in (top / "crates" / crate).glob("src/*.rt"))
        most = max(EDITS_OF_THE_CORE if crate in CORE else EDITS_OF_A_CRATE, -(-source // LINES_OF_AN_EDIT))
        if edits > most:
            yield f"{crate} has {edits} must-fail edits, and at most {most} may be"


def wrong_scripts(top: pathlib.Path) -> Iterator[str]:
    """What stands in tests/ and isn't run. The cases of a script stand in a folder."""
    for script in sorted((top / "tests").iterdir()):
        if not script.is_dir() and not (script.is_file() and os.access(script, os.X_OK)):
            yield f"{script.relative_to(top)} can't be run"


def main(words: list[str]) -> int:
    """Looks at the repository, and prints what is wrong."""
    if words not in ([], ["--lower"], ["--edits"], ["--sizes"]):
        sys.exit(__doc__)
    if words == ["--edits"]:
        print("\n".join(f"{edits} {crate}" for crate, edits in edits_of(TOP).items()))
        return 0
    if words == ["--sizes"]:
        print("\n".join(f"{name.partition(',')[0]}: {count(TOP)}" for name, (count, _) in SIZES.items()))
        return 0
    found, large = counted(TOP), sizes(TOP)
    counts = {**{rule: len(breaches) for rule, breaches in found.items()}, **large}
    if words:
        lower(COUNTS, counts)
    known = numbers(COUNTS)
    for rule, number in known.items():
        if counts.get(rule, 0) < number:
            print(f"house: write '{rule}: {counts.get(rule, 0)}' into tools/counts.txt", file=sys.stderr)
    wrong = [*wrong_crates(TOP), *wrong_types(TOP), *wrong_edits(TOP), *wrong_scripts(TOP)]
    wrong += [*wrong_counts(found, known), *wrong_sizes(large, known), *wrong_rises(TOP)]
    for it in wrong:
        print(it)
    return 1 if wrong else 0


if __name__ == "__main__":
    sys.exit(main(sys.argv[1:]))
