"""Lists the files of definitions that a statement stands on, in the order in which it names them.

reading.py [FILE..]    FILE is a path such as lpt_journal/specs/Headline, that and no other if none is given

What a statement means is in its own file, in the files of specs/ that it imports, and in those that these
import, and so on. A line for each crate: how many lines its files have, and each file with its own; then
how many files and lines there are, and last how many the repository has in all. Lines are all of a file's,
and behind a / those that are neither imports nor empty. Types of the code that a definition names (Event,
Config) stand in src/, and aren't counted.
"""

import functools
import pathlib
import re
import sys

TOP = pathlib.Path(__file__).resolve().parent.parent
HEADLINE = "lpt_journal/specs/Headline"
IMPORT = re.compile(r"(?:pub )?use Rattle\.(\w+)\.specs\.([\w.]+)")
GIVEN = re.compile(r"pub use Rattle\.(\w+)\.specs(?:\.([\w.]+))? as (\w+)")


@functools.lru_cache(maxsize=None)
def lines(file):
    """The lines of a file of definitions."""
    return (TOP / "crates" / f"{file}.antt").read_text(encoding="utf-8").splitlines()


@functools.lru_cache(maxsize=None)
def given(crate):
    """What a crate gives out of the definitions below it, by name: whose, and which."""
    found = (GIVEN.fullmatch(it) for it in lines(f"{crate}/specs/Lib"))
    return {it[3]: (it[1], it[2].split(".") if it[2] else []) for it in found if it}


def place(crate, path):
    """The file that an import names, where it is one of definitions: a crate's, or one that it gives out."""
    if path[0] in given(crate):
        whose, which = given(crate)[path[0]]
        return place(whose, which + path[1:])
    file = f"{crate}/specs/{path[0]}"
    return file if (TOP / "crates" / f"{file}.antt").is_file() else None


def named(file):
    """The files that a file of definitions imports."""
    found = (IMPORT.match(it) for it in lines(file))
    found = (it for it in found if it and (TOP / "crates" / it[1]).is_dir())
    return [it for it in (place(it[1], it[2].rstrip(".").split(".")) for it in found) if it]


def below(files):
    """These files and all that they stand on, those that are named first in front."""
    found = list(files)
    for file in found:
        found += [it for it in dict.fromkeys(named(file)) if it not in found]
    return found


def count(files):
    """How many lines files have, and how many that are neither imports nor empty."""
    all_lines = [it for file in files for it in lines(file)]
    own = [it for it in all_lines if it.strip() and not it.startswith("use ")]
    return f"{len(all_lines)}/{len(own)}"


def main(*files):
    """Lists them by crate."""
    found = below(files or [HEADLINE])
    for crate in dict.fromkeys(it.split("/")[0] for it in found):
        own = [it for it in found if it.startswith(f"{crate}/")]
        print(f"{crate} {count(own)}:", *(f"{it.split('/')[-1]} {count([it])}" for it in own))
    print(f"{len(found)} files, {count(found)} lines")
    for name in ["specs", "proofs"]:
        files = [it.relative_to(TOP / "crates").with_suffix("") for it in TOP.glob(f"crates/*/{name}/**/*.antt")]
        print(f"all {name}: {len(files)} files, {count(files)} lines")


if __name__ == "__main__":
    main(*sys.argv[1:])
