"""The synopsis of the manual page, made from the helps of the commands.

synopsis.py            prints it
synopsis.py --write    puts it into man/lpt.1

The helps are those of docs/help, and tests/help compares these with the program's own. tests/documents wants
that the page has this synopsis. The options that override a configuration's file are left out: the page says
that each command with --config takes them.
"""

import pathlib
import re
import sys
from typing import NamedTuple

TOP = pathlib.Path(__file__).resolve().parent.parent
HELPS = TOP / "docs/help"
PAGE = TOP / "man/lpt.1"
# What helps don't say: which options a command needs, which may be given again, which exclude each other, and of
# which of these one is needed.
NEEDED = {"ground dump": ["to"], "pass dump": ["to"]}
REPEATED = ["parts", "memory", "area"]
EITHER = [("json", "open"), ("tick-every", "tick")]
ONE_OF = [("source", "passes")]
VALUES = r"\[possible values: ([^]]*)\]"
ROW = re.compile(r"^ +(?:-\w, )?--([a-z-]+)((?: <[^>]+>)*)(?:  +(.*))?$", re.MULTILINE)
SYNOPSIS = re.compile(r"(?<=^\.SH SYNOPSIS\n).*?(?=^\.SH )", re.MULTILINE | re.DOTALL)


class Option(NamedTuple):
    """An option: its name, what stands behind it, and the help's text."""

    name: str
    behind: str
    text: str

    def marked(self):
        """The option in the page's marks."""
        values = re.search(VALUES, self.text)
        value = bold(values[1].replace(", ", "|")) if values else italic(re.sub("[<>]", "", self.behind).strip())
        return bold(f"--{self.name}") + (f" {value}" if self.behind else "")


def bold(text):
    """A text as it is typed."""
    return rf"\fB{text}\fR".replace("-", r"\-")


def italic(text):
    """A text that stands for another."""
    return rf"\fI{text}\fR"


def help_of(name):
    """The help of a command; the name of one below another has a blank."""
    return (HELPS / name.replace(" ", "-")).read_text(encoding="utf-8")


def below(name):
    """The commands that a help lists, but for help."""
    rows = help_of(name).partition("\nCommands:\n")[2].partition("\n\n")[0].splitlines()
    return [row.split()[0] for row in rows if row.split()[0] != "help"]


def commands():
    """All commands but help, those below another with both words."""
    for name in below("lpt"):
        yield from [f"{name} {it}" for it in below(name)] or [name]


def options_of(name):
    """The options of a command, but for those that override a configuration's file, -h and -V."""
    common = ROW.findall(help_of("run"))
    rows = [it for it in ROW.findall(help_of(name)) if it[0] == "config" or it not in common]
    return {it[0]: Option(*it) for it in rows if it[0] not in ("help", "version")}


def words_of(name):
    """The words that a command takes by their places."""
    text = help_of(name)
    usage = re.search(rf"^Usage: lpt {name}(.*)$", text, re.MULTILINE)[1].replace(" [OPTIONS]", "")
    for opened, word, again in re.findall(r"([<[])([^]>]+)[]>](\.\.\.)?", usage):
        values = re.search(rf"^ +<{word}> .*{VALUES}", text, re.MULTILINE)
        said = bold(values[1].replace(", ", "|")) if values else italic(word)
        yield (f"[{said}]" if opened == "[" else said) + ("..\\&" if again else "")


def lines_of(name):
    """A command, its words, and a line for each option, or for two that exclude each other."""
    yield " ".join([bold(f"lpt {name}"), *words_of(name)])
    options = options_of(name)
    for needed in NEEDED.get(name, []):
        yield options.pop(needed).marked()
    for pair in ONE_OF:
        if all(one in options for one in pair):
            yield "{" + " | ".join(options.pop(one).marked() for one in pair) + "}"
    pairs = [it for it in EITHER if all(one in options for one in it)]
    others = {one: options.pop(other) for one, other in pairs}
    for one, option in options.items():
        either = [option, others[one]] if one in others else [option]
        yield f"[{' | '.join(it.marked() for it in either)}]" + ("..\\&" if one in REPEATED else "")


def synopsis():
    """The synopsis, in the page's marks."""
    lines = [line for name in commands() for line in [*lines_of(name), ".br"]]
    lines += [f"{bold('lpt help')} [{italic('COMMAND')}]", ".br", f"{bold('lpt --help')} | {bold('--version')}"]
    return "\n".join(lines) + "\n"


def is_written():
    """Whether the page has it."""
    return SYNOPSIS.search(PAGE.read_text(encoding="utf-8"))[0] == synopsis()


def main():
    """Prints the synopsis, or writes it."""
    if sys.argv[1:] == ["--write"]:
        page = PAGE.read_text(encoding="utf-8")
        PAGE.write_text(SYNOPSIS.sub(lambda _: synopsis(), page, count=1), encoding="utf-8")
    else:
        print(synopsis(), end="")


if __name__ == "__main__":
    main()
