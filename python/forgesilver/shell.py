"""A session with the simulator: lines are answered as they are typed, with history, completion and help.

What a line does, the program says. A world is a function of the lines that made it, so a session that must go back,
at `undo` or behind a line that ended its run, begins a new world and repeats them.
"""

from __future__ import annotations

import cmd
import contextlib
import io
import itertools
import os
import pathlib
import re
import sys
from collections.abc import Callable, Iterable, Iterator
from typing import Any

from .lines import FAULTS, FORMS, KINDS, wanted
from .lint import explain
from .program import ProgramError, Word
from .session import UNREADABLE, Session

#: The lines that only the shell has.
OWN = {
    "undo": "takes back the last line that did something",
    "save [FILE]": "writes the lines that did something as a script, run.script if no other is named",
    "chart [FILE]": "draws what happened, into run.svg if no other is named: .svg, .png or .pdf",
    "send DIRECTION ID all": "a send for each part; lists too, as 1-3,5",
    "pass LANE all": "a pass for each packet that no lane has taken yet; lists too, also of lose",
    'open DIRECTION ID "TEXT"': "opens a message of the text's octets",
    "open DIRECTION ID @FILE": "opens a message of the file's octets",
    "help [WORD]": "the lines that begin with this word; help words tells what the words in capitals are",
    "exit": "ends the session, as quit and Ctrl-D do",
}
GREETING = "help tells the lines, Tab completes them, Ctrl-D ends the session"
MOST_KEPT = 1000
# What stands for several numbers.
_LIST = re.compile(r"(?=.*[-,])\d+(-\d+)?(,\d+(-\d+)?)*")
MOST_NUMBERS = 65535
_COLOURS = {"bad": "31", "good": "32", "faint": "2"}


class Shell(cmd.Cmd):
    """Answers lines in a world; `cmd` reads them. The options are those of `lpt run`."""

    # No line is a call of a method, except those of `onecmd`.
    identchars = ""

    def __init__(self, *options: Word, prompt: str = "", coloured: bool = False) -> None:
        super().__init__()
        self.prompt, self.use_rawinput = prompt, bool(prompt)
        #: 1 if a line was refused or unreadable.
        self.status = 0
        #: The lines that did something.
        self.lines: list[str] = []
        self._options, self._coloured = options, coloured
        self._session = Session(*options)
        self._taken: set[int] = set()

    def close(self) -> None:
        """Ends the world."""
        self._session.close()

    def emptyline(self) -> bool:
        """An empty line does nothing; `cmd` would repeat the last."""
        return False

    def onecmd(self, line: str) -> bool:
        """Answers a line; whether the session ends."""
        word, _, rest = line.strip().partition(" ")
        if line == "EOF" and self.prompt:
            print()
        if word in ("EOF", "exit", "quit"):
            return True
        own: dict[str, Callable[..., None]] = {
            "undo": self._undo, "save": self._save, "chart": self._chart, "help": self._help,
        }
        try:
            if word in own:
                own[word](*[rest.strip()] * bool(rest))
            else:
                self._expanded(line)
        except (ValueError, OSError) as error:
            self._say(f"forgesilver: {error}", "bad")
            self.status = 1
        return False

    # Answers.

    def answer(self, line: str, *, is_typed: bool = False) -> None:
        """Answers a line of a script, which stands behind the prompt if it was typed."""
        self._tell(self._tried(line, is_typed))

    def _tell(self, printed: list[str]) -> None:
        """Prints what a line printed, and explains refusals."""
        for text in printed:
            self._say(text, _look(text))
            if text.startswith("refused"):
                self.status = 1
                self._say(f"  {FAULTS.get(text.split()[-1], '')}", "faint")

    def _tried(self, line: str, is_typed: bool = False) -> list[str]:
        """What a line prints. If it can't be read, it says why, and begins a new world."""
        try:
            return self._ask(line)
        except ProgramError as error:
            found = explain(line.encode("utf-8", "surrogateescape"))
            if error.status != UNREADABLE or found is None:
                raise
        self.status, column, why = 1, found.column, found.said().decode(errors="replace")
        if is_typed and self.prompt:
            self._say(f"{' ' * (len(self.prompt) + column - 1)}^ {why}", "bad")
        else:
            self._say(f"unreadable at {column}: {why}", "bad")
        self._again(self.lines)
        return []

    def _ask(self, line: str) -> list[str]:
        """What a line prints. It is kept if it did something."""
        before = self._session.events
        printed = self._session.ask(line)
        if self._session.events > before:
            self.lines.append(line)
            self._taken.update(int(it.split()[1]) for it in printed if it.startswith("took"))
        return printed

    def _again(self, lines: list[str]) -> None:
        """Begins a new world, in which these lines are repeated."""
        self._session.close()
        self._session, self.lines, self._taken = Session(*self._options), [], set()
        for line in lines:
            self._ask(line)

    def interrupted(self) -> None:
        """Begins again where an answer was cut off."""
        print()
        self._again(self.lines)

    def _say(self, text: str, look: str = "") -> None:
        code = _COLOURS.get(look)
        print(f"\033[{code}m{text}\033[m" if code and self._coloured else text, flush=True)

    # Short forms.

    def _expanded(self, line: str) -> None:
        """Answers a line, or those for which a short form stands, each of which is printed before."""
        opened, words = re.match(r'(open +\S+ +\S+) +(?:"(.*)"|@(.+))$', line), line.split()
        if opened:
            path = opened[3]
            octets = pathlib.Path(path).expanduser().read_bytes() if path else opened[2].encode()
            self._told(f"{opened[1]} {octets.hex() or '-'}")
        elif words[:1] == ["pass"] and words[2:] == ["all"]:
            self._pass_all(words[1])
        elif words[:1] == ["send"] and words[3:] == ["all"]:
            self._told_each(words, self._parts(words[1], words[2]))
        elif words[:1] in (["send"], ["pass"], ["lose"]) and _LIST.fullmatch(words[-1]):
            self._told_each(words, _numbers(words[-1]))
        else:
            self.answer(line, is_typed=True)

    def _told(self, line: str) -> None:
        """Prints a line, and answers it."""
        self._say(line, "faint")
        self.answer(line)

    def _told_each(self, words: list[str], numbers: Iterable[int]) -> None:
        """Answers a line for each of these numbers, which stands in place of its last word."""
        for number in numbers:
            self._told(" ".join([*words[:-1], f"{number}"]))

    def _parts(self, direction: str, name: str) -> Iterable[int]:
        """The numbers of an open message's parts."""
        begin = f"open {direction} {name} parts "
        for it in self._ask("show senders"):
            if it.startswith(begin):
                return range(1, int(it[len(begin):]) + 1)
        raise ValueError("no such message is open; show senders tells which are")

    def _pass_all(self, lane: str) -> None:
        """Passes each packet that goes the lane's way, and that no lane has taken yet."""
        held = [int(it.split()[1]) for it in self._ask("show link") if it.startswith("held")]
        passed = 0
        for number in held:
            if number in self._taken:
                continue
            line = f"take {lane} {number}"
            printed = self._tried(line)
            # The program knows which way a packet goes, and a refusal changes nothing.
            if printed and printed[0].endswith("NotHeld"):
                continue
            if not printed:
                return
            self._say(line, "faint")
            self._tell(printed)
            if printed[0].startswith("refused"):
                return
            self._told(f"deliver {lane}")
            passed += 1
        if not passed:
            self._say("none", "faint")

    # Lines of the shell alone.

    def _undo(self) -> None:
        if not self.lines:
            raise ValueError("there is nothing to take back")
        self._say(f"taken back: {self.lines[-1]}", "faint")
        self._again(self.lines[:-1])

    def _save(self, path: str = "run.script") -> None:
        pathlib.Path(path).expanduser().write_bytes(self._script())
        self._say(f"{len(self.lines)} lines in {path}", "faint")

    def _chart(self, path: str = "run.svg") -> None:
        try:
            from . import plot
        except ModuleNotFoundError as error:
            raise ValueError(f"pictures need matplotlib: {error}") from error
        plot.save(plot.run(self._script(), *self._options, title="A session"), pathlib.Path(path).expanduser())
        self._say(f"drawn in {path}", "faint")

    def _script(self) -> bytes:
        return "".join(f"{it}\n" for it in self.lines).encode("utf-8", "surrogateescape")

    def _help(self, word: str = "") -> None:
        if word == "words":
            for name, kind in KINDS.items():
                more = f": {', '.join(kind.words)}" if kind.words else ""
                self._say(f"{name:<10} {kind.told}{more}")
            return
        forms = {it: told for it, told in {**FORMS, **OWN}.items() if not word or it.split()[0] == word}
        if not forms:
            raise ValueError(f"no line begins with {word}")
        for form, told in forms.items():
            self._say(f"{form:<45} {told}")

    # Completion: by the forms, and by what is there.

    def completedefault(self, *ignored: Any) -> list[str]:
        """What may stand where the cursor is: words, open messages, packets on the link."""
        text, line, begin, _ = ignored
        found: list[str] = []
        for place in wanted(line[:begin].split()):
            if place not in KINDS:
                found.append(place)
            elif place == "ID":
                found += [it.split()[2] for it in self._ask("show senders") if it.startswith("open")]
            elif place == "N":
                found += [it.split()[1] for it in self._ask("show link") if it.startswith("held")]
            else:
                found += KINDS[place].words
        return [f"{it} " for it in dict.fromkeys(found) if it.startswith(text)]

    def completenames(self, text: str, *ignored: object) -> list[str]:
        """The words with which lines begin."""
        return sorted({f"{it.split()[0]} " for it in [*FORMS, *OWN] if it.startswith(text)})


def _numbers(text: str) -> Iterable[int]:
    """The numbers of a list as `1-3,5`."""
    ends = [it.partition("-") for it in text.split(",")]
    spans = [range(int(first), int(last or first) + 1) for first, _, last in ends]
    if sum(map(len, spans)) > MOST_NUMBERS:
        raise ValueError(f"a list has {MOST_NUMBERS} numbers at most")
    return itertools.chain.from_iterable(spans)


def _look(text: str) -> str:
    """How a printed line looks."""
    first = text.split()[0]
    if first in ("refused", "broken", "expired", "ignored") or text.startswith("applied code"):
        return "bad"
    return "good" if first in ("released", "applied", "plain") else "faint" if first in ("put", "took", "clock") else ""


@contextlib.contextmanager
def _history() -> Iterator[None]:
    """Keeps the lines that are typed from one session to the next, where that is possible."""
    import readline

    readline.set_completer_delims(" ")
    readline.set_history_length(MOST_KEPT)
    state = os.environ.get("XDG_STATE_HOME") or "~/.local/state"
    path = pathlib.Path(state, "forgesilver/history").expanduser()
    with contextlib.suppress(OSError):
        readline.read_history_file(path)
    try:
        yield
    finally:
        with contextlib.suppress(OSError):
            path.parent.mkdir(parents=True, exist_ok=True)
            readline.write_history_file(path)


def main(script: str | None, *options: Word) -> int:
    """Answers the lines of a script, if one is given, and then those of standard input. The status is 1 if one of
    them was refused or unreadable."""
    at_terminal = sys.stdin.isatty()
    if isinstance(sys.stdin, io.TextIOWrapper):
        # The program says what can't be read.
        sys.stdin.reconfigure(errors="surrogateescape")
    coloured = sys.stdout.isatty() and not os.environ.get("NO_COLOR")
    shell = Shell(*options, prompt="lpt> " if at_terminal else "", coloured=coloured)
    try:
        if script is not None:
            for line in pathlib.Path(script).read_text("utf-8", "surrogateescape").splitlines():
                shell.answer(line)
        with _history() if at_terminal else contextlib.nullcontext():
            if at_terminal:
                print(GREETING, file=sys.stderr)
            while True:
                try:
                    shell.cmdloop()
                    return shell.status
                except KeyboardInterrupt:
                    shell.interrupted()
    finally:
        shell.close()
