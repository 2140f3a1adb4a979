"""Compares what the program does with what the model says."""

import pathlib
import shlex
import tempfile

import model

from .changes import CHANGES, change_lines, changed
from .configurations import GOOD_CONFIGURATION, HAS_TOML, calm_settings_by, settings_by, written
from .examples import RULES, examples, has_threads
from .program import Difference
from .threads import ThreadsWriter
from .writing import Writer

# Shows what a configuration means, but for its memories.
PROBE = b"""plain 15 6 9 0101000000000002
show packet 0
pass s1 0
work
show packet 1
show packet 2
open up 7 000102030405060708090a0b0c0d0e0f1011
open up 8 000102030405060708090a0b0c0d0e0f1011
send up 7 1
send up 8 1
pass s1 5
pass s1 6
tick craft 10
expire craft
show journal
"""


class Trial:
    """Inputs in turns: what the program does with each is compared with the model."""

    def __init__(self, chance, program, folder):
        self.chance = chance
        self.program = program
        self.folder = folder
        kinds = ["scripts", "changed scripts", "scripts with threads", "packets"]
        self.counts = dict.fromkeys(kinds + ["configurations"] * HAS_TOML, 0)
        self.good = [path.read_bytes() for path in examples() if not has_threads(path)]
        self.packets = [b"\x07\xff\xc0\x00\x00\x00\x00"]
        # What the last run was given.
        self.given = {}
        self.words = []

    def turn(self):
        """One turn: an input of each kind."""
        settings = settings_by(self.chance)
        writer = Writer(self.chance, settings)
        script = writer.script()
        self.packets = self.packets[-200:] + [octets for _, octets in writer.world.link.packets]
        self.compare("scripts", script, settings)
        if self.chance.random() < 0.5:
            script, settings = self.chance.choice(self.good), model.Settings()
        ways = CHANGES + [change_lines] * 4
        self.compare("changed scripts", changed(self.chance, script, ways), settings)
        settings = calm_settings_by(self.chance)
        script = ThreadsWriter(self.chance, settings).script()
        self.compare("scripts with threads", script, settings, "threads")
        for _ in range(4):
            self.decode(settings)
        if HAS_TOML:
            self.configure()

    def run(self, kind, words, files, length):
        """Runs the program on words and files, which are kept until the next run.

        `length` is how many octets its input counts for.
        """
        for name, octets in files.items():
            (self.folder / name).write_bytes(octets)
        self.given, self.words = files, words
        self.counts[kind] += 1
        paths = [str(self.folder / word) if word in files else word for word in words]
        outcome = self.program.run(paths, files.get("script", b""))
        self.program.note(kind, length, outcome)
        if outcome.status not in (0, 1, 2, 3):
            raise Difference(f"the program ended with status {outcome.status}")
        return outcome

    def expect(self, outcome, printed, status, complaint=b"", place=b""):
        """Compares what a run did with what is wanted. Behind a place on standard error anything may stand."""
        self.given = {**self.given, "wanted": printed, "got": outcome.printed}
        if outcome.printed != printed:
            raise Difference("the program printed something else")
        if outcome.status != status:
            raise Difference(f"status {outcome.status}, and the model has {status}")
        first = outcome.complaint.split(b"\n")[0]
        if not first.startswith(place) or (first != complaint and not place):
            raise Difference(f"standard error has {first!r}, and the model has {complaint!r}")

    def compare(self, kind, script, settings, command="run"):
        """Compares a script's run."""
        files = {"script": script, "settings.toml": written(settings)}
        words = [command, "-", "--config", "settings.toml"]
        outcome = self.run(kind, words, files, len(script))
        printed, status = RULES[command](script, settings)
        self.expect(outcome, printed.encode(), status, place=place_of(printed) if status == 2 else b"")

    def decode(self, settings):
        """Compares what is said of a packet, changed or not, or of random octets."""
        octets, chance = self.chance.choice(self.packets), self.chance
        if chance.random() < 0.15:
            octets = chance.randbytes(chance.choice([0, 3, 7, 8, 20, 60000]))
        elif chance.random() < 0.7:
            octets = changed(chance, octets, CHANGES)
        if chance.random() < 0.5:
            octets = mended(octets)
        words = ["decode", octets.hex() or "-", "--config", "settings.toml"]
        files = {"settings.toml": written(settings)}
        outcome = self.run("packets", words, files, len(octets))
        printed, status = model.decode(octets, settings.part_size)
        told = model.complaint(octets, settings.part_size)
        self.expect(outcome, printed.encode(), status, told.encode())

    def configure(self):
        """Compares what a changed configuration means; one in two has a change of lines."""
        text = changed(self.chance, GOOD_CONFIGURATION, CHANGES + [change_lines] * 4)
        settings = model.settings_of(text)
        memory = () if settings is None else settings.memory
        shown = [f"show memory {name} 0 {size}\n" for name, size, _ in memory]
        script = PROBE + "".join(shown).encode()
        files = {"script": script, "settings.toml": text}
        words = ["run", "-", "--config", "settings.toml"]
        outcome = self.run("configurations", words, files, len(text))
        if settings is None:
            self.expect(outcome, b"", 2, b"config refused")
        else:
            printed, status = model.run(script, settings)
            self.expect(outcome, printed.encode(), status)

    def keep(self):
        """Keeps the last run's input in a folder: how to run it again."""
        folder = pathlib.Path(tempfile.mkdtemp(prefix="hostile-"))
        for name, octets in self.given.items():
            (folder / name).write_bytes(octets)
        words = [str(folder / word) if word in self.given else word for word in self.words]
        line = shlex.join([str(self.program.path), *words])
        line += f" <{folder / 'script'}" if "script" in self.given else ""
        (folder / "run").write_text(line + "\n")
        return folder


def place_of(printed):
    """What begins the line on standard error that tells why the last line of a script is unreadable."""
    number = printed.rsplit("line ", 1)[1].split(":")[0]
    return f"lpt: standard input:{number}:".encode()


def mended(octets):
    """Octets whose length field and checksum are right, where they have both."""
    if len(octets) < 8:
        return octets
    front = octets[:4] + (len(octets) - 7).to_bytes(2, "big") + octets[6:-2]
    return front + model.checksum(front)
