"""Runs the program, with a limit of time."""

import os
import pathlib
import signal
import subprocess
import sys
import tempfile
from typing import NamedTuple

TOP = pathlib.Path(__file__).resolve().parent.parent.parent
LONGEST_RUN_SECONDS = 60
# It tells what a run took; where it isn't there, nothing is told of that.
METER = pathlib.Path("/usr/bin/time")


class Difference(Exception):
    """The program did something else than the model."""


class Outcome(NamedTuple):
    """What a run of the program did, and took."""

    status: int
    printed: bytes
    complaint: bytes
    seconds: float
    peak: int


def wait_for(child):
    """Waits for a child: its status. It and its group are stopped where it takes too long."""
    signal.signal(signal.SIGALRM, lambda *_: os.killpg(child.pid, signal.SIGKILL))
    signal.alarm(LONGEST_RUN_SECONDS)
    status = child.wait()
    signal.alarm(0)
    return status


class Program:
    """The program, run in a folder of its own, each time with a limit of time."""

    def __init__(self, path, folder):
        self.path = path
        self.folder = folder
        self.greatest = {}

    def run(self, words, script):
        """Runs the program once; METER tells what it took, apart from this process."""
        told, read = self.folder / "took", self.folder / "stdin"
        told.write_text("0 0 0")
        read.write_bytes(script)
        meter = [str(METER), "-q", "-f", "%U %S %M", "-o", str(told)] if METER.exists() else []
        with read.open("rb") as stdin, self._file() as stdout, self._file() as stderr:
            child = subprocess.Popen(
                [*meter, str(self.path), *words],
                stdin=stdin,
                stdout=stdout,
                stderr=stderr,
                start_new_session=True,
            )
            status = wait_for(child)
            stdout.seek(0)
            stderr.seek(0)
            printed, complaint = stdout.read(), stderr.read()
        if status < 0:
            raise Difference(f"the run took more than {LONGEST_RUN_SECONDS} seconds")
        user, system, peak = told.read_text().split()[-3:]
        return Outcome(status, printed, complaint, float(user) + float(system), int(peak) * 1024)

    def _file(self):
        """A file that is gone once it is closed."""
        return tempfile.TemporaryFile(dir=self.folder)

    def note(self, kind, octets, outcome):
        """Keeps the most that a run of a kind took, and for how many octets of input."""
        seconds, peak = self.greatest.get(kind, ((0, 0), (0, 0)))
        seconds = max(seconds, (outcome.seconds, octets))
        self.greatest[kind] = seconds, max(peak, (outcome.peak, octets))


def built_program():
    """The program under test, or the one that ./lpt makes, where that is built."""
    if os.environ.get("LPT_UNDER_TEST"):
        return pathlib.Path(os.environ["LPT_UNDER_TEST"]).absolute()
    environment = {**os.environ, "LPT_BUILD": "never"}
    words = [TOP / "lpt", "--version"]
    if subprocess.run(words, env=environment, stdout=subprocess.DEVNULL).returncode != 0:
        sys.exit("hostile: build the program by ./lpt prove")
    return TOP / "crates/lpt/out/lpt"
