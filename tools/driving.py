"""What the scripts of tests/ in Python share: the program, and the count of cases."""

import importlib
import os
import pathlib
import subprocess
import sys

TOP = pathlib.Path(__file__).resolve().parent.parent
LONGEST_RUN_SECONDS = 60


def octets_text(count):
    """So many octets, in words."""
    return f"{count} octet{'s' if count != 1 else ''}"


def beside_misfits(ran):
    """What a run came to, without the note that the message is no packet of its direction."""
    status, printed, said = ran
    return status, printed, [line for line in said if not line.startswith("lpt: the message is no packet")]


def clashes(areas, start=0):
    """The runs of addresses from a start on for which areas contradict one another."""
    held, found = {}, set()
    for address, octets in areas:
        found |= {at for at, octet in enumerate(octets, address) if at >= start and held.get(at, octet) != octet}
        held |= dict(enumerate(octets, address))
    runs = []
    for at in sorted(found):
        if runs and at == runs[-1][1] + 1:
            runs[-1][1] = at
        else:
            runs.append([at, at])
    return [f"{first}-{last}" if first < last else first for first, last in runs]


def is_there(program):
    """Whether the program under test starts. The built one has to be of what the sources are now."""
    if "LPT_UNDER_TEST" not in os.environ:
        program = TOP / "lpt"
    environment = {**os.environ, "LPT_BUILD": "never"}
    return subprocess.run([program, "--version"], env=environment, stdout=subprocess.DEVNULL).returncode == 0


class Driver:
    """A script of tests/ by this name: it runs the program under test, and counts its cases."""

    def __init__(self, name, is_built=True):
        self.name = name
        self.passed = 0
        self.failed = 0
        self.program = importlib.import_module("under_test").PROGRAM if is_built else None
        if is_built and not is_there(self.program):
            print(f"{name}: 0 passed, 1 failed")
            sys.exit(1)

    def run(self, words, read=b"", environment=None):
        """Runs the program: its status, what it printed, and the lines of its complaint."""
        return self.ran([self.program, *words], read, environment)

    def package(self, words, read=b""):
        """The same of a command of the package for Python."""
        there = {"PYTHONPATH": str(TOP / "python"), "PYTHONDONTWRITEBYTECODE": "1"}
        return self.ran([sys.executable, "-m", "forgesilver", *words], read, there)

    def ran(self, command, read, environment):
        """The same of any command."""
        try:
            ran = subprocess.run(
                command,
                input=read,
                capture_output=True,
                env={**os.environ, **(environment or {})},
                timeout=LONGEST_RUN_SECONDS,
            )
        except subprocess.TimeoutExpired:
            return "no end", b"", []
        return ran.returncode, ran.stdout, ran.stderr.decode(errors="replace").splitlines()

    def verdict(self, case, got, wanted):
        """Counts a case, by what came of it and what was wanted. The first failures are told."""
        if got == wanted:
            self.passed += 1
            return
        self.failed += 1
        if self.failed <= 10:
            print(f"failed: {case}: {shortened(got)}\n  in place of {shortened(wanted)}")

    def end(self):
        """Tells the counts, and ends the script."""
        print(f"{self.name}: {self.passed} passed, {self.failed} failed")
        sys.exit(self.failed != 0)


def shortened(value):
    """A value as it is told."""
    text = repr(value)
    return text if len(text) <= 300 else f"{text[:300]} .. ({len(text)} characters)"


def preloaded(source, folder):
    """Compiles a file of tools/ to stand before the C library, by the kit's own compiler."""
    said = subprocess.run(["rt", "doc"], capture_output=True, text=True, check=True).stdout
    kit = pathlib.Path(said.strip()).parent / "toolchain/bin"
    made = pathlib.Path(folder) / f"{source}.so"
    words = ["-shared", "-fPIC", "-nostdlib", "-O1", "-o", made, TOP / "tools" / f"{source}.c"]
    subprocess.run([kit / "clang", f"--ld-path={kit}/ld.lld", *words], check=True)
    return made
