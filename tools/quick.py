"""Tries a tree within minutes, and proves nothing: what ./check --quick is.

It compiles the program, the libraries for C and the tests in Rust, with the kit's checks in the code in place of
proofs. Beside that it runs the scripts of tests/ that such programs can carry, each as soon as what it wants is there,
in a copy of the tree. What was compiled here before, and reads the same, is taken. It names each script that it leaves
out, and why. Its last line is 'N passed, M failed', and its status is 0 where nothing failed.
"""

from __future__ import annotations

import os
import pathlib
import re
import resource
import shutil
import subprocess
import sys
import tempfile
import threading
import time

sys.dont_write_bytecode = True
import archive  # noqa: E402: it stands beside this file
import native  # noqa: E402
import unproved  # noqa: E402
from lanes import lanes  # noqa: E402

TOP = pathlib.Path(__file__).resolve().parent.parent
# What compiling a program takes at most.
GIB_A_PROGRAM = 3.0
TRIED = "crates/lpt/out/tried"
# What is kept in the tree for the next time.
KEPT = {"program": TRIED, "libraries": f"build/{unproved.FOLDER}", "native": "build/native"}
# What a script's text names that it wants.
WANTS = {
    "program": r"under_test|LPT_UNDER_TEST|\bDriver\(|plain/compare",
    "libraries": r"import archive\b|from archive\b|build-c",
    "native": r"\bnative\b",
}
ASKS_THE_PROVER = "it asks the prover"
LEFT_OUT = {
    "aarch64": "it runs libraries for another processor, which are only built with proofs",
    "edits": ASKS_THE_PROVER,
    "install": "it installs the proved program and libraries, and no others",
    "instructions": "it counts what the proved code takes",
    "limits": "it runs the proved program by ./lpt",
    "not_dropped": ASKS_THE_PROVER,
    "statements": ASKS_THE_PROVER,
}
# What a script is asked for in place of more.
SHORTENED = {"bus": ["--seconds", "15", "--kills", "100"]}
NUMBERS = re.compile(r"^(?:[a-z0-9_]+: )?(\d+) passed, (\d+) failed$", re.M)


def copy_tree(top: pathlib.Path, room: pathlib.Path) -> None:
    """Copies a tree, and what was compiled there before."""
    without = [f"--exclude={it}" for it in ("./.git", "./build", "./crates/*/out")]
    packed = subprocess.Popen(["tar", "-C", top, "-c", *without, "."], stdout=subprocess.PIPE)
    subprocess.run(["tar", "-C", room, "-x"], stdin=packed.stdout, check=True)
    if packed.wait():
        sys.exit("quick: the tree can't be copied")
    for place in KEPT.values():
        bring(place, top, room)


def bring(place: str, of: pathlib.Path, to: pathlib.Path) -> None:
    """Copies a folder of what was compiled from one tree to another; files for pkg-config name their own tree."""
    if not (of / place).is_dir():
        return
    (to / place).mkdir(parents=True, exist_ok=True)
    for file in sorted((of / place).iterdir()):
        if not file.is_file() or file.suffix == ".lock":
            continue
        new = to / place / f".{file.name}.{os.getpid()}"
        shutil.copy2(file, new)
        if file.suffix == ".pc":
            new.write_text(file.read_text(encoding="utf-8").replace(f"prefix={of}\n", f"prefix={to}\n"))
        new.replace(to / place / file.name)


def give_libraries(room: pathlib.Path) -> None:
    """Puts the libraries where scripts look for proved ones. Their version says what they are."""
    for file in (room / KEPT["libraries"]).iterdir():
        if file.is_file():
            shutil.copy2(file, room / "build" / file.name)
    for file in (room / "build").glob("*.pc"):
        file.write_text(file.read_text(encoding="utf-8").replace(KEPT["libraries"], "build"), encoding="utf-8")
    (room / "build/sums").write_text(archive.sums(room), encoding="utf-8")


class Quick:
    """A run of it: what is there, what passed, what failed."""

    def __init__(self, room: pathlib.Path) -> None:
        self.room, self.passed, self.failed, self.begun = room, 0, 0, time.monotonic()
        self.said, self.there = threading.Lock(), {name: threading.Event() for name in KEPT}
        self.missing: set[str] = set()
        processors = len(os.sched_getaffinity(0))
        # Many scripts wait most of their time.
        self.builds, self.runs = threading.Semaphore(lanes(GIB_A_PROGRAM)), threading.Semaphore(2 * processors)
        self.ways = {**os.environ, "LPT_BUILD": "never", "LPT_UNDER_TEST": str(room / TRIED / "lpt")}
        self.ways.pop("FORGESILVER_LIB", None)

    def count(self, name: str, status: int, text: str) -> None:
        """Counts by the last line with numbers, as ./check does, and tells what was said."""
        found = NUMBERS.findall(text)
        right, wrong = map(int, found[-1]) if found else (int(status == 0), 0)
        if (status and not wrong) or right + wrong == 0:
            wrong = 1
        with self.said:
            self.passed, self.failed = self.passed + right, self.failed + wrong
            print(f"== {name}, {time.monotonic() - self.begun:.0f} s\n{text.rstrip()}", flush=True)

    def ask(self, name: str, words: list[str]) -> int:
        """Runs a command of the room, and counts what it says."""
        ran = subprocess.run(words, cwd=self.room, env=self.ways, stdin=subprocess.DEVNULL, stdout=subprocess.PIPE,
                             stderr=subprocess.STDOUT, text=True, errors="replace")
        self.count(name, ran.returncode, ran.stdout)
        return ran.returncode

    def compile(self, name: str, commands: list[list[str]]) -> None:
        """Compiles what scripts wait for, by commands that go side by side, and keeps it for the next time."""
        statuses: list[int] = []

        def one(words: list[str]) -> None:
            with self.builds:
                statuses.append(self.ask(" ".join([name, *words[4:]]), words))

        side_by_side([threading.Thread(target=one, args=(it,)) for it in commands])
        if any(statuses):
            self.missing.add(name)
        else:
            bring(KEPT[name], self.room, TOP)
            if name == "libraries":
                give_libraries(self.room)
        self.there[name].set()

    def script(self, name: str) -> None:
        """Runs a script once what it wants is there."""
        text = (self.room / "tests" / name).read_text(encoding="utf-8")
        wanted = [it for it, pattern in WANTS.items() if re.search(pattern, text)]
        for it in wanted:
            self.there[it].wait()
        if self.missing & set(wanted):
            return self.count(name, 1, f"{name} wants what couldn't be compiled")
        with self.runs:
            # What scripts wait for goes first.
            self.ask(name, ["nice", str(self.room / "tests" / name), *SHORTENED.get(name, [])])

    def all(self) -> None:
        """Compiles everything, and runs the scripts."""
        python = [sys.executable, "-B"]
        compiled = {
            "program": [["bash", "tools/build", "tried"]],
            "libraries": [[*python, "tools/unproved.py", "."]],
            "native": [[*python, "tools/native.py", ".", it] for it in reversed(native.folders(self.room))],
        }
        scripts = sorted(it.name for it in (self.room / "tests").iterdir() if it.is_file() and it.name not in LEFT_OUT)
        works = [threading.Thread(target=self.compile, args=it) for it in compiled.items()]
        works += [threading.Thread(target=self.ask, args=("tools/house.py", [*python, "tools/house.py"]))]
        side_by_side([*works, *(threading.Thread(target=self.script, args=(it,)) for it in scripts)])


def side_by_side(works: list[threading.Thread]) -> None:
    """Begins works in this order, and waits for all."""
    for it in works:
        it.start()
    for it in works:
        it.join()


def main() -> int:
    """All of it."""
    with tempfile.TemporaryDirectory(prefix="lpt-quick-") as folder:
        room = pathlib.Path(folder).resolve()
        copy_tree(TOP, room)
        run = Quick(room)
        run.all()
    used = resource.getrusage(resource.RUSAGE_CHILDREN)
    print()
    for name, why in LEFT_OUT.items():
        print(f"left out: {name}: {why}")
    for name, words in SHORTENED.items():
        print(f"shortened: {name} {' '.join(words)}")
    print(f"{used.ru_utime + used.ru_stime:.0f} processor seconds, {time.monotonic() - run.begun:.0f} by the clock")
    print("nothing was proved: the checks in the code ran in place of proofs")
    print(f"{run.passed} passed, {run.failed} failed")
    return int(run.failed != 0)


if __name__ == "__main__":
    sys.exit(main())
