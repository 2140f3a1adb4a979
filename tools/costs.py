"""What a check costs, in processor seconds.

costs.py run KEPT NAME COMMAND..     runs the command, adds to the file KEPT what it cost, and ends
                                     with the command's status
costs.py crates KEPT NAME COMMAND..  the same for a command that proves crates or tries their edits:
                                     also what each crate's proof, tests and must-fail edits cost
costs.py table KEPT                  prints the file as tables, and the ratio of the whole to the proof
                                     of one crate, if that was made: it says more than seconds do, since
                                     the machine's speed varies

A command's seconds are those that the system counted for it and for all that it started and waited
for. Those of crates are seen in /proc, four times a second: a process of the prover has --crate-name
among its words, --test where it proves tests, and works in a folder lpt-edit-* where it tries edits.
The builds of a program count as its proof. What a process used after it was last seen is in the whole
alone.

A line of KEPT is a name, a kind and seconds, with tabs between. Nothing here changes what a command
reads, writes or answers: where measuring fails, lines are missing, and that is told.
"""

import os
import resource
import signal
import subprocess
import sys

SECONDS_BETWEEN = 0.25
KINDS = ["proof", "tests", "edits"]
WHOLE = "whole"
# The crate whose proof is the measure.
MEASURE = "lpt_packet"
TICKS = os.sysconf("SC_CLK_TCK")


def processes():
    """Each process, by its number: its parent, its start, and its processor seconds.

    The seconds are its own and those of the processes that it has waited for.
    """
    found = {}
    for pid in (int(name) for name in os.listdir("/proc") if name.isdigit()):
        try:
            with open(f"/proc/{pid}/stat", encoding="utf-8", errors="replace") as file:
                # The name, in parentheses, may have spaces.
                fields = file.read().rpartition(")")[2].split()
        except OSError:
            continue
        found[pid] = int(fields[1]), fields[19], sum(map(int, fields[11:15])) / TICKS
    return found


def work_of(pid):
    """The crate that a process of the prover works for, and the kind of work; or None."""
    try:
        with open(f"/proc/{pid}/cmdline", encoding="utf-8", errors="replace") as file:
            words = file.read().split("\0")
        folder = os.path.basename(os.readlink(f"/proc/{pid}/cwd"))
    except OSError:
        return None
    if "--crate-name" not in words[:-1]:
        return None
    crate = words[words.index("--crate-name") + 1]
    kind = "tests" if "--test" in words else "proof"
    return crate, "edits" if folder.startswith("lpt-edit-") else kind


def below(top, found):
    """The numbers of the processes below this one, each after its parent.

    Numbers say nothing of who began whom: in a long run the system begins them again.
    """
    children = {}
    for pid, (parent, _, _) in found.items():
        children.setdefault(parent, []).append(pid)
    numbers = list(children.get(top, []))
    for pid in numbers:
        numbers += children.get(pid, [])
    return numbers


class Watch:
    """What the prover's processes below this one have used."""

    def __init__(self):
        # By a process's number and start: its work, and the seconds of it and of those below it.
        self.work, self.used = {}, {}

    def look(self):
        """Looks at the processes once."""
        found = processes()
        top, now = {}, {}
        for pid in below(os.getpid(), found):
            parent, start, seconds = found[pid]
            if parent in top:
                top[pid] = top[parent]
            elif (pid, start) in self.work or self.begins(pid, start):
                top[pid] = pid, start
            if pid in top:
                now[top[pid]] = now.get(top[pid], 0.0) + seconds
        for key, seconds in now.items():
            self.used[key] = max(seconds, self.used.get(key, 0.0))

    def begins(self, pid, start):
        """Whether a process that wasn't known is one of the prover's; from now on it is known."""
        work = work_of(pid)
        if work is not None:
            self.work[pid, start] = work
        return work is not None

    def lines(self):
        """The seconds of each crate and kind."""
        total = {}
        for key, seconds in self.used.items():
            crate, kind = self.work[key]
            total[crate, kind] = total.get((crate, kind), 0.0) + seconds
        return [(crate, kind, seconds) for (crate, kind), seconds in sorted(total.items())]


def run(kept, name, command, watch):
    """Runs a command, keeps what it cost, and gives its status."""
    child = subprocess.Popen(command)
    # Whoever ends this ends the command, also by Ctrl-C, which a command in a script's background ignores.
    for number in (signal.SIGTERM, signal.SIGHUP):
        signal.signal(number, lambda number, _: child.send_signal(number))
    signal.signal(signal.SIGINT, lambda *_: child.terminate())
    trouble = None
    while True:
        try:
            child.wait(timeout=SECONDS_BETWEEN)
            break
        except subprocess.TimeoutExpired:
            pass
        try:
            if watch is not None:
                watch.look()
        except Exception as error:  # pylint: disable=broad-except
            trouble = error
    used = resource.getrusage(resource.RUSAGE_CHILDREN)
    lines = [(name, WHOLE, used.ru_utime + used.ru_stime)]
    lines += watch.lines() if watch is not None else []
    try:
        keep(kept, lines)
    except OSError as error:
        trouble = error
    if trouble is not None:
        print(f"costs: not all of what {name} cost is known: {trouble}", file=sys.stderr)
    return child.returncode if child.returncode >= 0 else 128 - child.returncode


def keep(kept, lines):
    """Adds lines to the file of what was kept."""
    with open(kept, "a", encoding="utf-8") as file:
        file.write("".join(f"{name}\t{kind}\t{seconds:.2f}\n" for name, kind, seconds in lines))


def read(kept):
    """What was kept: the seconds of each name and kind."""
    cost = {}
    with open(kept, encoding="utf-8") as file:
        for line in file:
            name, kind, seconds = line.rstrip("\n").split("\t")
            cost[name, kind] = float(seconds)
    return cost


def table(kept):
    """Prints what was kept."""
    cost = read(kept)
    commands = [name for name, kind in cost if kind == WHOLE]
    crates = list(dict.fromkeys(name for name, kind in cost if kind != WHOLE))
    print("| Crate | Proof | Tests | Edits |\n|---|--:|--:|--:|")
    for crate in crates:
        print(f"| {crate} |", *(f"{cost.get((crate, kind), 0):.0f} |" for kind in KINDS))
    sums = [sum(cost.get((crate, kind), 0) for crate in crates) for kind in KINDS]
    print("| all |", *(f"{seconds:.0f} |" for seconds in sums))
    print("\n| Command | Whole |\n|---|--:|")
    for name in commands:
        print(f"| {name} | {cost[name, WHOLE]:.0f} |")
    whole = sum(cost[name, WHOLE] for name in commands)
    print(f"| all | {whole:.0f} |\n")
    measure = cost.get((MEASURE, "proof"))
    if measure is None:
        print(f"costs: {MEASURE} wasn't proved in this run, so there is no ratio")
        return
    print(f"costs: the proof of {MEASURE} took {measure:.1f} s; the whole is {whole / measure:.1f} times that")


def main(words):
    """Does what the words say."""
    if words[:1] == ["table"] and len(words) == 2:
        return table(words[1])
    if words[:1] in (["run"], ["crates"]) and len(words) > 3:
        return run(words[1], words[2], words[3:], Watch() if words[0] == "crates" else None)
    sys.exit(__doc__)


if __name__ == "__main__":
    sys.exit(main(sys.argv[1:]))
