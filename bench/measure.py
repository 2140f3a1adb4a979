"""Runs the program on the scripts of workloads.py, and prints what that took.

measure.py alone PROGRAM REQUESTS FOLDER RUNS: as a table; then what requests took, by the program
REQUESTS, which measures those.
measure.py against PROGRAM OTHER FOLDER RUNS: beside another program, in pairs of runs, as ratios.
measure.py counts PROGRAM OTHER FOLDER RUNS: beside another program, the instructions, the pages that
are touched for the first time and the most memory, as ratios.
"""

import os
import statistics
import subprocess
import sys
import time
from typing import NamedTuple

sys.dont_write_bytecode = True

from counting import instructions  # noqa: E402: it stands beside this file
from workloads import WORKLOADS  # noqa: E402

# An event may have been refused, as some are meant to be.
GOOD_STATUSES = (0, 1)
# How often what takes nearly no time is run.
SHORT_RUNS = 100


class Run(NamedTuple):
    """What a run of a program did and took: seconds from its start to its end, its own, and page faults."""

    status: int
    length: int
    text: bytes
    seconds: float
    processor: float
    faults: int


def run(words, script, keeps=False):
    """Runs a program once, and keeps what it writes if that is asked for."""
    read, write = os.pipe()
    actions = [
        (os.POSIX_SPAWN_OPEN, 0, script, os.O_RDONLY, 0),
        (os.POSIX_SPAWN_DUP2, write, 1),
    ]
    begun = time.monotonic()
    child = os.posix_spawn(words[0], words, os.environ, file_actions=actions)
    os.close(write)
    length, kept = 0, []
    while chunk := os.read(read, 1 << 20):
        length += len(chunk)
        if keeps:
            kept.append(chunk)
    _, status, usage = os.wait4(child, 0)
    seconds = time.monotonic() - begun
    os.close(read)
    status = os.waitstatus_to_exitcode(status)
    processor = usage.ru_utime + usage.ru_stime
    return Run(status, length, b"".join(kept), seconds, processor, usage.ru_minflt)


def peak(words, script, folder):
    """The most memory that a program has at a time, in octets."""
    told = os.path.join(folder, "peak")
    run(["/usr/bin/time", "-q", "-f", "%M", "-o", told, *words], script)
    with open(told, encoding="ascii") as file:
        return int(file.read()) * 1024


def median_seconds(words, script, runs):
    """The median seconds of some runs, and how much each wrote."""
    taken, lengths = [], set()
    for _ in range(runs):
        ran = run(words, script)
        if ran.status not in GOOD_STATUSES:
            sys.exit(f"{words} on {script}: status {ran.status}")
        taken.append(ran.seconds)
        lengths.add(ran.length)
    if len(lengths) > 1:
        sys.exit(f"{words} on {script}: {sorted(lengths)} octets written")
    return statistics.median(taken), lengths.pop()


def written(workload, folder):
    """Writes a workload's script and configuration: its path, and the program's words for it."""
    script = os.path.join(folder, workload.name)
    words = ["run", "-"]
    with open(script, "w", encoding="ascii") as file:
        file.write(workload.script())
    if workload.config is not None:
        with open(script + ".toml", "w", encoding="ascii") as file:
            file.write(workload.config)
        words += ["--config", script + ".toml"]
    return script, words


# ---- The program alone


def print_scripts(program, folder, runs):
    """Prints a table, a line a workload."""
    print("| Workload | Lines | Octets | Printed | Seconds | Lines/s | MB/s | Peak MB |")
    print("|---|--:|--:|--:|--:|--:|--:|--:|")
    for workload in WORKLOADS:
        script, words = written(workload, folder)
        count = os.path.getsize(script)
        with open(script, encoding="ascii") as file:
            lines = sum(1 for _ in file)
        seconds, printed = median_seconds([program, *words], script, runs if count else SHORT_RUNS)
        memory = peak([program, *words], script, folder)
        print(
            f"| {workload.title} | {lines:,} | {count:,} | {printed:,} | {seconds:.4f} "
            f"| {lines / seconds:,.0f} | {count / seconds / 1e6:.1f} | {memory / 1e6:.1f} |",
            flush=True,
        )
    for title, words in [
        ("Start-up: `--version`", [program, "--version"]),
        ("`/bin/true`, to compare", ["/bin/true"]),
    ]:
        seconds, _ = median_seconds(words, os.devnull, SHORT_RUNS)
        memory = peak(words, os.devnull, folder)
        print(f"| {title} | | | | {seconds:.4f} | | | {memory / 1e6:.1f} |")


def print_requests(program, runs):
    """Prints a table of what a program says of requests: the median seconds for all the octets."""
    taken = {}
    for _ in range(runs):
        told = subprocess.run([program], check=True, capture_output=True, encoding="ascii").stdout
        for line in told.splitlines():
            name, count, times, seconds = line.split("|")
            taken.setdefault((name, int(count)), []).append(float(seconds) / int(times))
    print("| Requests | Octets | Seconds | Octets/s |")
    print("|---|--:|--:|--:|")
    for (name, count), all_seconds in taken.items():
        seconds = statistics.median(all_seconds)
        print(f"| {name} | {count:,} | {seconds:.6f} | {count / seconds:,.0f} |")


# ---- Beside another program


def ratios(pairs):
    """The median of the ratios of pairs, the least and the greatest, as three columns."""
    found = [one / other for one, other in pairs]
    return f"{statistics.median(found):.2f} | {min(found):.2f} | {max(found):.2f}"


def medians(pairs, unit, digits):
    """The median of each side of pairs, as two columns."""
    return " | ".join(f"{statistics.median(side) / unit:.{digits}f}" for side in zip(*pairs))


def compare(programs, words, script):
    """Wants that both print the same, and end as they should."""
    ran = [run([program, *words], script, keeps=True) for program in programs]
    if len({(it.status, it.text) for it in ran}) > 1 or ran[0].status not in GOOD_STATUSES:
        sys.exit(f"{words} on {script}: the programs print different text, or end differently")


def print_against(programs, folder, runs):
    """Prints a table of ratios, a line a workload. Both have to print the same first."""
    columns = " | Other's | Ratio | Least | Greatest |"
    print(f"| Workload | Seconds{columns} Peak MB{columns}")
    print("|---|" + "--:|" * 10)
    for workload in WORKLOADS:
        script, words = written(workload, folder)
        compare(programs, words, script)
        times, peaks = [], []
        for n in range(runs if os.path.getsize(script) else SHORT_RUNS):
            # Each program is the first one in every other pair.
            order = programs[:: 1 if n % 2 == 0 else -1]
            seconds = {it: run([it, *words], script).processor for it in order}
            times.append([seconds[it] for it in programs])
            if n < runs:
                memory = {it: peak([it, *words], script, folder) for it in order}
                peaks.append([memory[it] for it in programs])
        print(
            f"| {workload.title} | {medians(times, 1, 4)} | {ratios(times)} "
            f"| {medians(peaks, 1e6, 1)} | {ratios(peaks)} |",
            flush=True,
        )


def beside(one, other, unit=1, digits=0):
    """Two numbers and their ratio, as three columns."""
    return f"{one / unit:.{digits}f} | {other / unit:.{digits}f} | {one / other:.2f}"


def print_counts(programs, folder, runs):
    """Prints a table of what is counted, a line a workload. Both have to print the same first."""
    columns = " | Other's | Ratio |"
    print(f"| Workload | Instructions{columns} Page faults{columns} Peak MB{columns}")
    print("|---|" + "--:|" * 9)
    for workload in WORKLOADS:
        script, words = written(workload, folder)
        compare(programs, words, script)
        counts = [instructions([it, *words], script, GOOD_STATUSES) for it in programs]
        faults, peaks = [], []
        for program in programs:
            ran = [run([program, *words], script).faults for _ in range(runs)]
            faults.append(statistics.median(ran))
            peaks.append(statistics.median(peak([program, *words], script, folder) for _ in range(runs)))
        print(
            f"| {workload.title} | {beside(*counts)} | {beside(*faults)} | {beside(*peaks, 1e6, 1)} |",
            flush=True,
        )


def main():
    """Prints the tables."""
    way, program, other, folder, runs = *sys.argv[1:5], int(sys.argv[5])
    if way != "alone":
        {"against": print_against, "counts": print_counts}[way]([program, other], folder, runs)
        return
    print_scripts(program, folder, runs)
    print()
    print_requests(other, runs)


if __name__ == "__main__":
    main()
