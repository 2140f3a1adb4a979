"""Counts the instructions of a run by valgrind, for tests/instructions and bench/measure.py."""

import pathlib
import re
import subprocess
import tempfile

# The environment of what is counted: its length counts, and so would the copies that a processor has of its own.
AROUND = {"PATH": "/usr/bin:/bin", "GLIBC_TUNABLES": "glibc.cpu.hwcaps=-AVX2,-AVX2_Usable,-AVX512F,-AVX512VL,-ERMS,-FSRM"}
VALGRIND = ["valgrind", "--tool=cachegrind", "--cache-sim=no", "--cachegrind-out-file=/dev/null"]


def instructions(words, read, statuses=(0,), said=None):
    """How many instructions a run takes that reads a file, and ends with one of these statuses. What it says goes to
    the file `said`, if there is one."""
    with tempfile.TemporaryDirectory() as folder:
        log = pathlib.Path(folder, "log")
        # A file, since how much a read of a pipe gives depends on what else is at work.
        with open(read, "rb") as file:
            counting = [*VALGRIND, f"--log-file={log}", *words]
            ran = subprocess.run(counting, stdin=file, stdout=subprocess.DEVNULL, stderr=said, check=False, env=AROUND)
        if ran.returncode not in statuses:
            raise subprocess.CalledProcessError(ran.returncode, words)
        return int(re.search(r"I +refs: +([\d,]+)", log.read_text(encoding="utf-8"))[1].replace(",", ""))
