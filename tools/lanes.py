"""How many works this machine can do side by side: one a processor, and as many as its free memory holds.

lanes.py    prints how many crates can be proved side by side, which `rt ci` takes from RT_JOBS
"""

from __future__ import annotations

import os
import pathlib
import re
import sys

# What a proof takes at most, but for the program's; what a run of a crate's edits does.
GIB_A_PROOF = 3.5
GIB_AN_EDIT = 3.0


def free_gib() -> float:
    """How much memory is free, in GiB."""
    kib = re.search(r"MemAvailable: *(\d+)", pathlib.Path("/proc/meminfo").read_text(encoding="ascii"))[1]
    return int(kib) / (1 << 20)


def lanes(gib: float) -> int:
    """How many works that take so much memory each can be done side by side; one at the least."""
    return max(1, min(len(os.sched_getaffinity(0)), int(free_gib() / gib)))


if __name__ == "__main__":
    if len(sys.argv) != 1:
        sys.exit(__doc__)
    print(lanes(GIB_A_PROOF))
