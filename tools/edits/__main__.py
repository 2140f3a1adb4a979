"""Tries the must-fail edits of crates, and prints a verdict on each.

edits [--anew | --note] [--beside LOG] ROOM [CRATE..]
                                ROOM is a copy of the repository in which `rt ci` has proved every crate and
                                built every library. Sources and libraries are the copy's; the edits are
                                read here, those of all crates if none is named. --anew goes by no line
                                'goal:' of an edit, and writes it; --note writes those that don't fit any
                                more. With --beside `rt ci` is still at work there and writes to LOG: a
                                crate's edits begin once LOG says that it is proved, or once the file
                                LOG.ended is there. What an earlier run on this machine refused isn't tried
                                again (kept.py), but with --anew.

A line for each edit, how many were tried and how many are kept, and last 'edits: N passed, M failed'. How they
are tried is told in __init__.py.
"""

from __future__ import annotations

import os
import pathlib
import re
import sys
import time
from concurrent.futures import FIRST_COMPLETED, Future, ThreadPoolExecutor, wait
from typing import Callable, Iterator, Optional

sys.dont_write_bytecode = True
TOOLS = pathlib.Path(__file__).resolve().parent.parent
sys.path[0] = str(TOOLS)

from crates import libraries  # noqa: E402: it stands beside this package
from edits.crate import Crate  # noqa: E402
from edits.kept import shrink, store  # noqa: E402
from edits.report import Verdict  # noqa: E402
from edits.trial import How, verdicts  # noqa: E402
from lanes import GIB_AN_EDIT, free_gib, lanes  # noqa: E402

STANDS = re.compile(r"^rt: (\w+) (?:proved$|is kept:)", re.MULTILINE)
SECONDS_BETWEEN = 2
# While crates are proved beside it, a run of edits begins if so much memory is free.
GIB_TO_BEGIN = 7


class Ready:
    """Which crates stand, so that their edits can be tried."""

    def __init__(self, log: Optional[pathlib.Path]) -> None:
        self.log = log

    @property
    def is_ended(self) -> bool:
        """Whether nothing is proved any more."""
        return self.log is None or pathlib.Path(f"{self.log}.ended").exists()

    def among(self, names: list[str]) -> list[str]:
        """Those of these crates that stand, while memory is left for their edits."""
        if self.is_ended:
            return names
        if free_gib() < GIB_TO_BEGIN or not self.log or not self.log.exists():
            return []
        said = set(STANDS.findall(self.log.read_text(encoding="utf-8", errors="replace")))
        return [it for it in names if it in said]


Verdicts = list[tuple[str, Verdict]]


def tried(order: list[str], ready: Ready, trial: Callable[[str], Verdicts]) -> Iterator[tuple[str, Verdict]]:
    """Tries the edits of these crates side by side, each once it stands, and the first of them first. While
    crates are proved beside them, half as many are tried at a time."""
    left, count = list(order), lanes(GIB_AN_EDIT)
    running: set[Future[Verdicts]] = set()
    with ThreadPoolExecutor(count) as pool:
        while left or running:
            most = count if ready.is_ended else max(1, count // 2)
            for name in ready.among(left)[: max(0, most - len(running))]:
                left.remove(name)
                running.add(pool.submit(trial, name))
            if not running:
                time.sleep(SECONDS_BETWEEN)
                continue
            ended, running = wait(running, SECONDS_BETWEEN, FIRST_COMPLETED)
            for it in ended:
                yield from it.result()


def main(room: pathlib.Path, names: list[str], how: How, log: Optional[pathlib.Path]) -> int:
    """Tries the edits of these crates, or of all, those with most edits first."""
    known = libraries(room)
    folders = {it: TOOLS.parent / "crates" / it / "must-fail" for it in names or known}
    folders = {name: folder for name, folder in folders.items() if folder.is_dir()}
    order = sorted(folders, key=lambda it: -len(os.listdir(folders[it])))
    passed = failed = kept = 0

    def trial(name: str) -> Verdicts:
        # On a new machine `rt ci` makes the store while it is at work.
        return verdicts(Crate(room, name, known), folders[name], how, store())

    for name, verdict in tried(order, Ready(log), trial):
        print(f"must-fail {name}: {verdict.reason}{' (kept)' if verdict.is_kept else ''}", flush=True)
        passed, failed = passed + verdict.is_refused, failed + (not verdict.is_refused)
        kept += verdict.is_kept
    shrink(store())
    print(f"edits: {passed + failed - kept} were tried, and {kept} were refused by an earlier run on this machine")
    print(f"edits: {passed} passed, {failed} failed")
    return 1 if failed or not passed else 0


if __name__ == "__main__":
    words, how, log = sys.argv[1:], How.AS_NOTED, None
    if words[:1] in (["--anew"], ["--note"]):
        how, words = How(words[0]), words[1:]
    if words[:1] == ["--beside"] and words[1:]:
        log, words = pathlib.Path(words[1]).resolve(), words[2:]
    if not words or words[0].startswith("-"):
        sys.exit(__doc__)
    sys.exit(main(pathlib.Path(words[0]).resolve(), words[1:], how, log))
