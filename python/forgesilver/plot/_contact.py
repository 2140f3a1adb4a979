"""A contact: a column for each round, a row for each request, and what became of it in the round."""

from __future__ import annotations

import dataclasses
import json
import os
import pathlib
from collections.abc import Iterable
from typing import Any, Union

from ._page import TITLE, WIDE, WIDE_TITLE, Page, Picture, plural
from ._stream import spans

LEFT, COLUMN, HEAD, SPACE = 78.0, 60.0, 46.0, 38.0
# So many rows a job has at most: with more requests each row has several.
MOST_ROWS = 96
# So many stretches of octets are told of a job.
MOST_NOTES = 8
#: What was said of a contact: a file, or its objects.
Report = Union[str, "os.PathLike[str]", "Iterable[dict[str, Any]]"]


def numbers(text: str) -> set[int]:
    """The requests of a list as the program writes it: `1-3,5`."""
    return {it for first, last in spans(text, 0) for it in range(first, last + 1)}


@dataclasses.dataclass
class Round:
    """The requests that were sent, completed and failed in a round."""

    number: int
    sent: set[int]
    completed: set[int]
    failed: set[int]


@dataclasses.dataclass
class Job:
    """A job of a contact: its rounds, how it ended, and what is said of octets."""

    rounds: list[Round]
    end: dict[str, Any]
    notes: list[str]

    @property
    def requests(self) -> int:
        """How many requests the job has."""
        return int(self.end["requests"])

    def rows(self) -> tuple[list[range], float]:
        """The requests of each row, and how high a row is."""
        count = min(self.requests, MOST_ROWS)
        ends = [self.requests * n // count + 1 for n in range(count + 1)]
        return [range(a, b) for a, b in zip(ends, ends[1:])], max(min(12.0, 420 / max(count, 1)), 4.4)

    def high(self) -> float:
        """How high the job's picture is."""
        rows, step = self.rows()
        return HEAD + len(rows) * step + 13 * len(self.notes) + SPACE


def jobs_of(report: Iterable[dict[str, Any]]) -> list[Job]:
    """The jobs of a report, a load and then its dumps; ValueError if it doesn't tell of the rounds."""
    found: list[Job] = []
    rounds: list[Round] = []
    notes: list[str] = []
    for it in report:
        if "sent" in it:
            rounds.append(Round(it["round"], *(numbers(it[key]) for key in ("sent", "completed", "failed"))))
        elif "end" in it:
            found.append(Job(rounds, it, notes))
            rounds, notes = [], []
        elif "state" in it and "address" in it:
            reason = f", {it['reason']}" if "reason" in it else ""
            text = f"{it['state']}: memory {it['memory']} from {it['address']}, {it['octets']} octets{reason}"
            # Before a job's end they are its own; behind it still are, until a round of another.
            (notes if rounds or not found else found[-1].notes).append(text)
    if not found or not all(it.rounds for it in found):
        raise ValueError("the report doesn't say which requests were sent in a round")
    for job in found:
        del job.notes[MOST_NOTES:]
    return found


class Drawing:
    """The picture of a contact."""

    def __init__(self, jobs: list[Job], title: str, theme: str) -> None:
        wide = COLUMN * max(len(it.rounds) for it in jobs)
        notes = max([len(text) for it in jobs for text in it.notes] + [10]) * 7.6 * WIDE - wide
        width = max(LEFT + wide + max(notes, 110) + 24, len(title) * TITLE * WIDE_TITLE + 60, 520)
        self.page = Page(width, 82 + sum(it.high() for it in jobs), theme)
        self.page.text(24, 24, title, size=TITLE, bold=True, sans=True)
        y = 44.0
        for job in jobs:
            self._job(job, y)
            y += job.high()
        self._legend(y + 10)

    def _job(self, job: Job, y: float) -> None:
        """A job: its name and counts, a column for each round, what is open at the end, and its notes."""
        page, end, (rows, step) = self.page, job.end, job.rows()
        page.text(24, y + 8, end["end"], size=10.5, bold=True)
        told = f"{plural(job.requests, 'request')}, {end['packets']} packets up, {end['came']} down"
        page.text(LEFT, y + 8, f"{told}, {plural(len(job.rounds), 'round')}", "grey", 8.6)
        top = y + HEAD
        page.text(LEFT - 12, top - 18, "round", "grey", 7.2, "right")
        page.text(LEFT - 12, top - 8, "sent", "grey", 7.2, "right")
        for n in range(0, len(rows), 2):
            page.box(LEFT, top + step * n, COLUMN * len(job.rounds), step, "band", z=0)
        for column, it in enumerate(job.rounds):
            x = LEFT + COLUMN * column
            if column:
                page.line([x, x], [top - 2, top + len(rows) * step], "rule", 0.7, (0, (1, 2)), z=0.6)
            page.text(x + COLUMN / 2, top - 18, f"{it.number}", size=8.4, align="center", bold=True)
            page.text(x + COLUMN / 2, top - 8, f"{len(it.sent)}", "grey", 7.2, "center")
            for n, of in enumerate(rows):
                self._cell(it, of, x + 4, top + step * n, step - min(1.6, step / 4))
        self._end(job, top)
        for n, text in enumerate(job.notes):
            page.text(LEFT, top + len(rows) * step + 14 + 13 * n, text, "bad", 7.6)

    def _cell(self, it: Round, of: range, x: float, y: float, high: float) -> None:
        """What became of a row's requests in a round: each box is as wide as their share."""
        page, room = self.page, COLUMN - 8
        requests = f"{of[0]}" if len(of) == 1 else f"{of[0]}–{of[-1]}"
        tip = f"{it.number}. round, request {requests}"
        sent, came, bad = (sum(k in them for k in of) / len(of) for them in (it.sent, it.completed, it.failed))
        if sent:
            page.box(x, y, room * sent, high, "upfill", z=2, tip=f"{tip}: sent")
            page.box(x, y, 2.2, high, "up", z=2.2)
        if came:
            wide = room * came * (0.5 if bad else 1)
            page.box(x, y + high * 0.36, wide, high * 0.64, "good", z=3, tip=f"{tip}: completed")
        if bad:
            page.box(x, y, room * bad, high, "bad", z=3.1, tip=f"{tip}: failed")
            page.mark(x + room * bad / 2, y + high / 2, "x", min(4.5, high * 0.6), "page", width=1.1)

    def _end(self, job: Job, top: float) -> None:
        """The numbers of the requests at the left; what is open, and the counts, at the right."""
        page, (rows, step) = self.page, job.rows()
        done: set[int] = set().union(*(it.completed for it in job.rounds))
        failed: set[int] = set().union(*(it.failed for it in job.rounds)) - done
        right, lowest = LEFT + COLUMN * len(job.rounds), top - 99
        for n, of in enumerate(rows):
            y = top + step * (n + 0.45)
            if y - lowest >= 8.5:
                page.text(LEFT - 12, y, f"{of[0]}" if len(of) == 1 else f"{of[0]}–{of[-1]}", "grey", 6.6, "right")
                lowest = y
            if not done.union(failed).issuperset(of):
                page.mark(right + 7, y, "<", 4, "bad")
        left = job.requests - len(done) - len(failed)
        counts = [(len(done), "completed", "good"), (len(failed), "failed", "bad"), (left, "open", "bad")]
        for k, (count, word, colour) in enumerate(it for it in counts if it[0] or it[1] == "completed"):
            page.text(right + 18, top + 8 + 13 * k, f"{count} {word}", colour, 8.6, bold=True)
        if job.end["completed"] and left:
            page.text(right + 18, top + 34, "by an earlier run", "grey", 7)

    def _legend(self, y: float) -> None:
        """What the boxes are."""
        page = self.page
        texts = ("sent in the round", "completed in it", "failed in it", "open at the end")
        for n, text in enumerate(texts):
            x = 30 + 128 * n
            page.text(x + 30, y, text, size=8, sans=True)
            if n == 3:
                page.mark(x + 12, y, "<", 4.5, "bad")
                continue
            page.box(x, y - 6, 22, 12, "upfill")
            page.box(x, y - 6, 2.2, 12, "up", z=1.2)
            if n == 1:
                page.box(x, y - 1.5, 22, 7.5, "good", z=1.3)
            elif n == 2:
                page.box(x, y - 6, 22, 12, "bad", z=1.3)
                page.mark(x + 11, y, "x", 4.5, "page", width=1.1)


def contact(report: Report, *, title: str = "", theme: str = "light") -> Picture:
    """The picture of a contact, of what `lpt pass --json` or `lpt ground --json` said: a file, or its objects."""
    if isinstance(report, (str, os.PathLike)):
        path = pathlib.Path(report)
        title = title or path.stem
        report = [json.loads(it) for it in path.read_text(encoding="utf-8").splitlines() if it.startswith("{")]
    return Drawing(jobs_of(report), title or "A contact", theme).page.figure
