"""The marks of a run's picture, and its legend, which explains those that are there."""

from __future__ import annotations

from collections.abc import Iterator

from ..story import CRAFT, GROUND, Row, Story
from ._page import Dashes, Page

#: How the line of a packet is drawn that was taken before, was lost in a hand, or is on the link.
AGAIN: Dashes = (0, (4, 2.2))
LOST: Dashes = (0, (1, 1.6))
HELD: Dashes = (0, (2, 1.5))
#: How the box of a job is drawn that nobody has claimed.
WAITS: Dashes = (0, (1.5, 1.2))
JOBS = {"waits": "page", "claimed": "jobfill", "committed": "job"}
LANDINGS = {
    "kept": "part kept", "released": "message whole, released", "plain": "request released",
    "again": "part that was kept before", "ignored": "packet ignored", "broken": "reception broken off",
    "report": "report noted", "abort": "report of an abort noted",
}
_EVENTS = {
    "opened": "message opened", "finished": "sender closed", "applied": "job executed",
    "restarted": "node starts anew", "stale": "reading from before a restart", "expired": "reception expired",
    "retired": "name freed", "clock": "clock ticks", "refused": "line refused",
}
_BARS = {
    "sender": "open at its sender", "reception": "reception, filled by its parts", "waits": "job waits",
    "claimed": "job claimed", "committed": "job's reading committed",
}


def landing(page: Page, x: float, y: float, word: str, colour: str, number: str, tip: str) -> None:
    """The mark of a delivery, by what became of the packet."""
    size, shape = number_size(number), "s" if word in ("report", "abort") else "o"
    if word not in ("again", "ignored", "broken"):
        if word in ("released", "plain"):
            page.mark(x, y, "o", 16, colour, "page", 1.6)
        page.mark(x, y, shape, 11.5, colour, None, 1, tip=tip)
        page.text(x, y, number, "page", size, "center", bold=True)
        return
    is_broken = word == "broken"
    look = "bad" if is_broken else "grey"
    page.mark(x, y, shape, 11.5, look, "bad" if is_broken else "page", 1, tip=tip)
    page.text(x, y, number, "page" if is_broken else "grey", size, "center")
    if word != "again":
        for a, b in ((-8, -4), (4, 8)):
            page.line([x + a, x + b], [y - a, y - b], look, 1.2, z=5.5)


def number_size(number: str) -> float:
    """How large a packet's number is written in its mark."""
    return 7 if len(number) < 3 else 5.4


def sign(page: Page, x: float, y: float, word: str, *, is_bad: bool = False, compact: bool = False) -> None:
    """The mark on a node's line of an event that no packet has, by the first word that was said of it."""
    size = 3 if compact else 7
    if word == "opened":
        page.mark(x, y, "s", size, "ink", "page", 0.6 if compact else 1.3)
    elif word == "refused":
        page.mark(x, y, "o", size, "bad", "page", 1)
        page.mark(x, y, "x", size * 0.6, "bad", width=1)
    elif word in ("applied", "finished"):
        page.mark(x, y, "s", size, "bad" if is_bad else "ink")
    elif word == "restarted":
        for off in (-2, 2):
            page.line([x - 14, x + 14], [y + off, y + off], "ink", 1.6, z=5)
    elif word == "stale":
        page.mark(x, y, "x", size, "ink", width=1.8)
    elif word == "expired":
        page.mark(x, y, "X", size + 1, "bad", width=0.5)
    elif word in ("clock", "ticks"):
        page.line([x - size * 0.6, x + size * 0.6], [y, y], "ink", 1, z=5)
    elif word == "retired":
        page.mark(x, y, "D", size - 1, "ink", "page", 1.2)


def legend(story: Story, rows: list[Row]) -> Iterator[tuple[str, str]]:
    """The kinds of marks in a picture, and their words."""
    packets, flown = list(story.packets.values()), {it.packet for it in story.flights}
    there = {
        "up": ("packet up", any(it.side == GROUND for it in packets)),
        "down": ("packet down", any(it.side == CRAFT for it in packets)),
        "again": ("taken once more", any(it.again for it in story.flights)),
        "hand": ("in a lane's hand", bool(story.flights)),
        "lost": ("lost", story.lost > 0),
        "taken": ("lost after a lane took it", any(it.lost is not None and it.number in flown for it in packets)),
        "held": ("still on the link", any(it.lost is None and it.number not in flown for it in packets)),
        "put": ("put on the link", bool(packets)),
    }
    yield from ((key, text) for key, (text, is_there) in there.items() if is_there)
    said = {it.word for it in rows}
    yield from ((f"landing {word}", text) for word, text in LANDINGS.items() if word in said)
    bars = {it.kind for it in story.bars} | {step.stage for it in story.bars for step in it.steps}
    yield from ((word, text) for word, text in _BARS.items() if word in bars)
    yield from ((word, text) for word, text in _EVENTS.items() if word in said)


def sample(page: Page, key: str, x: float, y: float) -> None:
    """A mark of the legend."""
    lines: dict[str, tuple[str, Dashes]] = {
        "up": ("up", "-"), "down": ("down", "-"), "again": ("up", AGAIN), "taken": ("grey", LOST),
        "held": ("up", HELD),
    }
    if key in lines:
        page.line([x - 13, x + 13], [y, y], lines[key][0], dashes=lines[key][1])
    elif key == "hand":
        page.line([x - 11, x + 11], [y, y], "up", 3.4)
    elif key == "lost":
        page.mark(x, y, "x", 7, "ink", width=2.2)
    elif key == "put":
        page.mark(x, y, "o", 10, "up", "page", 1)
    elif key.startswith("landing "):
        word = key.split()[1]
        landing(page, x, y, word, "down" if word in ("report", "abort") else "up", "", "")
    elif key == "sender":
        page.box(x - 1.6, y - 6, 3.2, 12, "upfill", "up", 0.8)
    elif key == "reception":
        page.box(x - 4, y - 6, 8, 12, "page", "up", 0.8)
        page.box(x - 4, y - 6, 5.3, 12, "upfill", "up", 0.8)
    elif key in JOBS:
        page.box(x - 3.4, y - 6, 6.8, 12, JOBS[key], "job", dashes=WAITS if key == "waits" else "-")
    else:
        sign(page, x, y, key)
