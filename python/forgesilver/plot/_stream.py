"""A stream of packets: a strip for each name, the stream's octets along it, and the parts as stairs."""

from __future__ import annotations

import os
import pathlib
from typing import Any

from matplotlib.ticker import MaxNLocator  # type: ignore[import]

from ..archive_story import Archive, Transfer, archive_of
from ..program import Word
from ._page import WIDE, Page, Picture, cut, plural

LEFT, WIDTH, TOP, FOOT, GAP = 92.0, 560.0, 74.0, 22.0, 20.0
# So many letters of what lacks are drawn, and so many names.
LETTERS, MOST_NAMES = 34, 100
# So many parts of a name say what they are under the pointer.
MOST_TOLD = 1000


def spans(text: str, last: int) -> list[tuple[int, int]]:
    """The numbers of a list as the program writes it: `2,4-6,9-`, where the last goes to the end."""
    pairs = (it.partition("-") for it in text.split(",") if it)
    return [(int(a), int(b) if b else max(last, int(a)) if dash else int(a)) for a, dash, b in pairs]


class Strip:
    """How high a name's strip is, and each of its parts."""

    def __init__(self, transfer: Transfer) -> None:
        self.transfer = transfer
        #: The highest number that came, and the highest that is drawn.
        self.highest = max([it["part_sequence_number"] for it in transfer.parts], default=1)
        self.count = max([self.highest, *(b for _, parts in transfer.lacking for _, b in spans(parts, self.highest))])
        self.step = min(6.0, max(74.0 / self.count, 0.5)) if self.count > 8 else 7.0
        self.tall = max(self.step * self.count, 24)

    def said(self) -> list[tuple[str, str]]:
        """What stands at the right, with its colour: how many messages are whole, and which parts lack."""
        whole, lacking = self.transfer.whole, self.transfer.lacking[-3:]
        texts = (f"lacks {parts.replace(',', ', ').replace('-', '–')}" for _, parts in lacking)
        return [(f"{len(whole)} whole", "good")] * bool(whole) + [(cut(it, LETTERS), "bad") for it in texts]


class Drawing:
    """The picture of an archive."""

    def __init__(self, story: Archive, title: str, theme: str) -> None:
        self.story = story
        strips = [Strip(it) for it in list(story.transfers.values())[:MOST_NAMES]]
        bottom = TOP + sum(it.tall + GAP for it in strips) + 3 * FOOT + 26
        right = max([len(text) for it in strips for text, _ in it.said()] + [14]) * 7.6 * WIDE + 36
        self.page = Page(LEFT + WIDTH + right, bottom + 58, theme)
        parts = sum(len(it.parts) for it in story.transfers.values())
        whole = sum(len(it.whole) for it in story.transfers.values())
        packets = sum(it.get("packet_type", "none") != "none" for it in story.packets)
        names = len(story.transfers)
        counts = {"packet": packets, "octet": story.octets, "name": names, "part": parts, "whole message": whole}
        said = ", ".join(plural(count, word) for word, count in counts.items())
        self.page.title([title], said + f"; the first {MOST_NAMES} names" * (names > MOST_NAMES))
        self._scale(TOP - 8, bottom - 22)
        y = TOP
        for strip in strips:
            self._strip(strip, y)
            y += strip.tall + GAP
        self._others(y + 6)
        self._legend(bottom + 26)

    def _x(self, place: float) -> float:
        return LEFT + WIDTH * place / max(self.story.octets, 1)

    def _scale(self, top: float, bottom: float) -> None:
        """The octets along the stream."""
        for tick in MaxNLocator(7, steps=[1, 2, 5, 10]).tick_values(0, self.story.octets):
            if 0 <= tick <= self.story.octets:
                self.page.line([self._x(tick)] * 2, [top, bottom], "rule", 0.7, (0, (1, 2.5)), z=0.5)
                self.page.text(self._x(tick), bottom + 9, f"{tick:,.0f}", "grey", 7, "center")
        self.page.text(LEFT - 14, bottom + 9, "octet", "grey", 7, "right")

    def _strip(self, strip: Strip, y: float) -> None:
        """A name: its messages as long as they grew, what lacks, and its parts, each as high as its number."""
        page, transfer, end, step = self.page, strip.transfer, y + strip.tall, strip.step
        name = transfer.name
        page.box(LEFT, y, WIDTH, strip.tall, "band", z=0)
        page.text(LEFT - 14, y + strip.tall / 2, name, size=9.5, align="right", bold=True)
        page.text(LEFT - 3, end - step / 2, "1", "grey", 6, "right")
        page.text(LEFT - 3, end - step * (strip.highest - 0.5), f"{strip.highest}", "grey", 6, "right")
        for first, last in transfer.whole:
            tip = f"{name}: began at octet {first}, whole at octet {last}"
            page.box(self._x(first), y, self._x(last) - self._x(first), strip.tall, "goodfill", z=0.6, tip=tip)
            page.mark(self._x(last), y - 1, "o", 6.5, "good", tip=f"{name}: whole at octet {last}")
        for first, parts in transfer.lacking:
            for a, b in spans(parts, strip.count):
                low, high = end - step * b, end - step * (a - 1)
                tip = f"{name}: {a if a == b else f'{a}–{b}'} lacking, since octet {first}"
                wide = LEFT + WIDTH - self._x(first)
                page.box(self._x(first), low, wide, max(high - low, 1), "badfill", z=0.7, tip=tip)
                page.mark(LEFT + WIDTH, (low + high) / 2, "<", 4.5, "bad")
        self._parts(strip, end)
        said = strip.said()
        for n, (text, colour) in enumerate(said):
            middle = y + strip.tall / 2 + 11 * (n - (len(said) - 1) / 2)
            page.text(LEFT + WIDTH + 12, middle, text, colour, 7.6, bold=True)

    def _parts(self, strip: Strip, end: float) -> None:
        """The parts of a name, of which this is the lower end."""
        name, colour = strip.transfer.name, "up" if strip.transfer.name.startswith("up") else "down"
        boxes = []
        for part in strip.transfer.parts:
            number, place = part["part_sequence_number"], part["place"]
            wide, high = max(self._x(part["length"]) - LEFT, 1.2), max(strip.step - 0.6, 0.8)
            boxes.append((self._x(place), end - strip.step * number, wide, high))
        if len(boxes) > MOST_TOLD:
            self.page.boxes(boxes, colour, 2)
            return
        for box, part in zip(boxes, strip.transfer.parts):
            tip = f"{name} part {part['part_sequence_number']}, octet {part['place']}"
            self.page.box(*box, colour, z=2, tip=tip)

    def _others(self, y: float) -> None:
        """The packets without a part, the damaged ones, and what is no packet."""
        parts = {part["place"] for it in self.story.transfers.values() for part in it.parts}
        ends = [it["place"] for it in self.story.packets[1:]] + [self.story.octets]
        found: dict[str, list[tuple[dict[str, Any], int]]] = {"no part": [], "damaged": [], "no packet": []}
        for it, end in zip(self.story.packets, ends):
            kind = it.get("packet_type", "damaged")
            if it["place"] not in parts or kind == "none":
                found[{"none": "no packet", "damaged": "damaged"}.get(kind, "no part")].append((it, end))
        for n, (word, packets) in enumerate(found.items()):
            at, look = y + FOOT * n, "ink" if packets else "grey"
            self.page.text(LEFT - 14, at, word, look, 8, "right")
            self.page.line([LEFT, LEFT + WIDTH], [at, at], "rule", 0.6, z=0.6)
            self.page.text(LEFT + WIDTH + 12, at, f"{len(packets)}", look, 8)
            for it, end in packets:
                self._other(word, self._x(it["place"]), self._x(end), at, f"{word} at octet {it['place']}: "
                            f"{it.get('fault', '')}")

    def _other(self, word: str, x: float, end: float, y: float, tip: str) -> None:
        """What carries no part."""
        wide, is_damaged = max(end - x, 1.5), word == "damaged"
        colour = {"no packet": "ink", "damaged": "bad"}.get(word, "grey")
        fill = "page" if is_damaged else colour
        self.page.box(x, y - 5, wide, 10, fill, colour, 1.1, z=2, tip=tip.removesuffix(": "))
        if is_damaged:
            self.page.mark(x + wide / 2, y, "x", 5, "bad", width=1.4)

    def _legend(self, y: float) -> None:
        page = self.page
        for k in range(3):
            page.box(26 + 5.4 * k, y + 3 - 4.6 * k, 5, 4, "up")
        page.text(54, y, "part, as high as its number", size=8, sans=True)
        page.box(196, y - 6, 18, 12, "goodfill")
        page.mark(214, y - 6, "o", 6, "good")
        page.text(224, y, "message, from its first part until whole", size=8, sans=True)
        page.box(426, y - 3, 18, 5, "badfill")
        page.mark(444, y - 0.5, "<", 4.5, "bad")
        page.text(454, y, "parts that lack at the end", size=8, sans=True)


def stream(path: str | os.PathLike[str], *options: Word, title: str = "", theme: str = "light") -> Picture:
    """The picture of a file of packets. The options are those that both `lpt list` and `lpt join` take, as
    `--layout`, `--part-size`."""
    return Drawing(archive_of(path, *options), title or pathlib.Path(path).name, theme).page.figure
