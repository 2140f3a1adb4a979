"""A script's run: time goes down, ground is on the left, the spacecraft on the right, packets fly between."""

from __future__ import annotations

import textwrap

from ..program import Word
from ..story import CRAFT, GROUND, Bar, Flight, Packet, Row, Script, Story, story_of
from ._marks import AGAIN, HELD, JOBS, LOST, WAITS, landing, legend, number_size, sample, sign
from ._page import TITLE, WIDE, WIDE_TITLE, Page, Picture, cut, plural

# How high a row is, each of the two of a `pass`, and one of a compact picture.
ROW, HALF, FINE = 18.0, 10.0, 4.0
# How far a lane is from the node at its end, how far apart the nodes are, and how wide a bar is with its gap.
LANES = {"g1": 34, "g2": 54, "s1": -34, "s2": -54}
APART, BAR = 330.0, 15
# A picture of more rows is compact by itself.
MOST_ROWS = 150
# So many letters of a text are drawn at most.
LETTERS = {GROUND: 46, CRAFT: 64}
BOLD = {"released", "plain", "applied", "restarted", "expired", "broken", "stale", "refused", "abort"}
# What has words in a compact picture.
LOUD = BOLD | {"opened"}
FAINT = {"put", "took", "clock", "ticks"}


class Places:
    """Where everything is, from the first row down."""

    def __init__(self, story: Story, rows: list[int], *, compact: bool) -> None:
        self.story, self.rows, self.compact = story, rows, compact
        self._put_at: dict[int, list[Packet]] = {}
        for packet in story.packets.values():
            self._put_at.setdefault(packet.row, []).append(packet)
        #: Where each row is, where each packet begins, and from where to where each line of the script goes.
        self.y: dict[int, float] = {}
        self.puts: dict[int, float] = {}
        self.bands: list[tuple[float, float]] = []
        self.bottom = self._lay_rows() + 6
        self._lay_others()
        self.slots: dict[Bar, int] = {}
        for side in (GROUND, CRAFT):
            self._lay_bars([it for it in story.bars if it.side == side])

    def is_shared(self, place: int) -> bool:
        """Whether a row is the take of a `pass`, and the row behind it the delivery."""
        rows = self.story.rows
        return rows[place].word == "took" and place + 1 < len(rows) and rows[place + 1].line == rows[place].line

    def _lay_rows(self) -> float:
        """Gives each row that is drawn its place, and the packets that it puts. The answer is where they end."""
        y, is_second = 0.0, False
        for place in self.rows:
            begin, is_first = y, self.is_shared(place)
            high = FINE if self.compact else ROW - 4 if is_second else HALF if is_first else ROW
            self.y[place] = y + (5.5 if is_second and not self.compact else high / 2)
            y += high
            for packet in self._put_at.get(place, []):
                self.puts[packet.number] = self.y[place]
                if self.story.rows[place].word != "put":
                    # A report has a row of its own below.
                    more = FINE if self.compact else ROW - 3
                    self.puts[packet.number] = y + more / 2
                    y += more
            if is_second and self.bands:
                self.bands[-1] = (self.bands[-1][0], y)
            else:
                self.bands.append((begin, y))
            is_second = is_first
        return y

    def _lay_others(self) -> None:
        """Gives a row that isn't drawn the place of the row before it, and behind the last that of the end."""
        last, end = 0.0, self.rows[-1] if self.rows else 0
        for place in range(len(self.story.rows)):
            last = self.y.setdefault(place, self.bottom if place > end else last)
        for packet in self.story.packets.values():
            self.puts.setdefault(packet.number, self.y[packet.row])

    def _lay_bars(self, bars: list[Bar]) -> None:
        """Gives each bar of a node a slot in which no other is at the same time."""
        ends: list[int] = []
        for bar in sorted(bars, key=lambda it: it.first):
            slot = next((k for k, end in enumerate(ends) if end <= bar.first), len(ends))
            ends[slot : slot + 1] = [len(self.story.rows) if bar.last is None else bar.last]
            self.slots[bar] = slot

    def down(self, place: int | None) -> float:
        """The y of a row, or of the end."""
        return self.bottom if place is None else self.y.get(place, self.bottom)

    def has(self, first: int, last: int | None) -> bool:
        """Whether something between these rows is in the picture."""
        return bool(self.rows) and first <= self.rows[-1] and (last is None or last >= self.rows[0])


class Drawing:
    """The picture of a story, or of some of its rows."""

    def __init__(self, story: Story, rows: list[int], *, compact: bool, theme: str) -> None:
        self.story, self.rows, self.compact = story, rows, compact
        self.drawn = set(rows)
        self.places = Places(story, rows, compact=compact)
        self.size, self.thin = (7.5, 0.7) if compact else (8.6, 1.4)
        slots = {side: 1 + max([n for it, n in self.places.slots.items() if it.side == side], default=-1)
                 for side in (GROUND, CRAFT)}
        #: How far texts are from their node, and where the nodes are.
        self.gap = {side: 22 + BAR * n for side, n in slots.items()}
        wide = {side: min(self._longest(side), most) * 8.6 * WIDE * 1.03 for side, most in LETTERS.items()}
        ground = 52 + wide[GROUND] + self.gap[GROUND]
        self.x = {GROUND: ground, CRAFT: ground + APART}
        width = max(self.x[CRAFT] + self.gap[CRAFT] + wide[CRAFT] + 24, 620)
        title = textwrap.wrap(story.title or "A run", int((width - 40) / (TITLE * WIDE_TITLE)))
        self.top = 84.0 + 17 * len(title)
        self.end = self.top + self.places.bottom
        self.legend = list(legend(story, [story.rows[it] for it in rows]))
        self.columns = max(1, min(4, int((width - 40) // 205)))
        self.page = Page(width, self.end + 62 + 17 * -(-len(self.legend) // self.columns), theme)
        self.page.title(title, self._counts())
        self._nodes()
        for bar in story.bars:
            self._bar(bar)
        self._packets()
        self._texts()
        self._foot()

    # Places and words.

    def _down(self, place: int | None) -> float:
        """The y of a row on the page."""
        return self.top + self.places.down(place)

    def _longest(self, side: str) -> int:
        """How long the longest text at a node is."""
        texts = [self._text(self.story.rows[it]) for it in self.rows if self._has_words(self.story.rows[it])]
        labels = [it.label for it in self.story.packets.values() if it.side == side and not self.compact]
        return max([10, *(len(text) for at, text in texts if at == side), *map(len, labels)])

    def _has_words(self, row: Row) -> bool:
        return not self.compact or row.word in LOUD

    def _text(self, row: Row) -> tuple[str, str]:
        """At which node a row's text stands, and the text: of a put the packet."""
        if row.word == "put" and int(row.said.split()[1]) in self.story.packets:
            return row.side, self.story.packets[int(row.said.split()[1])].label
        return row.side, row.said + (f": {row.note}" if row.note else "")

    def _counts(self) -> str:
        """What stands below the title."""
        story = self.story
        events = [it for it in self.rows if story.rows[it].events]
        told = plural(story.events, "event")
        if events and sum(story.rows[it].events for it in events) < story.events:
            last = story.rows[events[-1]]
            told = f"events {story.rows[events[0]].number} to {last.number + last.events - 1} of {story.events}"
        landed = sum(it.landed is not None for it in story.flights)
        said = f"{told}, {plural(len(story.packets), 'packet')}, {landed} delivered, {story.lost} lost"
        return said + (f"   {story.end}" if story.end else "")

    def _nodes(self) -> None:
        """The nodes, the lanes, and a band for every other line of the script."""
        page, top = self.page, self.top
        for a, b in [] if self.compact else self.places.bands[::2]:
            page.box(14, top + a, page.width - 28, b - a, "band", z=0)
        for lane, off in LANES.items():
            x = self.x[GROUND if off > 0 else CRAFT] + off
            page.line([x, x], [top, self.end], "rule", 0.8, (0, (1, 3)), z=1)
            page.text(x, top - 8, lane, "grey", 7.5, "center")
        for side, name in ((GROUND, "ground"), (CRAFT, "spacecraft")):
            x = self.x[side]
            page.line([x, x], [top - 20, self.end + 8], "ink", 1.8, z=2)
            for y in (top - 35, self.end + 6):
                page.box(x - 39, y, 78, 17, "ink", z=4, corner=3)
                page.text(x, y + 8.8, name, "page", 9, "center", bold=True)

    def _texts(self) -> None:
        """What was said of each row, beside its node, and what each report is."""
        lowest = {GROUND: 0.0, CRAFT: 0.0}
        for place in self.rows:
            row, y = self.story.rows[place], self._down(place)
            if row.events and (not self.compact or self._has_words(row)):
                number = f"{row.number}" if row.events == 1 else f"{row.number}–{row.number + row.events - 1}"
                self.page.text(40, y, number, "grey", 5.5 if self.compact else 6.8, "right")
            if self.places.is_shared(place) or not self._has_words(row):
                continue
            # Texts of a compact picture give way to one another.
            at = max(y, lowest[row.side] + 9.5) if self.compact else y
            lowest[row.side] = at
            self._said(row, y, at)
        for packet in [] if self.compact else self.story.packets.values():
            if packet.row in self.drawn and self.story.rows[packet.row].word != "put":
                y = self.top + self.places.puts[packet.number]
                self._beside(packet.side, y, y, packet.label, "grey")

    def _said(self, row: Row, y: float, at: float) -> None:
        """A row's text."""
        side, text = self._text(row)
        is_bad = row.word in ("refused", "broken", "expired") or text.startswith("applied code")
        colour = "bad" if is_bad else "grey" if row.word in FAINT else "ink"
        tip = f"event {row.number}, line {row.line}: {row.asked}\n{text}"
        self._beside(side, y, at, text, colour, row.word in BOLD, tip)

    def _beside(
        self, side: str, y: float, at: float, text: str, colour: str, bold: bool = False, tip: str = ""
    ) -> None:
        """A text beside a node, with a thin line to it."""
        out = -1 if side == GROUND else 1
        edge = self.x[side] + out * self.gap[side]
        self.page.line([self.x[side] + out * 9, edge - out * 4], [y, at], "rule", 0.7, z=0.5)
        align = "right" if side == GROUND else "left"
        self.page.text(edge, at, cut(text, LETTERS[side]), colour, self.size, align, bold=bold, tip=tip)

    # Bars.

    def _bar(self, bar: Bar) -> None:
        """What is open beside its node: a sender, a reception as far as it is full, a job by its stage."""
        if not self.places.has(bar.first, bar.last):
            return
        side = -1 if bar.side == GROUND else 1
        x = self.x[bar.side] + side * (20 + BAR * self.places.slots[bar])
        colour = "job" if bar.kind == "job" else "up" if bar.name.startswith("up") else "down"
        ends = [self._down(it.row) for it in bar.steps[1:]] + [self._down(bar.last)]
        for step, end in zip(bar.steps, ends):
            y = self._down(step.row)
            high, tip = max(end - y, 0.8), f"{bar.kind} {bar.name}: {step.stage}"
            if end <= self.top or y >= self.end:
                continue
            if bar.kind == "sender":
                self.page.box(x - 1.6, y, 3.2, high, f"{colour}fill", colour, 0.8, z=2.5, tip=tip)
            elif bar.kind == "reception":
                self.page.box(x - 4, y, 8, high, "page", colour, 0.8, z=2.4, tip=tip)
                self.page.box(x - 4, y, 8 * step.full, high, f"{colour}fill", colour, 0.8, z=2.5, tip=tip)
            else:
                dashes = WAITS if step.stage == "waits" else "-"
                self.page.box(x - 3.4, y, 6.8, high, JOBS[step.stage], "job", dashes=dashes, z=2.5, tip=tip)
        name = f"job {bar.name}" if bar.kind == "job" else bar.name
        begin = self._down(bar.first)
        if ends[-1] - begin >= 4 * len(name) + 4 and not self.compact:
            self.page.text(x + side * 8.2, begin + 3.2 + len(name) * 1.9, name, colour, 5.8, "center", turn=90)

    # Packets.

    def _packets(self) -> None:
        """Each packet: where it was put, its flights, and what became of it otherwise."""
        flown: dict[int, list[Flight]] = {}
        for flight in self.story.flights:
            flown.setdefault(flight.packet, []).append(flight)
        for packet in self.story.packets.values():
            colour, tip = "up" if packet.side == GROUND else "down", f"packet {packet.number}: {packet.label}"
            for flight in flown.get(packet.number, []):
                if self.places.has(packet.row, flight.landed):
                    self._flight(packet, flight, colour, f"{tip}, by {flight.lane}")
            if packet.lost is not None:
                self._loss(packet, packet.lost, "grey" if packet.number in flown else colour, f"{tip}, lost")
            if packet.row not in self.drawn:
                continue
            x, y, towards = self._begin(packet)
            if packet.lost is None and packet.number not in flown:
                xs = [x + towards * 6, x + towards * 24]
                self.page.line(xs, [y, y + 5], colour, self.thin, HELD, tip=f"{tip}, still on the link")
            self.page.mark(x, y, "o", 2 if self.compact else 11.5, colour, "page", 0.6 if self.compact else 1, tip=tip)
            if not self.compact:
                number = f"{packet.number}"
                self.page.text(x, y, number, colour, number_size(number), "center")

    def _begin(self, packet: Packet) -> tuple[float, float, int]:
        """Where a packet begins, and to which side it goes."""
        return self.x[packet.side], self.top + self.places.puts[packet.number], 1 if packet.side == GROUND else -1

    def _way(self, packet: Packet, x: float, place: int) -> tuple[list[float], list[float]]:
        """The line of a packet to a place at a row. What is outside the picture is cut short: no line claims to
        know where it leads."""
        begin, y, towards = self._begin(packet)
        end = self._down(place)
        if packet.row not in self.drawn:
            return [x - towards * 44, x], [end - 9, end]
        if place not in self.drawn:
            return [begin + towards * 6, begin + towards * 50], [y, y + 9]
        return [begin + towards * 6, x], [y, end]

    def _loss(self, packet: Packet, lost: int, colour: str, tip: str) -> None:
        """The line of a packet that was lost, as far as the middle."""
        if not self.places.has(packet.row, lost):
            return
        middle = (self.x[GROUND] + self.x[CRAFT]) / 2
        dashes = LOST if colour == "grey" else "-"
        self.page.line(*self._way(packet, middle, lost), colour, self.thin, dashes, tip=tip)
        if lost in self.drawn:
            size, width = (3, 1.0) if self.compact else (7, 2.2)
            self.page.mark(middle, self._down(lost), "x", size, "ink", width=width, tip=tip)

    def _flight(self, packet: Packet, flight: Flight, colour: str, tip: str) -> None:
        """The line of a packet to a lane, how long it was in its hand, and its delivery."""
        other, towards = self.x[CRAFT if packet.side == GROUND else GROUND], 1 if packet.side == GROUND else -1
        lane, taken, landed = other + LANES[flight.lane], self._down(flight.taken), self._down(flight.landed)
        if packet.row in self.drawn or flight.taken in self.drawn:
            way, dashes = self._way(packet, lane, flight.taken), AGAIN if flight.again else "-"
            self.page.line(*way, colour, self.thin, dashes, tip=tip + ", once more" * flight.again)
        if not self.places.has(flight.taken, flight.landed):
            return
        self.page.line([lane, lane], [taken, landed], colour, 1.6 if self.compact else 3.4, tip=f"{tip}, in hand")
        if flight.landed not in self.drawn or flight.landed is None:
            return
        row = self.story.rows[flight.landed]
        end = other - towards * (2 if self.compact else 9)
        self.page.line([lane, end], [landed, landed], colour, self.thin, tip=tip)
        tip = f"{tip}: {row.said}"
        if self.compact:
            look = "grey" if row.word in ("again", "ignored", "broken") else colour
            size = 3.4 if row.word in ("released", "plain") else 2.2
            self.page.mark(other, landed, "s" if row.word == "report" else "o", size, look, width=0.6, tip=tip)
        else:
            self.page.mark(other - towards * 10, landed, ">" if towards > 0 else "<", 5, colour, width=0.5)
            landing(self.page, other, landed, row.word, colour, f"{packet.number}", tip)

    def _foot(self) -> None:
        """The marks of the other events, and the legend."""
        for place in self.rows:
            row = self.story.rows[place]
            is_bad = row.said.startswith("applied code")
            sign(self.page, self.x[row.side], self._down(place), row.word, is_bad=is_bad, compact=self.compact)
        wide = (self.page.width - 48) / self.columns
        for n, (key, text) in enumerate(self.legend):
            x, y = 24 + wide * (n % self.columns), self.end + 44 + 17 * (n // self.columns)
            sample(self.page, key, x + 16, y)
            self.page.text(x + 38, y, text, size=8, sans=True)


def run(
    script: Script, *options: Word, refused: bool = False, compact: bool | None = None, first: int = 0,
    last: int | None = None, title: str = "", theme: str = "light",
) -> Picture:
    """The picture of a script's run: of the script at a path, or of its text as `bytes`. The options are those of
    `lpt run`.

    With `refused` each line that was refused has a row. A `compact` picture has rows as thin as lines, and only what
    matters in words; one of more than 150 rows is so if nothing else is said. `first` and `last` choose events.
    """
    story = story_of(script, *options)
    story.title = title or story.title
    rows = [
        place for place, it in enumerate(story.rows)
        if (refused or it.word != "refused") and it.number + max(it.events, 1) > first
        and (last is None or it.number <= last)
    ]
    if compact is None:
        compact = len(rows) > MOST_ROWS
    return Drawing(story, rows, compact=compact, theme=theme).page.figure
