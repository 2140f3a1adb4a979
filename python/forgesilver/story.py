"""What happened in a script's run, event by event, as the program tells it.

Behind each line of the script the program is asked for its views: what is on the link, what is open to be sent,
what is received, which jobs wait. So what is open, kept or lost is read, and never worked out.
"""

from __future__ import annotations

import dataclasses
import itertools
import os
import pathlib
import re
from collections.abc import Iterable, Iterator, Sequence
from typing import Any, NamedTuple, Union

from .program import Word, rows
from .session import VIEWS, Answer, answer_all

GROUND, CRAFT = "ground", "craft"
#: A script's path, or its text.
Script = Union[str, "os.PathLike[str]", bytes]
KINDS = {
    (6, 2): "load", (6, 5): "dump", (6, 6): "dump", (6, 9): "check", (6, 10): "check", (1, 1): "accepted",
    (1, 2): "not accepted", (1, 3): "started", (1, 4): "not started", (1, 5): "progress",
    (1, 6): "no progress", (1, 7): "completed", (1, 8): "not completed", (13, 16): "aborted",
}
REASONS = {"1": "expired", "2": "discontinuity", "3": "conflict"}
# The options that say how large a part is.
_OF_LISTS = ("--config", "--part-size")


@dataclasses.dataclass(eq=False)
class Packet:
    """A packet that was put on the link."""

    number: int
    #: The place of the row that put it there, and at which node that was.
    row: int
    side: str
    octets: int
    #: The part that it carries, in words, or `noise`; of other packets nothing.
    carries: str = ""
    #: What `list --json` says of it.
    fields: dict[str, Any] = dataclasses.field(default_factory=dict)
    #: The row at which it was taken off the link.
    lost: int | None = None

    @property
    def label(self) -> str:
        """What the packet is, in words."""
        if self.carries == "noise":
            return f"noise, length {self.octets}"
        word = "request" if self.side == GROUND else "report"
        return self.carries or f"{word} {kind_of(self.fields)}".rstrip()


@dataclasses.dataclass(eq=False)
class Flight:
    """A packet in a lane's hand, from the row of the take to that of the delivery."""

    packet: int
    lane: str
    taken: int
    landed: int | None = None
    again: bool = False


class Step(NamedTuple):
    """From a row on a bar is in a stage, and so full."""

    row: int
    stage: str
    full: float


@dataclasses.dataclass(eq=False)
class Bar:
    """What is open at a node from one row to another: a sender, a reception, a job."""

    side: str
    kind: str
    name: str
    first: int
    last: int | None = None
    steps: list[Step] = dataclasses.field(default_factory=list)


@dataclasses.dataclass(eq=False)
class Row:
    """An event, or the ticks of one line, or a line that was refused."""

    #: The number of its first event, and of how many.
    number: int
    events: int
    #: The line's number in the script, from 1, and its text.
    line: int
    asked: str
    said: str
    side: str
    note: str = ""

    @property
    def word(self) -> str:
        """The first word of what was said."""
        return self.said.split()[0]


@dataclasses.dataclass
class Story:
    """A run: its rows, and what was open, put and taken between them."""

    title: str
    rows: list[Row] = dataclasses.field(default_factory=list)
    packets: dict[int, Packet] = dataclasses.field(default_factory=dict)
    flights: list[Flight] = dataclasses.field(default_factory=list)
    bars: list[Bar] = dataclasses.field(default_factory=list)
    events: int = 0
    lost: int = 0
    #: Why the run ended before the script did.
    end: str = ""


class Views:
    """What the four views print."""

    def __init__(self, printed: Iterable[str]) -> None:
        #: How many octets each packet on the link has, by its number.
        self.held: dict[int, int] = {}
        #: How many parts each open message has, by its name.
        self.senders: dict[str, int] = {}
        #: How many parts of each message are kept, and of how many, by its name.
        self.receptions: dict[str, tuple[int, int]] = {}
        #: The stage of each job, by its boot and number.
        self.jobs: dict[str, str] = {}
        for words in map(str.split, printed):
            if words[0] == "held":
                self.held[int(words[1])] = int(words[2])
            elif words[0] == "open":
                self.senders[f"{words[1]} {words[2]}"] = int(words[4])
            elif words[0] == "reception":
                parts = int(words[4])
                self.receptions[f"{words[1]} {words[2]}"] = (parts - sum(map(_length, words[6:])), parts)
            elif words[0] == "job":
                self.jobs[f"{words[1]} {words[2]}"] = words[3]

    def named(self, direction: str, word: str) -> str:
        """The name of an open message as the program has it: without its source if that is the configured one."""
        name = f"{direction} {word}"
        return name if name in self.senders else f"{direction} {word.rpartition('/')[2]}"

    def bars(self) -> Iterator[tuple[tuple[str, str, str], str, float]]:
        """What is open: where, its kind and name; its stage; how full it is."""
        for name in self.senders:
            yield (GROUND if name.startswith("up") else CRAFT, "sender", name), "open", 1.0
        for name, (kept, parts) in self.receptions.items():
            side = CRAFT if name.startswith("up") else GROUND
            yield (side, "reception", name), f"{kept} of {parts}", kept / parts
        for name, stage in self.jobs.items():
            yield (CRAFT, "job", name), stage, 1.0


def _length(span: str) -> int:
    """How many numbers `3` or `3-5` stands for; `none` stands for none."""
    first, _, last = span.partition("-")
    return int(last or first) - int(first) + 1 if first.isdigit() else 0


def kind_of(fields: dict[str, Any]) -> str:
    """A message's type, subtype, and what they mean."""
    if "service_type" not in fields:
        return ""
    kind = (fields["service_type"], fields["message_subtype"])
    return f"{kind[0]},{kind[1]} {KINDS.get(kind, '')}".rstrip()


def side_of(words: Sequence[str]) -> str:
    """At which node a line's event happens, by the grammar. A loss happens on the link, and has no node."""
    if words[0] in ("take", "deliver", "pass"):
        return CRAFT if words[1].startswith("s") else GROUND
    if words[0] in ("tick", "expire", "restart"):
        return words[1]
    if words[0] in ("open", "send", "finish", "retire", "damage"):
        return GROUND if words[1] == "up" else CRAFT
    return CRAFT if words[0] in ("claim", "commit", "apply", "work") else GROUND


class Telling:
    """Makes a story of what a world answered."""

    def __init__(self, title: str) -> None:
        self.story = Story(title)
        self._open: dict[tuple[str, str, str], Bar] = {}
        self._hands: dict[str, Flight] = {}
        self._taken: set[int] = set()
        # Each job, in the order of release; and the rows that executed one.
        self._jobs: list[Bar] = []
        self._applied: list[tuple[Row, Bar]] = []

    def tell(self, number: int, words: list[str], answer: Answer, views: Views) -> None:
        """Keeps what a line did: what it printed, and what is open behind it."""
        story, before = self.story, self.story.events
        happened = answer.events - before
        said = [it for it in answer.printed if not it.startswith("refused")]
        if happened and not said:
            # Ticks, of which the last was refused: no clock is printed.
            said = [f"ticks {happened}"]
        side = self._side(words)
        begin = len(story.rows)
        for place, text in enumerate(said):
            events = happened if len(said) == 1 else 1
            story.rows.append(Row(before + place, events, number, " ".join(words), text, side))
            self._row(len(story.rows) - 1, words)
        for text in (it for it in answer.printed if it.startswith("refused")):
            story.rows.append(Row(answer.events, 0, number, " ".join(words), text, side))
        story.events = answer.events
        if len(story.rows) > begin:
            self._put(len(story.rows) - 1, words, views)
            self._note(story.rows[begin:], words, views)
            self._bars(len(story.rows) - 1, views)

    def _side(self, words: list[str]) -> str:
        """At which node a line's event happens: a loss at the one that put the packet."""
        if words[0] == "lose" and int(words[1]) in self.story.packets:
            return self.story.packets[int(words[1])].side
        return side_of(words)

    def _row(self, place: int, words: list[str]) -> None:
        """Keeps which packet a row took, delivered or lost, and which stage a job reached."""
        story, row = self.story, self.story.rows[place]
        said = row.said.split()
        if said[0] == "took":
            number = int(said[1])
            self._hands[words[1]] = Flight(number, words[1], place, again=number in self._taken)
            self._taken.add(number)
            story.flights.append(self._hands[words[1]])
        elif words[0] in ("deliver", "pass"):
            self._hands.pop(words[1]).landed = place
        elif said[0] == "lost":
            story.packets[int(said[1])].lost = place
            story.lost += 1
        elif said[0] in ("claimed", "committed"):
            bar = self._open.get((CRAFT, "job", " ".join(said[1:])))
            if bar is not None:
                bar.steps.append(Step(place, said[0], 1.0))

    def _put(self, place: int, words: list[str], views: Views) -> None:
        """Keeps the packets that a line put on the link."""
        carries = "noise" if words[0] == "damage" else ""
        if words[0] == "send":
            name = views.named(words[1], words[2])
            carries = f"{name} part {int(words[3])} of {views.senders.get(name, '?')}"
        row = self.story.rows[place]
        for number, octets in views.held.items():
            if number not in self.story.packets:
                self.story.packets[number] = Packet(number, place, row.side, octets, carries)

    def _note(self, told: list[Row], words: list[str], views: Views) -> None:
        """Adds to a line's rows what more is known of them."""
        for row in told:
            said = row.said.split()
            if row.events > 1:
                row.note = f"{row.events} ticks"
            elif said[0] == "refused":
                row.note = f"line {row.line}: {row.asked}"
            elif said[0] == "took":
                row.note = words[1]
            elif said[0] == "kept" and f"{said[1]} {said[2]}" in views.receptions:
                row.note = "{} of {}".format(*views.receptions[f"{said[1]} {said[2]}"])
            elif said[0] == "expired" and (row.side, "reception", f"{said[1]} {said[2]}") in self._open:
                row.note = self._open[row.side, "reception", f"{said[1]} {said[2]}"].steps[-1].stage
            elif said[0] in ("abort", "broken"):
                row.note = REASONS.get(said[-1], "")
            elif said[0] == "report":
                row.note = KINDS.get((int(said[1]), int(said[2])), "")
            elif said[0] in ("claimed", "committed", "stale"):
                row.note = words[1] if len(words) > 1 else "w1"
            elif said[0] == "plain" or said[:2] == ["released", "up"]:
                new = [it for it in views.jobs if (CRAFT, "job", it) not in self._open]
                row.note = f"job {new[0].split()[-1]}" if new else ""
            elif said[0] == "applied":
                self._executed(row, views)

    def _executed(self, row: Row, views: Views) -> None:
        """Keeps which job a row executed: the one that was open and is no longer."""
        gone = [it for key, it in self._open.items() if key[1] == "job" and key[2] not in views.jobs]
        if gone:
            row.note = f"job {gone[0].name}"
            self._applied.append((row, gone[0]))

    def _bars(self, place: int, views: Views) -> None:
        """Ends what is no longer open, opens what is, and keeps its stage."""
        now = list(views.bars())
        for key in self._open.keys() - {key for key, _, _ in now}:
            self._open.pop(key).last = place
        for key, stage, full in now:
            if key not in self._open:
                self._open[key] = Bar(key[0], key[1], key[2].split()[-1] if key[1] == "job" else key[2], place)
                self.story.bars.append(self._open[key])
                if key[1] == "job":
                    self._jobs.append(self._open[key])
            bar = self._open[key]
            if not bar.steps or bar.steps[-1].stage != stage:
                bar.steps.append(Step(place, stage, full))

    def finish(self, lines: list[bytes], options: Sequence[Word]) -> Story:
        """Asks what the packets and the requests are, and ends the story."""
        packets = [it for it in self.story.packets.values() if it.carries != "noise"]
        shown = [[b"show packet %d" % it.number for it in packets], [b"show released"]]
        found, _ = answer_all([lines, *shown], *options)
        octets = [_octets(it) for it in found[1].printed]
        listed = {it["place"]: it for it in rows("list", "--json", *_of_lists(options), octets=b"".join(octets))}
        for packet, place in zip(packets, itertools.accumulate(map(len, octets), initial=0)):
            packet.fields = listed[place]
        released = [it for it in found[2].printed if it.startswith(("plain", "up"))]
        for row, job in self._applied:
            row.note += memory_of(first_of(_octets(released[self._jobs.index(job)])))
        for row in self.story.rows:
            words = row.asked.split()
            if row.word == "opened":
                row.note = "6,2 load" if words[0] == "load" else kind_of(first_of(_octets(row.asked)))
        return self.story


def _of_lists(options: Sequence[Word]) -> Iterator[Word]:
    """The options of `run` that `list` needs too, with their values."""
    before = ""
    for it in map(str, options):
        if it.partition("=")[0] in _OF_LISTS or before in _OF_LISTS:
            yield it
        before = it


def _octets(line: str) -> bytes:
    """The octets that stand at the end of a line."""
    return bytes.fromhex(line.split()[-1].strip("-"))


def first_of(octets: bytes) -> dict[str, Any]:
    """What `list --json` says of a telecommand or a report; nothing of other octets."""
    fields: dict[str, Any] = next(rows("list", "--json", octets=octets), {}) if octets else {}
    return fields if fields.get("packet_type") in ("tc", "tm") else {}


def memory_of(fields: dict[str, Any]) -> str:
    """Which octets of which memory a packet is about, in words."""
    if "start_address" not in fields:
        return ""
    more = f" and {fields['areas'] - 1} more" if fields["areas"] > 1 else ""
    of = f"memory {fields['memory_id']} from {fields['start_address']}"
    return f", {of}, {fields['area_length']} octets{more}"


def first_sentence(script: bytes) -> str:
    """The first sentence of a script's first comment."""
    comment: list[str] = []
    for line in script.decode("utf-8", "replace").splitlines():
        if line.startswith("#"):
            comment.append(line.lstrip("# ").rstrip())
        elif comment:
            break
    return re.split(r"(?<=[.!?])\s", " ".join(comment))[0]


def read_script(script: Script) -> bytes:
    """A script's text."""
    return script if isinstance(script, bytes) else pathlib.Path(script).read_bytes()


def story_of(script: Script, *options: Word) -> Story:
    """The story of a script, by its path or its text. The options are those of `lpt run`."""
    octets = read_script(script)
    numbered = [(number, line.removesuffix(b"\r")) for number, line in enumerate(octets.split(b"\n"), 1)]
    # What shows the journal is the mark behind each answer.
    numbered = [it for it in numbered if it[1].split() and not it[1].lstrip(b" ").startswith(b"#")
                and it[1].split() != [b"show", b"journal"]]
    views = [it.encode() for it in VIEWS]
    found, said = answer_all((block for _, line in numbered for block in ([line], views)), *options)
    telling = Telling(first_sentence(octets))
    for (number, line), answer, opened in zip(numbered, found[::2], found[1::2]):
        words = line.decode("utf-8", "replace").split()
        if words[0] != "show":
            telling.tell(number, words, answer, Views(it for it in opened.printed if it != "none"))
    kept = [line for _, line in numbered[: len(found) // 2]]
    if len(kept) < len(numbered):
        telling.story.end = f"line {numbered[len(kept)][0]}: unreadable"
    return telling.finish(kept, options)
