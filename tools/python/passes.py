"""Random passes: two ends of the package, and the model's world with the same events.

What each event answers, each packet that is made, each message that is released and the memories at the
end have to be the model's. `Pass(RANDOM).play(TURNS)` gives a line for each difference.
"""

from __future__ import annotations

import random

import forgesilver
from forgesilver import Direction, End, Mode, OutcomeKind, Side
from model.memories import load_body
from model.packets import Fault as ModelFault
from model.packets import Name, write_command
from model import states
from model.settings import LAST_TICK, Settings
from model.world import World

ENDS = {"up": ("ground", "craft"), "down": ("craft", "ground")}
WAYS = {"up": Direction.UP, "down": Direction.DOWN}
LANES = {"up": "s1", "down": "g1"}
# The number of each fault of a state; where no number is left for a start, that of a restart.
STATE_FAULTS = {
    "Short": 111, "Tag": 112, "Version": 113, "Length": 114, "Side": 115, "Config": 116, "Checksum": 117,
    "Boot": 108, "Order": 118,
}


def outcome_text(settings: Settings, side: str, outcome: forgesilver.Outcome) -> str:
    """An outcome as the model tells it."""
    kind, direction = outcome.kind, "up" if side == "craft" else "down"
    name = outcome.name and Name(*outcome.name).text(settings.source)
    if kind in (OutcomeKind.KEPT, OutcomeKind.AGAIN):
        return f"{kind.name.lower()} {direction} {name} {outcome.part}"
    if kind is OutcomeKind.RELEASED:
        return f"released {direction} {name} {outcome.length}"
    if kind is OutcomeKind.PLAIN_RELEASED:
        return f"plain {outcome.length}"
    if kind is OutcomeKind.REPORT_NOTED:
        return "report {} {}".format(*(outcome.types or (None, None)))
    if kind is OutcomeKind.IGNORED:
        assert outcome.why is not None
        return "ignored " + outcome.why.name.title().replace("_", "")
    word = "abort" if kind is OutcomeKind.ABORT_NOTED else f"broken {direction}"
    assert outcome.reason is not None
    return f"{word} {name} {int(outcome.reason)}"


def applied_text(settings: Settings, applied: forgesilver.Applied) -> str:
    """What became of a request, as the model tells it."""
    if applied.failure is not None:
        return f"applied code {int(applied.failure)}"
    if applied.kind is forgesilver.AppliedKind.SILENT:
        return "applied silent"
    name = applied.name and Name(*applied.name).text(settings.source)
    return "applied done" + (f" down {name}" if name else "")


class Pass:
    """A pass: both ends, the world, and what differed."""

    def __init__(self, seed: int):
        self.random = r = random.Random(seed)
        memory = tuple((it, r.choice([1, 16, 40, 40]), r.randrange(256)) for it in r.sample(range(4), 2))
        self.settings = Settings(
            apid=r.choice([0, 100, 2046]), source=1, part_size=r.choice([4, 5, 8, 16]),
            timeout=r.randrange(1, 5), receptions=r.randrange(1, 4), outgoing=r.randrange(1, 4),
            clock=r.choice([0, 7, 0xFFFFFFFE]), mode=r.choice(["any", "any", "strict"]), memory=memory,
        )
        self.world = World(self.settings)
        s = self.settings
        config = forgesilver.Config(
            s.apid, s.part_size, s.timeout, s.receptions, s.outgoing, s.clock, Mode[s.mode.upper()]
        )
        content = {it: bytes([fill]) * size for it, size, fill in memory}
        self.makings = {
            "ground": (Side.GROUND, config), "craft": (Side.SPACECRAFT, config, content)
        }
        self.ends = {side: End(*making) for side, making in self.makings.items()}
        self.names = [Name(r.randrange(1, 3), r.randrange(3)) for _ in range(3)]
        self.wrong: list[str] = []

    def want(self, event: str, got: object, wanted: object) -> None:
        """Notes a difference."""
        if got != wanted:
            self.wrong.append(f"{event}: {got!r:.200} in place of {wanted!r:.200}")

    def modelled(self, event, *words):
        """What the model answers, or the number of its fault."""
        try:
            return event(*words)
        except ModelFault as fault:
            return int(str(fault).split()[0])

    def called(self, call, *words, **named):
        """What a call of an end answers, or the number of its fault."""
        try:
            return call(*words, **named)
        except forgesilver.Fault as fault:
            return fault.number

    def same(self, event: str, got: object, wanted: object) -> bool:
        """Compares two answers, of which numbers are faults; whether the event happened."""
        if isinstance(got, int) or isinstance(wanted, int):
            self.want(event, got, wanted)
        return not isinstance(wanted, int)

    def sent(self, event: str, side: str, before: int) -> None:
        """Wants that an end has just these packets to send that came onto the model's link."""
        new = [octets for _, octets in self.world.link.packets[before:]]
        self.want(f"{event}: packets", list(self.ends[side].outgoing()), new)

    # ---- events ----

    def open(self) -> None:
        r, direction, name = self.random, self.direction(), self.random.choice(self.names)
        if direction == "up" and r.random() < 0.6:
            message = self.request(name.source)
        else:
            message = r.randbytes(r.choice([0, 3, 9, r.randrange(5 * self.settings.part_size)]))
        wanted = self.modelled(self.world.open, direction, name, message)
        got = self.called(self.ends[ENDS[direction][0]].open, name, message)
        if isinstance(wanted, str):
            wanted, got = wanted.split()[-1], str(got)
        self.want("open", got, wanted)

    def request(self, source: int) -> bytes:
        """A load, a dump or a check, right or not."""
        r, apid = self.random, self.settings.apid
        body, subtype = self.body()
        apid = r.choice([apid, apid, apid, 7])
        return write_command(apid, r.randrange(16384), r.randrange(16), 6, subtype, source, body)

    def body(self) -> tuple[bytes, int]:
        """The body of a request and its subtype."""
        r = self.random
        longest = r.choice([4, 4, 22])
        areas = [(r.randrange(14), r.randbytes(r.randrange(1, longest))) for _ in range(r.randrange(1, 3))]
        subtype, own = r.choice([2, 5, 9]), [it for it, _, _ in self.settings.memory]
        memory = r.choice([*own * 4, r.randrange(5)])
        if subtype == 2:
            loaded = [forgesilver.Loaded(*it) for it in areas]
            body = forgesilver.Load(memory, loaded).body()
            self.want("load", body, load_body(memory, areas))
        else:
            kind = forgesilver.Dump if subtype == 5 else forgesilver.Check
            body = kind(memory, [forgesilver.Area(at, len(it)) for at, it in areas]).body()
        return (body[:-1] if r.random() < 0.1 else body), subtype

    def direction(self) -> str:
        return self.random.choice(["up", "up", "down"])

    def send(self) -> None:
        direction, name = self.direction(), self.random.choice(self.names)
        number, before = self.random.randrange(0, 6), len(self.world.link.packets)
        wanted = self.modelled(self.world.send, direction, name, number)
        side = ENDS[direction][0]
        self.same("send", self.called(self.ends[side].part, name, number), wanted)
        self.sent("send", side, before)

    def send_all(self) -> None:
        """All parts of a message, in one go."""
        direction, name = self.direction(), self.random.choice(self.names)
        side, before = ENDS[direction][0], len(self.world.link.packets)
        number = 1
        while isinstance(self.modelled(self.world.send, direction, name, number), str):
            number += 1
        new = [octets for _, octets in self.world.link.packets[before:]]
        got = self.called(lambda: list(self.ends[side].parts(name)))
        self.want("parts", got, new if number > 1 else 45)

    def plain(self) -> None:
        (body, subtype), r = self.body(), self.random
        service, flags, source = r.choice([6, 6, 6, 17, 13]), r.randrange(16), r.randrange(1, 3)
        subtype = r.choice([subtype, 9]) if service == 13 else subtype
        before = len(self.world.link.packets)
        wanted = self.modelled(self.world.plain, (source, flags), service, subtype, body)
        got = self.called(
            self.ends["ground"].plain, service, subtype, body, source=source, flags=flags
        )
        self.same("plain", got, wanted)
        self.sent("plain", "ground", before)

    def damage(self) -> None:
        if self.random.random() < 0.3:
            self.modelled(self.world.damage, self.direction(), self.random.randbytes(9))

    def deliver(self) -> None:
        held = self.world.link.packets
        if not held:
            return
        number = self.random.randrange(max(0, len(held) - 10), len(held))
        direction, octets = held[number]
        side, before, released = ENDS[direction][1], len(held), len(self.world.released)
        self.world.take(LANES[direction], number)
        wanted = self.world.deliver(LANES[direction])
        given = self.random.choice([bytes, bytearray, memoryview])(octets)
        outcome = self.ends[side].feed(given)
        self.want("deliver", outcome_text(self.settings, side, outcome), wanted)
        new = [message for _, _, message in self.world.released[released:]]
        self.want("released", self.ends[side].released(), new[0] if new else None)
        self.sent("deliver", side, before)

    def finish(self) -> None:
        direction, name = self.direction(), self.random.choice(self.names)
        wanted = self.modelled(self.world.finish, direction, name)
        self.same("finish", self.called(self.ends[ENDS[direction][0]].finish, name), wanted)

    def time(self) -> None:
        side, ticks = self.random.choice(["ground", "craft"]), self.random.randrange(1, 4)
        # An end refuses ticks that its clock doesn't have; a line of the world goes as far as it can.
        has_ended = self.world.nodes[side].clock + ticks > LAST_TICK
        wanted = 56 if has_ended else self.modelled(self.world.tick, side, ticks)
        self.same("tick", self.called(self.ends[side].tick, ticks), wanted)

    def expire(self) -> None:
        side, before = self.random.choice(["ground", "craft"]), len(self.world.link.packets)
        wanted = self.modelled(self.world.expire, side)
        name = self.ends[side].expire()
        direction = "up" if side == "craft" else "down"
        text = 50 if name is None else f"expired {direction} {self.world.text(Name(*name))}"
        self.want("expire", text, wanted)
        self.sent("expire", side, before)

    def retire(self) -> None:
        direction, name = self.direction(), self.random.choice(self.names)
        if isinstance(self.modelled(self.world.retire, direction, name), str):
            for side in reversed(ENDS[direction]):
                self.want("retire", self.called(self.ends[side].retire, WAYS[direction], name), None)

    def restart(self) -> None:
        side = self.random.choice(["ground", "craft"])
        self.world.restart(side)
        self.ends[side].restart()

    def execute(self) -> None:
        jobs, end, before = self.world.jobs, self.ends["craft"], len(self.world.link.packets)
        is_claimed = isinstance(self.modelled(jobs.claim, "w1"), str)
        self.want("read", end.read(), is_claimed)
        if is_claimed:
            jobs.commit("w1")
        wanted = self.modelled(self.world.apply)
        applied = self.called(end.execute)
        if isinstance(applied, forgesilver.Applied):
            applied = applied_text(self.settings, applied)
        self.want("execute", 51 if applied is None else applied, wanted)
        self.sent("execute", "craft", before)

    # ---- states ----

    def stated(self, side: str) -> None:
        """An end's state is the model's, and so is the end that is made of it, or why none is. An end of C
        has no source of its own."""
        node, settings = self.world.nodes[side], self.settings._replace(source=0)
        octets = states.spelled(node, settings)
        self.want("state", self.ends[side].state(), octets)
        for given in (octets, self.changed(octets)):
            try:
                read = states.read(settings, node.is_craft, given)
                wanted: object = states.spelled(read, settings)
            except states.StateFault as fault:
                wanted = STATE_FAULTS[str(fault)]
            self.want("made again", self.called(self.made_again, side, given), wanted)

    def made_again(self, side: str, octets: bytes) -> bytes:
        """The state of an end that is made of these octets."""
        with End(*self.makings[side], state=octets) as end:
            return end.state()

    def changed(self, octets: bytes) -> bytes:
        """Octets of a state that were changed, cut or added to, with a right checksum or not."""
        r, changed = self.random, bytearray(octets)
        way = r.randrange(4)
        if way == 0:
            return octets[: r.randrange(len(octets))]
        if way == 1:
            changed += r.randbytes(r.choice([1, 6]))
        at = r.randrange(r.choice([6, 39, len(changed)]))
        changed[at] = r.choice([0, 255, changed[at] ^ 1 << r.randrange(8)])
        if way < 3:
            changed[-2:] = states.checksum(bytes(changed[:-2]))
        return bytes(changed)

    def play(self, turns: int) -> list[str]:
        """Plays so many events, and says what differed."""
        events = [self.finish, self.time, self.expire, self.retire, self.damage, self.plain]
        events = [*events * 2, self.restart, *[self.open, self.execute, self.send] * 4]
        events += [*[self.send_all] * 8, *[self.deliver] * 30]
        try:
            for _ in range(turns):
                self.random.choice(events)()
            for side in self.ends:
                self.stated(side)
            for name, octets in self.world.memories.octets.items():
                self.want("memory", self.ends["craft"].memory(name), bytes(octets))
        finally:
            for end in self.ends.values():
                end.close()
        return self.wrong
