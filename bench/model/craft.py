"""The spacecraft's end over a stream of packets."""

from .cutting import pieces
from .packets import Fault, number_of
from .parts import part_count
from .world import World, parsed

# A packet that carries a part of so many octets has so many more at most.
AROUND_A_PART = 23


def cut(stream, longest, again=False):
    """The packets of a stream in their order, and where the rest begins: what the stream's end cuts off, or the first
    octets that are none. A damaged packet of version 0 is one. An end that goes on passes over it and all that is none:
    then the places and numbers of octets of each damaged packet, and of all octets astray in a row, stand among the
    packets."""
    events, at, is_astray = [], 0, False
    for piece in pieces(stream, longest):
        size, was_astray, is_astray = len(piece.octets), is_astray, piece.kind == "astray"
        is_cut = piece.kind == "damaged" and (size < 6 or size < 7 + number_of(piece.octets[4:6]))
        is_packet = piece.kind == "whole" or piece.kind == "damaged" and not again and piece.octets[0] >> 5 == 0
        if is_cut or not is_packet and not again:
            break
        if is_packet:
            events.append(piece.octets)
        elif is_astray and was_astray:
            events[-1] = (events[-1][0], events[-1][1] + 1)
        else:
            events.append((piece.place, size))
        at += size
    return events, at


class Spacecraft(World):
    """A world of which only the spacecraft's end is used, with a log of what happens, and the names that
    were used and the clock then, where they are freed."""

    def __init__(self, settings, contents, reuse=0):
        super().__init__(settings)
        self.memories.octets = {name: bytearray(octets) for name, octets in contents.items()}
        self.reuse = reuse
        self.log = []
        self.used = []

    def take_packet(self, octets):
        """Takes a packet, and executes what it releases."""
        headers = parsed(octets)
        if headers is None or headers.packet[:2] != (True, self.settings.apid):
            self.log.append("ignored Unreadable" if headers is None else "ignored ForeignApid")
            return
        self.take("s1", self.link.put("up", octets))
        self.log.append(self.deliver("s1"))
        if not self.jobs.queue:
            return
        self.jobs.claim("w1")
        self.jobs.commit("w1")
        before = len(self.link.packets)
        self.log.append(self.apply())
        self.log.append(f"reports {len(self.link.packets) - before}")
        craft = self.nodes["craft"]
        for name, message in list(craft.outgoing.items()):
            count = part_count(message, self.settings.part_size)
            for number in range(count):
                self.link.put("down", craft.send(name, number + 1))
            craft.finish(name)
            self.log.append(f"sent down {self.text(name)} {count}")

    def beat(self):
        """Sets the clock on, and gives up all receptions that are due."""
        for event, asked in ((self.tick, ("craft", 1)), *((self.expire, ("craft",)) for _ in range(64))):
            try:
                line = event(*asked)
            except Fault:
                continue
            if event != self.tick:
                self.log.append(line)

    def noting(self, event, *asked):
        """What an event does, and the names that it used."""
        craft = self.nodes["craft"]
        ended, closed = set(craft.ended), set(craft.closed)
        event(*asked)
        now = [("up", name) for name in craft.ended - ended] + [("down", name) for name in craft.closed - closed]
        if self.reuse:
            self.used += [(craft.clock, direction, name) for direction, name in now]

    def free(self):
        """Frees the names that were used so many ticks ago."""
        craft = self.nodes["craft"]
        due = [used for used in self.used if used[0] + self.reuse <= craft.clock]
        self.used = [used for used in self.used if used not in due]
        for _, direction, name in due:
            (craft.ended if direction == "up" else craft.closed).remove(name)
            self.log.append(f"retired {direction} {self.text(name)}")

    def written(self):
        """The packets that were made, in order."""
        return [octets for direction, octets in self.link.packets if direction == "down"]


def serve(settings, contents, stream, every=0, reuse=0, again=False, longest=None):
    """What is written, what the memories hold then, where octets are behind the packets, or `None`, and
    the lines of the log, sorted: a set has no order in which names are freed. Octets that are no packet
    end it, or are passed over. No packet is longer than the longest, by default one with a whole part."""
    craft = Spacecraft(settings, contents, reuse)
    events, at = cut(stream, longest or settings.part_size + AROUND_A_PART, again)
    number = 0
    for event in events:
        if isinstance(event, tuple):
            craft.log.append(f"skipped {event[0]} {event[1]}")
            continue
        number += 1
        craft.noting(craft.take_packet, event)
        if every and number % every == 0:
            craft.noting(craft.beat)
            craft.free()
    memories = {name: bytes(octets) for name, octets in craft.memories.octets.items()}
    return b"".join(craft.written()), memories, at if at < len(stream) else None, sorted(craft.log)
