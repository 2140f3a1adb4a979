"""The two nodes: what each counts, sends and receives."""

from .packets import LONGEST_PACKET, Fault, Name, Packet, write_command, write_packet
from .parts import PART_SUBTYPES, part_count

# Why a reception is broken off by a part: it isn't the next one, or contradicts those that were kept.
DISCONTINUITY = 2
CONFLICT = 3


class Reception:
    """The parts of a message that came so far, by their numbers, and when the last one did."""

    def __init__(self):
        self.parts = {}
        self.count = None
        self.tick = 0

    def contradicts(self, part):
        """Whether the part differs from that of its number, or the last part isn't the last with it."""
        if part.number in self.parts:
            same = self.parts[part.number] == part.octets
            return not same or (part.place == 2) != (self.count == part.number)
        last = part.number if part.place == 2 else self.count
        return (part.place == 2 and self.count is not None) or (
            last is not None and last < max(part.number, *self.parts, 0)
        )

    def message(self):
        """The message, where all its parts are there."""
        if self.count is None or len(self.parts) < self.count:
            return None
        return b"".join(self.parts[number] for number in range(1, self.count + 1))


class Node:
    """One end: what it counts, the messages that it sends, and those that it receives."""

    def __init__(self, settings, is_craft):
        self.settings = settings
        self.sends, self.receives = ("down", "up") if is_craft else ("up", "down")
        self.is_craft = is_craft
        self.clock = settings.clock
        self.boot = 0
        self.count = 0
        self.counters = {}
        self.outgoing = {}
        self.closed = set()
        self.receptions = {}
        self.ended = set()

    def make(self, peer, service, subtype, body, flags=0):
        """The next packet of this node: ground's is of a source, the spacecraft's goes to one."""
        count, self.count = self.count, (self.count + 1) % 16384
        apid = self.settings.apid
        if not self.is_craft:
            return write_command(apid, count, flags, service, subtype, peer, body)
        counter = self.counters.get((service, subtype), 0)
        self.counters[service, subtype] = (counter + 1) % 65536
        header = bytes([0x20, service, subtype]) + counter.to_bytes(2, "big")
        header += peer.to_bytes(2, "big") + self.clock.to_bytes(4, "big")
        return write_packet(Packet(False, apid, count, header + body))

    def open(self, name, message):
        """Takes a message, to send it; tells of how many parts it is."""
        if name in self.outgoing or name in self.closed:
            raise Fault(41, "InUse")
        if len(message) <= self.settings.part_size:
            raise Fault(42, "Short")
        if len(message) > LONGEST_PACKET:
            raise Fault(43, "Long")
        if len(self.outgoing) >= self.settings.outgoing:
            raise Fault(44, "TooMany")
        self.outgoing[name] = message
        return part_count(message, self.settings.part_size)

    def send(self, name, number):
        """A part of an open message, in a packet."""
        if name not in self.outgoing:
            raise Fault(45, "NotOpen")
        message, size = self.outgoing[name], self.settings.part_size
        count = part_count(message, size)
        if not 1 <= number <= count:
            raise Fault(46, "NoSuchPart")
        place = 0 if number == 1 else 2 if number == count else 1
        octets = message[(number - 1) * size : number * size]
        body = name.identifier.to_bytes(2, "big") + number.to_bytes(2, "big") + octets
        return self.make(name.source, 13, PART_SUBTYPES[self.sends][place], body)

    def finish(self, name):
        """Closes the sender of an open message."""
        if name not in self.outgoing:
            raise Fault(45, "NotOpen")
        del self.outgoing[name]
        self.closed.add(name)

    def restart(self):
        """Starts anew: what is open ends, and all counts are 0; the names and the clock stay."""
        self.boot += 1
        self.count = 0
        self.counters = {}
        self.closed.update(self.outgoing)
        self.outgoing = {}
        self.receptions = {}

    def least_free(self, source):
        """The name of the least identifier of a source that is free, or `None`."""
        names = (Name(source, identifier) for identifier in range(65536))
        return next((n for n in names if n not in self.outgoing and n not in self.closed), None)

    def accept(self, part):
        """Keeps a part: what became of it, and the message, where it is whole now."""
        name, text = part.name, part.name.text(self.settings.source)
        if name in self.ended:
            return "ignored Closed", None
        if name not in self.receptions and len(self.receptions) >= self.settings.receptions:
            return "ignored NoRoom", None
        reception = self.receptions.setdefault(name, Reception())
        reception.tick = self.clock
        if reception.contradicts(part):
            self._end(name)
            return f"broken {self.receives} {text} {CONFLICT}", None
        if part.number in reception.parts:
            return f"again {self.receives} {text} {part.number}", None
        if self.settings.mode == "strict" and part.number != max(reception.parts, default=0) + 1:
            self._end(name)
            return f"broken {self.receives} {text} {DISCONTINUITY}", None
        reception.parts[part.number] = part.octets
        if part.place == 2:
            reception.count = part.number
        message = reception.message()
        if message is None:
            return f"kept {self.receives} {text} {part.number}", None
        self._end(name)
        return f"released {self.receives} {text} {len(message)}", message

    def _end(self, name):
        """Ends a reception."""
        del self.receptions[name]
        self.ended.add(name)

    def expire(self):
        """Ends the overdue reception whose last part came first."""
        due = [
            (reception.tick, name)
            for name, reception in self.receptions.items()
            if self.clock - reception.tick >= self.settings.timeout
        ]
        if not due:
            raise Fault(50, "NothingDue")
        _, name = min(due)
        self._end(name)
        return name
