"""A world: the nodes, the link, the jobs and the memories, and the events that happen there."""

from .jobs import Jobs
from .link import Link
from .memories import Failure, Memories, load_body
from .nodes import Node
from .packets import Fault, Name, hexadecimal, number_of, read_headers, read_packet, write_command
from .parts import ABORT_SUBTYPE, PART_SUBTYPES, read_part
from .settings import LAST_TICK

# Why a reception is broken off that took no part for as long as the timeout.
EXPIRED = 1

# The octets of telemetry with a part, beside the part's own.
ROOM_BESIDE_PART = 23


def parsed(octets):
    """The headers of a packet, or `None` of octets that have none."""
    try:
        packet = read_packet(octets)
        return None if packet is None else read_headers(packet)
    except Fault:
        return None


class World:
    """Two nodes, the link, the jobs and the memories. Each event gives the line that is printed."""

    def __init__(self, settings):
        self.settings = settings
        self.nodes = {"ground": Node(settings, False), "craft": Node(settings, True)}
        self.link = Link()
        self.jobs = Jobs()
        self.memories = Memories(settings.memory)
        self.released = []
        self.executed = 0
        self.events = 0

    def sender(self, direction):
        """The node from which a direction goes."""
        return self.nodes["ground" if direction == "up" else "craft"]

    def receiver(self, direction):
        """The node to which a direction goes."""
        return self.nodes["craft" if direction == "up" else "ground"]

    def text(self, name):
        """A name as it is printed."""
        return name.text(self.settings.source)

    def longest(self):
        """The most octets of a packet on the link."""
        return self.settings.part_size + ROOM_BESIDE_PART

    def open(self, direction, name, message):
        """Hands a message to its sender."""
        count = self.sender(direction).open(name, message)
        return f"opened {direction} {self.text(name)} parts {count}"

    def load(self, name, count, flags, memory, areas):
        """Hands the packet of a load to its sender."""
        apid, source, body = self.settings.apid, name.source, load_body(memory, areas)
        return self.open("up", name, write_command(apid, count, flags, 6, 2, source, body))

    def send(self, direction, name, number):
        """Puts a part on the link."""
        packet = self.sender(direction).send(name, number)
        return f"put {self.link.put(direction, packet)}"

    def plain(self, sourced_flags, service, subtype, body):
        """Puts a request on the link that is no part."""
        source, flags = sourced_flags
        if service == 13 and subtype in PART_SUBTYPES["up"]:
            raise Fault(60, "PartRequest")
        if 13 + len(body) > self.longest():
            raise Fault(43, "Long")
        packet = self.nodes["ground"].make(source, service, subtype, body, flags)
        return f"put {self.link.put('up', packet)}"

    def finish(self, direction, name):
        """Closes a sender."""
        self.sender(direction).finish(name)
        return f"finished {direction} {self.text(name)}"

    def lose(self, number):
        """Loses a packet."""
        self.link.lose(number)
        return f"lost {number}"

    def damage(self, direction, octets):
        """Puts on the link what noise left."""
        if len(octets) > self.longest():
            raise Fault(43, "Long")
        try:
            read_packet(octets)
        except Fault:
            return f"put {self.link.put(direction, octets)}"
        raise Fault(54, "LooksWhole")

    def take(self, lane, number):
        """Takes a packet into a lane's hand."""
        self.link.take(lane, number)
        return f"took {number}"

    def deliver(self, lane):
        """Gives what is in a lane's hand to the node at its end.

        The link has the nodes' packets, and octets that are no packet: nothing else is told apart.
        """
        octets = self.link.give(lane)
        headers = parsed(octets)
        if headers is None:
            return "ignored Unreadable"
        node = self.nodes["craft" if lane in ("s1", "s2") else "ground"]
        part = read_part(headers, self.settings.part_size)
        if part is not None:
            outcome, message = node.accept(part)
            if message is not None:
                self._release(node, part.name, message)
            if node.is_craft and outcome.startswith("broken"):
                self._report(node, part.name, int(outcome.split()[-1]))
            return outcome
        if node.is_craft:
            self._release(node, None, octets)
            return f"plain {len(octets)}"
        return self._note(headers)

    def _report(self, node, name, reason):
        """Puts a report on the link that a reception was broken off; it goes to the name's source."""
        body = name.identifier.to_bytes(2, "big") + bytes([reason])
        self.link.put("down", node.make(name.source, 13, ABORT_SUBTYPE, body))

    def _release(self, node, name, message):
        """Releases a message, a plain request where it has no name; the spacecraft makes a job of it."""
        self.released.append((node.receives, name, message))
        if node.is_craft:
            self.jobs.add(message)

    def _note(self, headers):
        """Ground notes a report; one of an abortion closes the sender."""
        if (headers.service, headers.subtype) != (13, ABORT_SUBTYPE):
            return f"report {headers.service} {headers.subtype}"
        name, ground = Name(headers.peer, number_of(headers.body[:2])), self.nodes["ground"]
        if name in ground.outgoing:
            ground.finish(name)
        return f"abort {self.text(name)} {headers.body[2]}"

    def tick(self, name, count):
        """Moves a clock on, as far as it goes; each tick is an event of its own."""
        node = self.nodes[name]
        ticks = min(count, LAST_TICK - node.clock)
        node.clock += ticks
        if ticks < count:
            self.events += ticks
            raise Fault(56, "ClockEnd")
        # One more is counted where the line's event is.
        self.events += ticks - 1
        return f"clock {node.clock}"

    def expire(self, name):
        """Ends an overdue reception; the spacecraft reports that."""
        node = self.nodes[name]
        name = node.expire()
        if node.is_craft:
            self._report(node, name, EXPIRED)
        return f"expired {node.receives} {self.text(name)}"

    def retire(self, direction, name):
        """Frees a message's name at both ends."""
        sender, receiver = self.sender(direction), self.receiver(direction)
        if name in sender.outgoing:
            raise Fault(55, "StillOpen")
        if name not in sender.closed:
            raise Fault(45, "NotOpen")
        if not self.is_clear(direction, name):
            raise Fault(53, "NotClear")
        sender.closed.remove(name)
        receiver.ended.discard(name)
        return f"retired {direction} {self.text(name)}"

    def restart(self, name):
        """Starts a node anew; the spacecraft forgets its jobs."""
        node = self.nodes[name]
        node.restart()
        if node.is_craft:
            self.jobs.restart()
        return f"restarted {name} {node.boot}"

    def apply(self):
        """Executes the oldest job, and puts its reports on the link."""
        message = self.jobs.take()
        self.executed += 1
        request = parsed(message)
        if request is None or request.packet[:2] != (True, self.settings.apid):
            return "applied silent"
        try:
            name, reply = self._execute(request)
        except Failure as failure:
            self._report_failure(request, message[:4], failure.code)
            return f"applied code {failure.code}"
        self._report_success(request, message[:4], name, reply)
        return "applied done" + ("" if name is None else f" down {self.text(name)}")

    def _execute(self, request):
        """Executes a request: its reply, and the name of the request's source to open that under."""
        reply, craft = self.memories.execute(request), self.nodes["craft"]
        if reply is None or 19 + len(reply[1]) <= self.longest():
            return None, reply
        name = craft.least_free(request.peer)
        if name is None:
            raise Failure(7)
        if len(craft.outgoing) >= self.settings.outgoing:
            raise Failure(8)
        return name, reply

    def _verify(self, request, subtype, body):
        """Puts a report of verification on the link, to the request's source."""
        self.link.put("down", self.nodes["craft"].make(request.peer, 1, subtype, body))

    def _report_failure(self, request, request_id, code):
        """Reports that a request was refused."""
        if code > 2 and request.nibble & 1:
            self._verify(request, 1, request_id)
        self._verify(request, 2 if code <= 2 else 4, request_id + code.to_bytes(2, "big"))

    def _report_success(self, request, request_id, name, reply):
        """Reports that a request was carried out."""
        if request.nibble & 1:
            self._verify(request, 1, request_id)
        if request.nibble & 2:
            self._verify(request, 3, request_id)
        if reply is not None:
            packet = self.nodes["craft"].make(request.peer, 6, *reply)
            if name is None:
                self.link.put("down", packet)
            else:
                self.nodes["craft"].outgoing[name] = packet
        if request.nibble & 8:
            self._verify(request, 7, request_id)

    def is_part_of(self, packet, direction, name):
        """Whether a packet on the link is a part of a message."""
        headers = parsed(packet[1]) if packet[0] == direction else None
        part = headers and read_part(headers, self.settings.part_size)
        return part is not None and part.name == name

    def is_clear(self, direction, name):
        """Whether nothing is left of a message."""
        if any(self.is_part_of(packet, direction, name) for packet in self.link.present()):
            return False
        receptions = self.receiver(direction).receptions
        return name not in receptions and name not in self.sender(direction).outgoing
