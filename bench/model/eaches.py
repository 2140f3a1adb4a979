"""The messages of a name that is used again, by the rule of docs/FILES.md."""

from .packets import Fault, read_packet

FIRST, MIDDLE, LAST = 0, 1, 2


def parts_of(octets, size):
    """The parts of a message: number, kind, octets."""
    pieces = [octets[at : at + size] for at in range(0, len(octets), size)]
    kinds = [FIRST] + [MIDDLE] * (len(pieces) - 2) + [LAST]
    return [(number, kind, piece) for number, (kind, piece) in enumerate(zip(kinds, pieces), 1)]


def is_fit(direction, octets):
    """Whether octets are a packet of this direction with a right checksum."""
    try:
        packet = read_packet(octets)
    except Fault:
        return False
    return packet is not None and packet.is_command == (direction == "up")


def added(kept, part):
    """What parts are with one more: None where it contradicts them, octets where all are there."""
    number, kind, piece = part
    if kept.get(number, (kind, piece)) != (kind, piece):
        return None
    more = {**kept, number: (kind, piece)}
    ends = [at for at, (kind, _) in more.items() if kind == LAST]
    if any(at < other for at in ends for other in more):
        return None
    if ends and all(at in more for at in range(1, ends[0] + 1)):
        return b"".join(more[at][1] for at in sorted(more))
    return more


def missing(kept):
    """The parts that are missing, as a part list."""
    items, start, top = [], None, max(kept)
    for number in range(1, top + 2):
        if number <= top and number not in kept:
            start = start or number
        elif start:
            items.append(str(start) if start == number - 1 else f"{start}-{number - 1}")
            start = None
    if all(kind != LAST for kind, _ in kept.values()):
        items.append(f"{top + 1}-")
    return "missing parts: " + ",".join(items)


class Kept:
    """What is kept of a name."""

    def __init__(self, direction, size, any_will_do=False):
        self.direction, self.size, self.any_will_do = direction, size, any_will_do
        self.last, self.all, self.new, self.place, self.given = None, None, {}, None, 0
        # Parts 1, 2 and so on that came in their order; whether new parts came before them, and
        # whether a message was given since they began.
        self.run, self.stale, self.gave = {}, False, False

    def turn(self, kept, part, again):
        """What a part makes of others: parts that wait, a message, or what is told and what is next."""
        now = added(kept, part)
        alone = {part[0]: part[1:]}
        if now is None:
            return "lost", self.missing(kept), alone
        if isinstance(now, dict):
            return "waits", None, now
        if self.fits(now):
            return "given", None, now
        return "lost", "the joined message is no packet: fault", alone if again else {}

    def fits(self, octets):
        """Whether a whole is given out."""
        return self.any_will_do or is_fit(self.direction, octets)

    def missing(self, kept):
        """What is told of parts that are given up."""
        return f"from octet {self.place} on, {missing(kept)}"

    def run_with(self, part):
        """The message that the run is with a part, where it is one."""
        number, kind, _ = part
        run = {} if number == 1 else self.run
        now = added(run, part) if number <= max(run, default=0) + 1 else None
        self.run = now if isinstance(now, dict) and kind != LAST else {}
        return now if isinstance(now, bytes) else None

    def take(self, place, part):
        """What is told of a part, in order: messages and complaints."""
        whole = self.run_with(part)
        gave = self.gave and part[0] != 1
        fit = whole is not None and self.fits(whole)
        if not fit or gave and whole == self.last:
            return self.go_on(place, part, whole is None, gave)
        parts = parts_of(whole, self.size)
        own = not self.stale or all((number, *kept) in parts for number, kept in self.new.items())
        said = [] if own else [self.missing(self.new)]
        self.last, self.all, self.new, self.stale, self.gave = whole, {}, {}, False, False
        return [*said, whole]

    def go_on(self, place, part, again, gave):
        """The same where no message is given whose parts came in their order."""
        stale = bool(self.new) if part[0] == 1 else self.stale
        said = self.gather(place, part, again)
        self.stale = stale and not said
        self.gave = gave or any(isinstance(text, bytes) for text in said)
        return said

    def gather(self, place, part, again):
        """What is told of it among parts in any order."""
        turn = self.turn(self.all, part, again) if self.all is not None else None
        new = ("waits", None, self.new)
        if self.last is None or part not in parts_of(self.last, self.size):
            new = self.turn(self.new, part, again)
            if new[0] == "lost" or not self.new:
                self.place = place
        if new[0] == "given" or new[0] == "waits" and turn and turn[0] == "given":
            self.last = new[2] if new[0] == "given" else turn[2]
            self.all, self.new = {}, {}
            return [self.last]
        self.new = new[2]
        if new[0] == "lost":
            self.all = None if self.last is None else dict(self.new)
            return [new[1]]
        if turn:
            self.all = turn[2] if turn[0] == "waits" else None
        return []
