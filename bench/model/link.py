"""The link between the nodes."""

from .packets import Fault


class Link:
    """The packets that were put on it, which of them are lost, and what is in the lanes' hands."""

    def __init__(self):
        self.packets = []
        self.lost = set()
        self.hands = {}

    def put(self, direction, octets):
        """Puts octets on the link: the packet's number."""
        self.packets.append((direction, octets))
        return len(self.packets) - 1

    def holds(self, number):
        """Whether the link holds a packet."""
        return number < len(self.packets) and number not in self.lost

    def lose(self, number):
        """Loses a packet."""
        if not self.holds(number):
            raise Fault(47, "NotHeld")
        self.lost.add(number)

    def take(self, lane, number):
        """Takes a packet into a lane's hand."""
        if lane in self.hands:
            raise Fault(48, "HandFull")
        direction = "up" if lane in ("s1", "s2") else "down"
        if not self.holds(number) or self.packets[number][0] != direction:
            raise Fault(47, "NotHeld")
        self.hands[lane] = number

    def give(self, lane):
        """Gives what is in a lane's hand."""
        if lane not in self.hands:
            raise Fault(49, "HandEmpty")
        return self.packets[self.hands.pop(lane)][1]

    def present(self):
        """All packets, with their directions, that are held or in a hand."""
        held = {number for number in range(len(self.packets)) if number not in self.lost}
        return [self.packets[number] for number in sorted(held | set(self.hands.values()))]
