"""How an end cuts a stream into pieces, on a link whose longest packet has so many octets.

In step a packet is believed by its checksum, and other octets by the length that they say, if it leads on. Behind
octets astray packets are believed that follow one another for more octets than the longest packet has. A length
above the longest is never believed.
"""

from typing import NamedTuple

from .packets import Fault, checksum, read_packet

# So many octets are looked at, and no more than so many packets in a row of which only the length is believed.
NEAR = 131084
MOST_DAMAGED = 256


class Piece(NamedTuple):
    """Octets of a stream: whole, a packet; damaged, as many octets as a header says, or fewer that the stream's end
    cuts off; or astray, one octet."""

    kind: str
    place: int
    octets: bytes


class Near(NamedTuple):
    """The octets of a stream up to a place: those that are looked at. `is_all` if the stream ends there."""

    stream: bytes
    end: int
    longest: int
    is_all: bool

    def length_said(self, at):
        """How many octets the packet here has as its header says, or `None` if the header hasn't come."""
        return 7 + (self.stream[at + 4] << 8 | self.stream[at + 5]) if self.end >= at + 6 else None

    def fits(self, at):
        """Whether as many octets stand here as the header says, if that is believed."""
        said = self.length_said(at)
        return said is not None and said <= self.longest and at + said <= self.end

    def is_cut_off(self, at):
        """Whether fewer stand here, if that is believed."""
        said = self.length_said(at)
        return said is None or said <= self.longest and at + said > self.end

    def is_too_short(self, at):
        """Whether a header says seven octets, and not that they are an idle packet: zeros read as a header do."""
        idle = (self.stream[at] & 7) << 8 | self.stream[at + 1] == 2047
        return self.length_said(at) == 7 and not idle

    def framed(self, at):
        """As many octets as the header says."""
        return self.stream[at : at + self.length_said(at)]

    def leads_on(self, at):
        """Whether lengths lead from here to a packet that isn't idle, to the stream's end, or into what it cuts off."""
        for _ in range(MOST_DAMAGED):
            if self.is_cut_off(at):
                return self.is_all
            if not self.fits(at) or self.is_too_short(at):
                return False
            if is_taken(self.framed(at), False):
                return True
            at += self.length_said(at)
        return False

    def follow(self, at):
        """Whether sealed packets follow one another from here for more octets than the longest, or up to the end."""
        start = at
        while at - start <= self.longest and at < self.end:
            if not self.fits(at) or not is_sealed(self.framed(at)):
                return False
            at += self.length_said(at)
        return True


def is_sealed(octets):
    """Whether octets end in their checksum."""
    return len(octets) >= 8 and checksum(octets[:-2]) == octets[-2:]


def is_taken(octets, in_step):
    """Whether octets are a packet; in step so is an idle one, and a sealed one that fails a test of its flags."""
    try:
        return read_packet(octets) is not None or in_step
    except Fault as fault:
        return in_step and fault.number in (4, 5) and is_sealed(octets)


def piece_at(stream, at, in_step, longest):
    """The piece at a place."""
    near = Near(stream, min(len(stream), at + NEAR), longest, len(stream) < at + NEAR)
    if in_step and near.is_cut_off(at):
        return Piece("damaged", at, stream[at:])
    if near.fits(at):
        octets = near.framed(at)
        if is_taken(octets, in_step) and (in_step or near.follow(at)):
            return Piece("whole", at, octets)
        if in_step and near.leads_on(at + len(octets)):
            return Piece("damaged", at, octets)
    return Piece("astray", at, stream[at : at + 1])


def pieces(stream, longest):
    """All of them, in their order."""
    at, in_step = 0, True
    while at < len(stream):
        piece = piece_at(stream, at, in_step, longest)
        yield piece
        at += len(piece.octets)
        in_step = piece.kind != "astray"
