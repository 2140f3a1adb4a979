"""Space packets, and the headers at the front of their data fields."""

import binascii
from typing import NamedTuple

LONGEST_PACKET = 65542


class Name(NamedTuple):
    """The name of a transaction in its direction: a source and an identifier of it, in this order."""

    source: int
    identifier: int

    def text(self, own):
        """The name as it is printed: without its source, where that is the configured one."""
        return f"{self.identifier}" if self.source == own else f"{self.source}/{self.identifier}"


class Fault(Exception):
    """An event that is refused, or octets that are no packet: a number and a name."""

    def __init__(self, number, name):
        super().__init__(f"{number} {name}")
        self.number = number


def hexadecimal(octets):
    """Octets as they are printed."""
    return bytes(octets).hex() or "-"


def number_of(octets):
    """What octets are as a number."""
    return int.from_bytes(octets, "big")


def checksum(octets):
    """A register of 16 ones, shifted by x^16 + x^12 + x^5 + 1; nothing is added at the end."""
    return binascii.crc_hqx(octets, 0xFFFF).to_bytes(2, "big")


class Packet(NamedTuple):
    """A space packet: whether it is a telecommand, its numbers, and its data field."""

    is_command: bool
    apid: int
    count: int
    data: bytes


def write_packet(packet):
    """The octets of a packet."""
    first = packet.is_command << 12 | 1 << 11 | packet.apid
    length = len(packet.data) + 2 - 1
    front = b"".join(n.to_bytes(2, "big") for n in (first, 0xC000 | packet.count, length))
    return front + packet.data + checksum(front + packet.data)


def read_packet(octets):
    """The packet that octets are, `None` of an idle one, or the first test that they fail."""
    if len(octets) < 7:
        raise Fault(1, "Short")
    if octets[0] >> 5 != 0:
        raise Fault(2, "Version")
    if len(octets) != 7 + number_of(octets[4:6]):
        raise Fault(3, "Length")
    first = number_of(octets[:2])
    if first & 0x7FF == 2047:
        return None
    if octets[2] >> 6 != 3:
        raise Fault(4, "Segmented")
    if not first >> 11 & 1:
        raise Fault(5, "NoSecondary")
    if len(octets) < 8 or checksum(octets[:-2]) != octets[-2:]:
        raise Fault(6, "Checksum")
    count = number_of(octets[2:4]) & 0x3FFF
    return Packet(bool(first >> 12 & 1), first & 0x7FF, count, octets[6:-2])


class Headers(NamedTuple):
    """What a packet's headers say, and its body. `nibble` is the flags, or the time's status."""

    packet: Packet
    nibble: int
    service: int
    subtype: int
    counter: int
    peer: int
    time: int
    body: bytes


def read_headers(packet):
    """The headers at the front of a packet's data field."""
    data = packet.data
    if len(data) < (5 if packet.is_command else 11):
        raise Fault(13, "ShortHeader")
    if data[0] >> 4 != 2:
        raise Fault(11, "PusVersion")
    nibble, service, subtype = data[0] & 15, data[1], data[2]
    if packet.is_command:
        return Headers(packet, nibble, service, subtype, 0, number_of(data[3:5]), 0, data[5:])
    counter, peer, time = (number_of(data[a:b]) for a, b in ((3, 5), (5, 7), (7, 11)))
    return Headers(packet, nibble, service, subtype, counter, peer, time, data[11:])


def write_command(apid, count, flags, service, subtype, source, body):
    """The octets of a telecommand."""
    data = bytes([0x20 | flags, service, subtype]) + source.to_bytes(2, "big") + body
    return write_packet(Packet(True, apid, count, data))
