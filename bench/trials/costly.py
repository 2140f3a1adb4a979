"""Files that are made to cost much, each of about so many octets, and what they are made of."""

import random

from model import checksum

NOISE = b"\x18\xff\xff"
# A telecommand's and a report's first two octets, of the APID 100.
UP, DOWN = b"\x18\x64", b"\x08\x64"
SEED = 7


def packet(front, field):
    """A packet with this field behind its header, and its checksum."""
    octets = front + b"\xc0\0" + (len(field) + 1).to_bytes(2, "big") + field
    return octets + checksum(octets)


def command(subtype, body):
    """A telecommand of large packet transfer."""
    return packet(UP, bytes([0x20, 13, subtype, 0, 1]) + body)


def report(service, subtype, body):
    """A report of this service, to nobody."""
    return packet(DOWN, bytes([0x20, service, subtype]) + bytes(8) + body)


def reports(subtype, areas):
    """Reports of this subtype of memory management, of these areas of memory 1."""
    for at in range(0, len(areas), 255):
        some = areas[at : at + 255]
        yield report(6, subtype, bytes([1, len(some)]) + b"".join(some))


def area(address, length, told):
    """An area of a report."""
    return address.to_bytes(4, "big") + length.to_bytes(2, "big") + told


def part_of(number, size=4):
    """A last part, of a name of its own, that says to be the 8,191st."""
    source, name = number % 65535 + 1, number // 65535
    body = source.to_bytes(2, "big") + name.to_bytes(2, "big") + (8191).to_bytes(2, "big")
    return packet(UP, bytes([0x20, 13, 11]) + body + bytes(size))


def report_of(number):
    """A report that a request was completed, by its number."""
    return report(1, 7, UP + (0xC000 | number & 0x3FFF).to_bytes(2, "big"))


def far_part(name, number):
    """A part of this number of a name down, with 8 octets: a packet of 31 octets."""
    source, low = (name // 65536).to_bytes(2, "big"), (name % 65536).to_bytes(2, "big")
    field = bytes([0x20, 13, 2]) + bytes(2) + source + bytes(4) + low + number.to_bytes(2, "big") + bytes(8)
    return packet(DOWN, field)


def some(made, length):
    """Packets, of which the one of a number is made by a call, as many as so many octets hold."""
    return b"".join(map(made, range(length // len(made(0)))))


# ---- files ----


def zeros(length):
    """Zeros, each of which might begin a packet"""
    return bytes(length)


def noise(length):
    """Octets drawn at random"""
    return random.Random(SEED).randbytes(length)


def claims(length):
    """Headers that claim 65,542 octets, one behind the other"""
    return (UP + b"\xff\xff\xff\xff") * (length // 6)


def thirds(length):
    """Each third octet begins a header that claims 65,542 octets"""
    return NOISE * (length // 3)


def broken(length):
    """A header that claims 65,527 octets in front of each whole part"""
    piece = UP + b"\xc0\0\xff\xf0" + command(9, b"\0\x07\0\x01" + bytes(8))
    return piece * (length // len(piece))


def firsts(length):
    """First parts, each of another message"""
    return some(lambda name: command(9, (name % 65536).to_bytes(2, "big") + b"\0\x01" + bytes(8)), length)


def lasts(length):
    """Last parts with far numbers, each of another message"""
    return some(part_of, length)


def far(length):
    """Parts with far numbers, each of another message down"""
    return some(lambda name: far_part(name, 8192), length)


def settled(length):
    """Reports that requests were completed"""
    return some(report_of, length)


def no_requests(length):
    """Such reports in place of requests"""
    return settled(length)


def _gaps(length):
    """Areas of dumps with an octet, and one missing before it."""
    one = area(0, 1, b"\0" + checksum(b"\0"))
    return [area(2 * at, 1, b"\0" + checksum(b"\0")) for at in range(1, length // len(one) + 1)]


def rising(length):
    """Dumped octets with gaps, addresses rising"""
    return b"".join(reports(6, _gaps(length)))


def falling(length):
    """Dumped octets with gaps, addresses falling"""
    return b"".join(reports(6, _gaps(length)[::-1]))


def mixed(length):
    """Dumped octets with gaps, in any order"""
    areas = _gaps(length)
    return b"".join(reports(6, random.Random(SEED).sample(areas, len(areas))))


def outer(length):
    """Dumped octets with gaps, the outer first"""
    areas = _gaps(length)
    return b"".join(reports(6, areas[::2] + areas[::-2]))


def checks(length):
    """Checks of an octet each"""
    return b"".join(reports(10, [area(at % 8000, 1, checksum(b"\0")) for at in range(length // 8)]))


def whole_checks(length):
    """Checks of a whole file of 8,000 octets that don't agree"""
    return b"".join(reports(10, [area(0, 8000, b"\0\0")] * (length // 8)))
