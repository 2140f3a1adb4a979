"""Large messages, and the parts that packets carry of them."""

from typing import NamedTuple

from .packets import LONGEST_PACKET, Name, number_of

PART_SUBTYPES = {"up": (9, 10, 11), "down": (1, 2, 3)}
ABORT_SUBTYPE = 16


def part_count(message, part_size):
    """How many parts a message has."""
    return -(-len(message) // part_size)


class Part(NamedTuple):
    """A part of a message; `place` is 0 of the first, 1 of one between, 2 of the last."""

    place: int
    name: Name
    number: int
    octets: bytes


def read_part(headers, part_size):
    """The part that a packet carries, or `None`."""
    subtypes = PART_SUBTYPES["up" if headers.packet.is_command else "down"]
    if headers.service != 13 or headers.subtype not in subtypes or len(headers.body) < 4:
        return None
    body, place = headers.body, subtypes.index(headers.subtype)
    name = Name(headers.peer, number_of(body[:2]))
    part = Part(place, name, number_of(body[2:4]), body[4:])
    lengths = range(1, part_size + 1) if place == 2 else (part_size,)
    end = (part.number - 1) * part_size + len(part.octets)
    if part.number == 0 or (place == 0) != (part.number == 1):
        return None
    return part if len(part.octets) in lengths and end <= LONGEST_PACKET else None
