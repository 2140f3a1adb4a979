"""The memories of the spacecraft, and what a request does to them."""

from typing import NamedTuple

from .packets import LONGEST_PACKET, checksum, number_of


class Failure(Exception):
    """A request that is refused, with its failure code."""

    def __init__(self, code):
        super().__init__(code)
        self.code = code


class Area(NamedTuple):
    """An area that a request names; the octets and the checksum are those of a load."""

    start: int
    length: int
    octets: bytes = b""
    checksum: bytes = b""


def read_areas(body, is_load):
    """The areas of a request's body."""
    if len(body) < 2 or body[1] == 0:
        raise Failure(2)
    areas, at = [], 2
    for _ in range(body[1]):
        start, length = number_of(body[at : at + 4]), number_of(body[at + 4 : at + 6])
        end = at + 6 + (length + 2 if is_load else 0)
        if length == 0 or end > len(body):
            raise Failure(2)
        octets, its_checksum = body[at + 6 : end - 2], body[end - 2 : end]
        areas.append(Area(start, length, octets, its_checksum) if is_load else Area(start, length))
        at = end
    if at != len(body):
        raise Failure(2)
    return areas


def load_body(memory, areas):
    """The body of a load of areas, each an address and its octets."""
    body = bytes([memory, len(areas)])
    for start, octets in areas:
        body += start.to_bytes(4, "big") + len(octets).to_bytes(2, "big")
        body += octets + checksum(octets)
    return body


class Memories:
    """The memories of the spacecraft."""

    def __init__(self, memories):
        self.octets = {name: bytearray([fill]) * size for name, size, fill in memories}

    def execute(self, request):
        """Does what a request asks for: `None`, or the subtype and body of the report of data."""
        if request.service != 6 or request.subtype not in (2, 5, 9):
            raise Failure(1)
        areas = read_areas(request.body, request.subtype == 2)
        memory = self.octets.get(request.body[0])
        if memory is None:
            raise Failure(3)
        for area in areas:
            if area.start + area.length > len(memory):
                raise Failure(4)
            if request.subtype == 2 and checksum(area.octets) != area.checksum:
                raise Failure(5)
        if request.subtype == 2:
            for area in areas:
                memory[area.start : area.start + area.length] = area.octets
            return None
        return self._report(request, areas, memory)

    @staticmethod
    def _report(request, areas, memory):
        """The report on areas, with their octets where it answers a dump."""
        is_dump, body = request.subtype == 5, bytearray(request.body[:2])
        for start, length, _, _ in areas:
            octets = bytes(memory[start : start + length])
            body += start.to_bytes(4, "big") + length.to_bytes(2, "big")
            body += (octets if is_dump else b"") + checksum(octets)
        if 19 + len(body) > LONGEST_PACKET:
            raise Failure(6)
        return (6 if is_dump else 10), bytes(body)
