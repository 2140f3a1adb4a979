"""Requests to load, dump and check a memory, and their reports (ECSS-E-ST-70-41C, service 6).

The library writes and reads their bodies, as docs/FORMATS.md has them. If a load has several areas,
the library writes each, and this module puts them together.
"""

from __future__ import annotations

from ctypes import addressof, byref
from dataclasses import dataclass
from typing import ClassVar, Sequence, Union

from . import _library
from ._library import LONGEST_PACKET, Given, Held, Octets, Room, number, of_kind, piece_of
from .faults import BadArea, LongLoad, NoReport, raise_fault
from .kinds import Acknowledge
from .space_packets import Telecommand, Telemetry

_codecs = _library.codecs

#: The service type of raw memory management.
SERVICE = 6
DUMPED, CHECKED = 6, 10


@dataclass(frozen=True)
class Loaded:
    """An area of a load, or of a dump's report: from which address on, and its octets."""

    start: int
    octets: Held


@dataclass(frozen=True)
class Area:
    """An area of a dump or of a check: from which address on, and how many octets."""

    start: int
    length: int


@dataclass(frozen=True)
class Checked:
    """An area of a check's report: from which address on, how many octets, and their checksum."""

    start: int
    length: int
    checksum: int


class _Request:
    """What the requests share."""

    subtype: ClassVar[int]

    def body(self) -> bytes:
        """The body of the request's message."""
        raise NotImplementedError

    def telecommand(
        self, *, apid: int, count: int, source: int,
        flags: Acknowledge = Acknowledge.ACCEPTANCE | Acknowledge.COMPLETION,
    ) -> Telecommand:
        """The request as a telecommand. `write_telecommand` makes its packet, which `End.open`
        takes if it is longer than a part. Reports name the request by APID and count. So as long as
        reports on another request may still come, don't give this one the same count."""
        return Telecommand(apid, count, flags, SERVICE, self.subtype, source, self.body())


@dataclass(frozen=True)
class Load(_Request):
    """A load: writes octets into a memory, area by area in this order."""

    memory: int
    areas: Sequence[Loaded]
    subtype: ClassVar[int] = 2

    def body(self) -> bytes:
        """The body of the request's message. Raises `BadArea`, `Range`, or `LongLoad` if its packet
        would be too long: a load of one area has at most 65,519 octets."""
        if not 1 <= len(self.areas) <= 255:
            raise BadArea(f"{len(self.areas)} areas")
        areas = [of_kind(it, Loaded) for it in self.areas]
        bodies = [write_load(self.memory, it.start, it.octets) for it in areas]
        if len(bodies) == 1:
            return bodies[0]
        # Each area stands after a body's first two octets.
        body = b"".join([bodies[0][:1], bytes([len(bodies)]), *(it[2:] for it in bodies)])
        if 13 + len(body) > LONGEST_PACKET:
            raise LongLoad(f"the packet would have {13 + len(body)} octets")
        return body


@dataclass(frozen=True)
class _OfAreas(_Request):
    """What dumps and checks share."""

    memory: int
    areas: Sequence[Area]
    #: The library's call that writes it.
    _writer: ClassVar[str]

    def body(self) -> bytes:
        """The body of the request's message. Raises `BadArea` or `Range`."""
        memory = number(self.memory, 255, "the memory")
        places = [
            (number(it.start, 0xFFFFFFFF, "the address"), number(it.length, 0xFFFF, "the length"))
            for it in (of_kind(each, Area) for each in self.areas)
        ]
        ranges = (_library.LptRange * (len(places) or 1))(*places)
        room = Room(2 + 6 * len(places))
        write = getattr(_codecs, self._writer)
        raise_fault(write(memory, addressof(ranges), len(places), room.at, room.len, room.needs))
        return room.octets()


@dataclass(frozen=True)
class Dump(_OfAreas):
    """A dump: asks for octets of a memory. The spacecraft refuses one whose report would be too long: one
    area has at most 65,513 octets. A `Job` cuts longer ones."""

    subtype: ClassVar[int] = 5
    _writer: ClassVar[str] = "lpt_write_dump"


@dataclass(frozen=True)
class Check(_OfAreas):
    """A check: asks for the checksums of areas of a memory."""

    subtype: ClassVar[int] = 9
    _writer: ClassVar[str] = "lpt_write_check"


#: A request of a memory.
Request = Union[Load, Dump, Check]


@dataclass(frozen=True)
class DumpReport:
    """What the report of a dump says."""

    memory: int
    areas: Sequence[Loaded]


@dataclass(frozen=True)
class CheckReport:
    """What the report of a check says."""

    memory: int
    areas: Sequence[Checked]


def write_load(memory: int, start: int, octets: Octets) -> bytes:
    """The body of a load of one area, which writes these octets into this memory, from this address
    on. The body has 10 octets more than are loaded. Raises `Range`, `BadArea` if there are no octets,
    or `LongLoad` if there are more than 65,519.

    >>> write_load(1, 16, bytes(2)).hex()
    '010100000010000200001d0f'
    """
    given = Given(octets)
    memory, start = number(memory, 255, "the memory"), number(start, 0xFFFFFFFF, "the address")
    room = Room(given.len + 10)
    raise_fault(
        _codecs.lpt_write_load(
            memory, start, given.at, given.len, room.at, room.len, room.needs
        )
    )
    return room.octets()


def read_dump(body: Octets) -> DumpReport:
    """Reads a message's body as the report of a dump. Raises `NoReport`, or `Checksum` if an area's
    checksum isn't that of its octets."""
    given, out = Given(body), _library.LptDumped()
    areas: list[Loaded] = []
    while not areas or len(areas) < out.areas:
        raise_fault(_codecs.lpt_read_dump(given.at, given.len, len(areas), byref(out)))
        areas.append(Loaded(out.address, piece_of(body, out.at, out.len)))
    return DumpReport(out.memory, tuple(areas))


def read_check(body: Octets) -> CheckReport:
    """Reads a message's body as the report of a check. Raises `NoReport`."""
    given, out = Given(body), _library.LptChecked()
    areas: list[Checked] = []
    while not areas or len(areas) < out.areas:
        raise_fault(_codecs.lpt_read_check(given.at, given.len, len(areas), byref(out)))
        areas.append(Checked(out.address, out.len, out.checksum))
    return CheckReport(out.memory, tuple(areas))


def read_data_report(telemetry: Telemetry) -> Union[DumpReport, CheckReport]:
    """Reads telemetry as the report of a dump or a check, whichever it is. Raises `NoReport` for
    another service or subtype, and what `read_dump` and `read_check` raise."""
    of_kind(telemetry, Telemetry)
    if telemetry.service != SERVICE or telemetry.subtype not in (DUMPED, CHECKED):
        raise NoReport(f"service {telemetry.service}, subtype {telemetry.subtype}")
    return read_dump(telemetry.body) if telemetry.subtype == DUMPED else read_check(telemetry.body)
