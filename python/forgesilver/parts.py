"""Large messages and their parts (ECSS-E-ST-70-41C, service 13): `split` makes the packets of a
message."""

from __future__ import annotations

from ctypes import byref
from dataclasses import dataclass
from typing import Iterable, Iterator, NamedTuple, Optional, Union

from . import _library
from ._library import U32, Given, Held, Octets, Room, number, of_kind, piece_of
from .faults import LongMessage, ShortMessage, raise_fault
from .kinds import Acknowledge, Direction, PacketKind, PartKind, Reason
from .space_packets import GREATEST_APID, Telecommand, Telemetry, write_telecommand, write_telemetry

#: The service type of large packet transfer, and the message subtype of an abortion report.
SERVICE = 13
ABORTED = 16

_codecs = _library.codecs
_KINDS = {int(it): it for it in PartKind}


class Name(NamedTuple):
    """What names a transaction within its direction: its source, which is the source ID of
    telecommands up and the destination ID of telemetry down, and the identifier in the parts."""

    source: int
    id: int


#: What is taken as a name: `Name(1, 7)`, or just `(1, 7)`.
Named = Union[Name, "tuple[int, int]"]


@dataclass(frozen=True)
class Part:
    """A part of a large message."""

    kind: PartKind
    id: int
    number: int
    octets: Held


@dataclass(frozen=True)
class AbortReport:
    """What an abortion report says: of which transaction, and why."""

    id: int
    reason: Reason


def name_of(name: Named) -> Name:
    """A name, whose numbers are in their range."""
    try:
        source, identifier = name
    except ValueError:
        raise TypeError(f"{name!r:.80} is no name: a source and an identifier") from None
    return Name(number(source, 0xFFFF, "the source"), number(identifier, 0xFFFF, "the identifier"))


def part_size_of(size: int) -> int:
    """A part size."""
    return number(size, 1024, "the part size", 4)


def part_kind(kind: PacketKind, service: int, subtype: int) -> Optional[PartKind]:
    """Which kind of part a message of this service and subtype carries in a packet of this kind;
    None if it carries none. Raises `Range`."""
    its_kind = number(kind, 1, "the packet's kind")
    types = number(service, 255, "the service"), number(subtype, 255, "the subtype")
    return _KINDS.get(int(_codecs.lpt_part_kind(its_kind, *types)))


def part_count(length: int, part_size: int) -> int:
    """How many parts of this size a message of this length has. Raises `Range`."""
    size = part_size_of(part_size)
    length = number(length, _library.LONGEST_PACKET, "the length")
    return int(_codecs.lpt_part_count(length, size))


def read_part(kind: PartKind, body: Octets, part_size: int) -> Part:
    """Reads a message's body as a part of this kind. Raises `ShortPart`, `ZeroNumber`, `KindNumber`
    or `PartLength`, the first that applies."""
    its_kind, size = number(kind, 3, "the kind", 1), part_size_of(part_size)
    given, out = Given(body), _library.LptPart()
    raise_fault(_codecs.lpt_read_part(its_kind, given.at, given.len, size, byref(out)))
    return Part(_KINDS[out.kind], out.id, out.number, piece_of(body, out.at, out.len))


def write_part(part: Part, part_size: int) -> bytes:
    """The body of a message that carries a part. Raises `Range`; and `ZeroNumber`, `KindNumber` or
    `PartLength` if there is no such part."""
    kind = number(of_kind(part, Part).kind, 3, "the kind", 1)
    size = part_size_of(part_size)
    identifier = number(part.id, 0xFFFF, "the identifier")
    its_number = number(part.number, 0xFFFF, "the part sequence number")
    given = Given(part.octets)
    room = Room(given.len + 4)
    raise_fault(
        _codecs.lpt_write_part(
            kind, identifier, its_number, given.at, given.len, size, room.at, room.len, room.needs
        )
    )
    return room.octets()


def part_of(message: Union[Telecommand, Telemetry], part_size: int) -> Optional[Part]:
    """The part that a telecommand or telemetry carries; None if its service and subtype are those
    of no part. Raises what `read_part` does."""
    of_kind(message, (Telecommand, Telemetry))
    kind = message.subtype - (8 if isinstance(message, Telecommand) else 0)
    if message.service != SERVICE or kind not in _KINDS:
        return None
    return read_part(_KINDS[kind], message.body, part_size)


def read_abort(body: Octets) -> AbortReport:
    """Reads a message's body as an abortion report. Raises `AbortBody`."""
    given, out = Given(body), _library.LptAbort()
    raise_fault(_codecs.lpt_read_abort(given.at, given.len, byref(out)))
    return AbortReport(out.id, Reason(out.reason))


def write_abort(report: AbortReport) -> bytes:
    """The body of an abortion report. Raises `Range`."""
    identifier = number(of_kind(report, AbortReport).id, 0xFFFF, "the identifier")
    reason, room = number(report.reason, 3, "the reason", 1), Room(3)
    raise_fault(_codecs.lpt_write_abort(identifier, reason, room.at, room.len, room.needs))
    return room.octets()


def split(
    message: Octets,
    *,
    name: Named,
    part_size: int,
    apid: int,
    direction: Direction = Direction.UP,
    count: int = 0,
    time: int = 0,
    numbers: Optional[Iterable[int]] = None,
) -> Iterator[bytes]:
    """The packets of a message's parts, in order; or only of the parts with these numbers, from 1.

    The packets up are telecommands. The packets down are telemetry, with this time and message type
    counters of 0. The first packet has this sequence count, and the others count on from it. Raises
    `ShortMessage` if the message isn't longer than a part, `LongMessage` above 65,542 octets,
    `NoSuchPart`, and `Range`.

    >>> packets = split(bytes(20), name=(1, 7), part_size=8, apid=100)
    >>> [len(it) for it in packets]
    [25, 25, 21]
    """
    its_name, size, given = name_of(name), part_size_of(part_size), Given(message)
    number(apid, GREATEST_APID, "the APID"), number(time, 0xFFFFFFFF, "the time")
    count, direction = number(count, 16383, "the count"), Direction(direction)
    if given.len <= size:
        raise ShortMessage
    if given.len > _library.LONGEST_PACKET:
        raise LongMessage
    if numbers is None:
        numbers = range(1, _codecs.lpt_part_count(given.len, size) + 1)
    bodies = (_sliced(given, size, its_name.id, it) for it in numbers)
    if direction is Direction.UP:
        return _up(bodies, apid, count, its_name.source)
    return _down(bodies, apid, count, its_name.source, time)


def _sliced(message: Given, size: int, identifier: int, its_number: int) -> tuple[int, bytes]:
    """A part of a message, as the body of its message, and its kind."""
    room, kind = Room(size + 4), U32(0)
    its_number = number(its_number, 0xFFFF, "the part's number")
    raise_fault(
        _codecs.lpt_slice_part(
            message.at, message.len, size, identifier, its_number, byref(kind), room.at, room.len,
            room.needs,
        )
    )
    return kind.value, room.octets()


_Bodies = Iterator["tuple[int, bytes]"]


def _up(bodies: _Bodies, apid: int, count: int, source: int) -> Iterator[bytes]:
    """Telecommands that carry parts."""
    for at, (kind, body) in enumerate(bodies, count):
        head = (apid, at % 16384, Acknowledge.NONE, SERVICE, 8 + kind, source)
        yield write_telecommand(Telecommand(*head, body))


def _down(bodies: _Bodies, apid: int, count: int, source: int, time: int) -> Iterator[bytes]:
    """Telemetry that carries parts."""
    for at, (kind, body) in enumerate(bodies, count):
        head = (apid, at % 16384, SERVICE, kind, source, body)
        yield write_telemetry(Telemetry(*head, time=time))
