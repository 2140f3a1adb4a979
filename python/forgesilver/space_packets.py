"""Space packets (CCSDS 133.0-B), and telecommands and telemetry of ECSS-E-ST-70-41C in them.

If a function `read_..` gets a `memoryview`, it returns views of the same octets, which are right as
long as these don't change; otherwise it returns copies.
"""

from __future__ import annotations

from ctypes import byref
from dataclasses import dataclass
from typing import Any, BinaryIO, Callable, Iterator, Optional, Union, overload

from . import _library
from ._library import (
    SIZE, U16, U32, Given, Held, Octets, Room, has_octets, number, of_kind, piece_of, view_of,
)
from .faults import More, Version, raise_fault
from .kinds import Acknowledge, PacketKind, PieceKind

#: The octets of the longest packet, and of the longest message that is sent in parts.
LONGEST_PACKET = _library.LONGEST_PACKET
# So many octets of a stream always show which piece is the first.
_LOOKAHEAD = 2 * LONGEST_PACKET
# With so many numbers of room stray octets are counted quickly.
_STRAY_ROOM = 2049
#: The greatest application process identifier; 2047 marks an idle packet.
GREATEST_APID = 2046

_codecs = _library.codecs
_KINDS = tuple(PacketKind)
_FLAGS = tuple(Acknowledge(it) for it in range(16))


@dataclass(frozen=True)
class Packet:
    """A space packet: its numbers, and its data field. The checksum isn't part of the field."""

    kind: PacketKind
    apid: int
    count: int
    data: Held


@dataclass(frozen=True)
class Telecommand:
    """A telecommand: what its headers say, and its body."""

    apid: int
    count: int
    flags: Acknowledge
    service: int
    subtype: int
    source: int
    body: Held = b""

    @property
    def request_id(self) -> int:
        """The request ID, by which reports name it: the first four octets of its packet, as a number."""
        request = U32(0)
        raise_fault(_codecs.lpt_request_id(byref(_head_of(self)), byref(request)))
        return request.value


@dataclass(frozen=True)
class Telemetry:
    """Telemetry: what its headers say, and its body. A status is written as 0."""

    apid: int
    count: int
    service: int
    subtype: int
    destination: int
    body: Held = b""
    counter: int = 0
    time: int = 0
    status: int = 0


def crc16(octets: Octets, before: int = 0xFFFF) -> int:
    """The packet error control of these octets; `before` is that of the octets in front of them.

    >>> hex(crc16(b"123456789"))
    '0x29b1'
    >>> hex(crc16(b"56789", crc16(b"1234")))
    '0x29b1'
    """
    given = Given(octets)
    return int(_codecs.lpt_crc16_more(number(before, 0xFFFF, "the checksum"), given.at, given.len))


# ---- packets ----


def read_packet(octets: Octets) -> Packet:
    """Reads octets as a packet. Raises `Idle`, or `Short` to `Checksum`, the first that applies."""
    given, out = Given(octets), _library.LptPacket()
    raise_fault(_codecs.lpt_read_packet(given.at, given.len, byref(out)))
    return Packet(_KINDS[out.kind], out.apid, out.count, piece_of(octets, out.at, out.len))


def write_packet(packet: Packet) -> bytes:
    """The octets of a packet, 8 more than its data field has. Raises `Range` or `TooLong`."""
    kind = number(of_kind(packet, Packet).kind, 1, "the kind")
    apid, count = _numbers(packet)
    given = Given(packet.data)
    room = Room(given.len + 8)
    raise_fault(
        _codecs.lpt_write_packet(
            kind, apid, count, given.at, given.len, room.at, room.len, room.needs
        )
    )
    return room.octets()


def packet_length(octets: Octets) -> int:
    """The length of the packet at the front of these octets, idle or not, from the first six.

    Raises `Version` if no packet begins with them, otherwise `More` if there are fewer.
    """
    front, length = bytes(view_of(octets)[:6]), SIZE(0)
    _allow_idle(_codecs.lpt_packet_length(front, len(front), byref(length)))
    return length.value


@overload
def packets_of(stream: BinaryIO) -> Iterator[bytes]: ...
@overload
def packets_of(stream: Octets) -> Iterator[memoryview]: ...
def packets_of(stream: Union[Octets, BinaryIO]) -> Iterator[Union[bytes, memoryview]]:
    """The whole packets of a stream, one after the other, idle ones too. The stream is an open binary
    file, or octets; packets of octets are views of these. A packet must begin at the first octet.

    Raises `Version` if no packet begins where another ends, and `More` if the stream ends within one:
    it was cut, or a length is damaged. Both exceptions say at which octet. The rest isn't searched
    for packets, because a message may contain packets that nobody sent. For a damaged stream use
    `sound_packets_of`.
    """
    if not has_octets(stream):
        yield from _packets_of_file(stream)  # type: ignore[arg-type]
        return
    view, at = view_of(stream), 0  # type: ignore[arg-type]
    while at < len(view):
        end = at + _length_at(at, view[at : at + 6])
        if end > len(view):
            raise _cut_at(at)
        yield view[at:end]
        at = end


def _packets_of_file(file: BinaryIO) -> Iterator[bytes]:
    """The packets of a file."""
    reader_of(file)
    at = 0
    while True:
        front = _read_all(file, 6)
        if not front:
            return
        size = _length_at(at, front)
        octets = front + _read_all(file, size - 6)
        if len(octets) < size:
            raise _cut_at(at)
        yield octets
        at += size


def _length_at(at: int, front: Octets) -> int:
    """The length of the packet that begins at this octet of a stream with these."""
    try:
        return packet_length(front)
    except Version:
        raise Version(f"no packet begins at octet {at}") from None
    except More:
        raise _cut_at(at) from None


def _cut_at(at: int) -> More:
    """What is raised of a packet that a stream has the front of."""
    return More(f"the packet at octet {at} isn't whole: the stream is cut, or a length is damaged")


def _read_all(file: BinaryIO, size: int) -> bytes:
    """So many octets of a file, or fewer where it ends."""
    found = _returned(file.read(size))
    while 0 < len(found) < size:
        more = _returned(file.read(size - len(found)))
        if not more:
            break
        found += more
    return found


def _returned(octets: Optional[bytes]) -> bytes:
    """The octets that a file's read returned; BlockingIOError if it returned None."""
    if octets is None:
        raise BlockingIOError("the file has no octets now, and doesn't wait for them")
    return octets


def reader_of(file: BinaryIO) -> Callable[[int], bytes]:
    """What reads so many octets of a file, or fewer if no more have come yet; BlockingIOError if none
    have come, and the file doesn't wait for them."""
    # A class with a read of its own is read by that: its read1 may be one that it inherits.
    of = next((vars(it) for it in type(file).__mro__ if "read" in vars(it)), None)
    read1 = getattr(file, "read1", None) if of is None or "read1" in of else None
    read: Any = read1 or getattr(file, "read", None)
    if read is None:
        raise TypeError(f"{file!r:.80} has neither octets nor a file's read")
    return lambda size: _returned(read(size))


def sound_packets_of(stream: Union[Octets, BinaryIO]) -> Iterator[memoryview]:
    """The whole packets of a stream that may be damaged, idle ones too: the pieces that
    `find_piece` finds. What is damaged or no packet is skipped."""
    if has_octets(stream):
        view, read = view_of(stream), None  # type: ignore[arg-type]
    else:
        view, read = memoryview(b""), reader_of(stream)  # type: ignore[arg-type]
    at, in_step = 0, True
    while True:
        front = view[at : at + _LOOKAHEAD]
        is_end = read is None and at + len(front) == len(view)
        piece = find_piece(front, in_step=in_step, is_end=is_end)
        if piece is not None:
            kind, size = piece
            if kind is PieceKind.WHOLE:
                yield front[:size]
            elif kind is PieceKind.STRAY:
                size += _count_strays(front[size:], is_end)
            at, in_step = at + size, kind is not PieceKind.STRAY
        elif read is None:
            return
        else:
            came = read(_LOOKAHEAD)
            view, at, read = memoryview(bytes(front) + came), 0, read if came else None


def find_piece(
    octets: Octets, *, in_step: bool = True, is_end: bool = False
) -> Optional[tuple[PieceKind, int]]:
    """The first piece of these octets, which are of a stream that may be damaged: its kind and its
    length. None if there are no octets, or if the piece depends on octets that may still come.

    `in_step` says that the octets begin the stream, or come right after a packet or a damaged one,
    and `is_end` that nothing comes after them.

    >>> packet = write_packet(Packet(PacketKind.TC, 100, 0, b" 123"))
    >>> find_piece(packet), find_piece(packet[1:], is_end=True)
    ((<PieceKind.WHOLE: 1>, 12), (<PieceKind.STRAY: 3>, 1))
    """
    given, kind, size = Given(octets), U32(0), SIZE(0)
    fault = _codecs.lpt_find_piece(
        given.at, given.len, int(bool(in_step)), int(bool(is_end)), byref(kind), byref(size)
    )
    return None if fault else (PieceKind(kind.value), size.value)


def _count_strays(octets: Octets, is_end: bool) -> int:
    """So many stray octets `find_piece` would find here, one after the other, out of step."""
    given, room = Given(octets), (U16 * _STRAY_ROOM)()
    return int(_codecs.lpt_count_strays(given.at, given.len, int(is_end), room, _STRAY_ROOM))


# ---- telecommands and telemetry ----


def read_telecommand(octets: Octets) -> Telecommand:
    """Reads the octets of a whole packet as a telecommand. Raises what `read_packet` does, and then
    `WrongType`, `ShortHeader` or `PusVersion`."""
    given, out = Given(octets), _library.LptTc()
    raise_fault(_codecs.lpt_read_tc(given.at, given.len, byref(out)))
    head, body = out.head, piece_of(octets, out.at, out.len)
    return Telecommand(
        head.apid, head.count, _FLAGS[head.flags], head.service, head.subtype, head.source, body
    )


def write_telecommand(telecommand: Telecommand) -> bytes:
    """The whole packet of a telecommand, 13 octets more than its body. Raises `Range` or
    `TooLong`."""
    head, given = _head_of(of_kind(telecommand, Telecommand)), Given(telecommand.body)
    room = Room(given.len + 13)
    raise_fault(
        _codecs.lpt_write_tc(byref(head), given.at, given.len, room.at, room.len, room.needs)
    )
    return room.octets()


def read_telemetry(octets: Octets) -> Telemetry:
    """Reads the octets of a whole packet as telemetry, as `read_telecommand`."""
    given, out = Given(octets), _library.LptTm()
    raise_fault(_codecs.lpt_read_tm(given.at, given.len, byref(out)))
    head, body = out.head, piece_of(octets, out.at, out.len)
    return Telemetry(
        head.apid, head.count, head.service, head.subtype, head.destination, body, head.counter,
        head.time, head.status,
    )


def write_telemetry(telemetry: Telemetry) -> bytes:
    """The whole packet of telemetry, 19 octets more than its body. Raises `Range` or `TooLong`."""
    apid, count = _numbers(of_kind(telemetry, Telemetry))
    head = _library.LptTmHead(
        apid, count, number(telemetry.status, 15, "the status"), *_types(telemetry),
        number(telemetry.counter, 0xFFFF, "the counter"),
        number(telemetry.destination, 0xFFFF, "the destination"),
        number(telemetry.time, 0xFFFFFFFF, "the time"),
    )
    given = Given(telemetry.body)
    room = Room(given.len + 19)
    raise_fault(
        _codecs.lpt_write_tm(byref(head), given.at, given.len, room.at, room.len, room.needs)
    )
    return room.octets()


def read_message(octets: Octets) -> Union[Telecommand, Telemetry]:
    """Reads the octets of a whole packet as what it is, a telecommand or telemetry."""
    front = view_of(octets)
    is_telecommand = len(front) > 0 and front[0] & 0x10
    return read_telecommand(octets) if is_telecommand else read_telemetry(octets)


def _allow_idle(fault: int) -> None:
    """Raises a fault, but for an idle packet."""
    if fault != 101:
        raise_fault(fault)


def _numbers(of: Union[Packet, Telecommand, Telemetry]) -> tuple[int, int]:
    """The APID and the count of what is written."""
    return number(of.apid, GREATEST_APID, "the APID"), number(of.count, 16383, "the count")


def _types(of: Union[Telecommand, Telemetry]) -> tuple[int, int]:
    """The service type and the message subtype of what is written."""
    return number(of.service, 255, "the service"), number(of.subtype, 255, "the subtype")


def _head_of(it: Telecommand) -> Any:
    """What is written of a telecommand's headers."""
    return _library.LptTcHead(
        *_numbers(it), number(it.flags, 15, "the flags"), *_types(it),
        number(it.source, 0xFFFF, "the source"),
    )
