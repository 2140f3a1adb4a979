"""A job of ground: a load, a dump or a check of a memory. The job repeats its requests, in rounds, until
a report settles each of them, that is, says that the request completed or failed. docs/C.md says what
is proved about a job that ended as COMPLETED."""

from __future__ import annotations

from ctypes import addressof, byref
from dataclasses import dataclass
from typing import Iterator, Optional, Sequence, Union

from . import _library
from ._handle import NOTHING, Handle
from ._library import U32, Given, Octets, Room, number, of_kind
from .faults import raise_fault
from .kinds import Acknowledge, Failure, FateState, JobKind, Step
from .memory import Area, Check, Dump, Load, Loaded, Request
from .space_packets import GREATEST_APID

_ground = _library.ground
_KINDS = {Load: JobKind.LOAD, Dump: JobKind.DUMP, Check: JobKind.CHECK}
# The least part size of each: the report of a dump or a check has to go in one packet.
_LEAST = {JobKind.LOAD: 4, JobKind.DUMP: 7, JobKind.CHECK: 6}
# The code of a failure whose report has none that is read.
_UNREAD = 65536


@dataclass(frozen=True)
class Progress:
    """How many requests a job has, and how many of them completed, failed, and are open (`left`)."""

    requests: int
    completed: int
    failed: int
    left: int


@dataclass(frozen=True)
class Fate:
    """What became of a request. `code` is why it failed, a `Failure` or another number. It is None if
    the request didn't fail, if the report of its failure has no code of 16 bits, or if that report is
    of progress (TM[1,6])."""

    state: FateState
    code: Union[Failure, int, None] = None


class Job(Handle):
    """A job, and the pass that does it. It is a context manager, and frees all its memory when it is
    closed.

    >>> with Job(Load(1, [Loaded(16, b"octets")]), source=7, apid=100, part_size=64) as job:
    ...     for packet in job.outgoing():
    ...         packet.hex()
    ...     job.next()
    '1864c0000016280602000701010000001000066f63746574731173ae1b'
    <Step.LISTEN: 2>

    While `next` is SEND, send what `outgoing` gives. While it is LISTEN, wait for a packet and `feed`
    it; if none comes for so long that none is on its way, call `quiet`. Only the thread that made a
    job may use it, and it can't be copied or pickled. A call raises the first fault that applies, and leaves
    the job as it was; on a closed job it raises `Empty`.
    """

    __slots__ = ("request", "_lengths", "_most")
    _noun, _free = "the job", staticmethod(lambda at: _ground.lpt_ground_free(at))

    def __init__(
        self, request: Request, *, source: int, apid: int = 100, part_size: int = 1024,
        count: int = 0, tries: int = 10, starts: bool = False,
    ) -> None:
        """Makes a job of a request, whose areas may have any length: they are cut into requests of
        one packet each. Areas of a load may not overlap.

        - source: the job's own, 0 to 65,535: reports go to it, and no job before had it
        - part_size: of the link, 4 to 1,024, of a dump 7 to 1,024, of a check 6 to 1,024
        - count: the first request's sequence count, 0 to 16,383
        - tries: after so many waits in a row that settled nothing the job is given up, at least 1
        - starts: whether a report of the start settles a load too

        Raises `Range`, `BadArea`, `LongJob` or `Allocation`.
        """
        super().__init__()
        of_kind(request, (Load, Dump, Check))
        kind, place = _KINDS[type(request)], _library.POINTER()
        what, least = f"the part size of a {kind.name.lower()}", _LEAST[kind]
        part_size = number(part_size, 1024, what, least)
        self.request, self._most = request, part_size + 23
        flags = Acknowledge.NONE
        if kind is JobKind.LOAD:
            flags = Acknowledge.COMPLETION | (Acknowledge.START if starts else Acknowledge.NONE)
        words = _library.LptJob(
            int(kind), number(request.memory, 255, "the memory"), int(flags),
            number(apid, GREATEST_APID, "the APID"), number(source, 0xFFFF, "the source"),
            number(count, 16383, "the count"), part_size, number(tries, 0xFFFFFFFF, "the tries", 1),
        )
        places = [_place_of(it) for it in request.areas]
        self._lengths = [it[1] for it in places]
        listed = (_library.LptPlace * (len(places) or 1))(*places)
        given = Given(b"".join(it.octets for it in request.areas) if isinstance(request, Load) else b"")
        made = byref(place), byref(words), addressof(listed), len(places), given.at, given.len
        raise_fault(_ground.lpt_ground_new(*made))
        self._at = place.value

    def __repr__(self) -> str:
        closed = ", closed" if self.is_closed else ""
        return f"<Job of a {type(self.request).__name__.lower()}{closed}>"

    # ---- what it does next ----

    def next(self) -> Step:
        """What it does next; nothing changes."""
        step = U32(0)
        self._done(_ground.lpt_ground_next, byref(step))
        return Step(step.value)

    def first(self) -> Optional[bytes]:
        """A copy of the packet that is to be sent next; None if none is. It stays the next one until
        `sent`, `quiet` or `cut_off`, or until a packet settles its request."""
        return self._copied(_ground.lpt_ground_outgoing, Room(self._most))

    def sent(self) -> None:
        """Notes that the packet that was to be sent next was sent. Raises `Nothing` if none was."""
        self._done(_ground.lpt_ground_sent)

    def outgoing(self) -> Iterator[bytes]:
        """Yields the packets that are to be sent now. Each counts as sent as soon as it is yielded: if you
        don't send it, it is as if it were lost. Feed packets that come in between."""
        while True:
            packet = self.first()
            if packet is None:
                return
            self.sent()
            yield packet

    # ---- what it hears ----

    def feed(self, octets: Octets) -> None:
        """Takes a packet that came. A report to the job's source may settle an open request; any other
        packet is ignored. Raises `Allocation`."""
        given = Given(octets)
        self._done(_ground.lpt_ground_packet, given.at, given.len)

    def quiet(self) -> None:
        """Notes that no packet came for as long as the program waits. Then a new round begins,
        which sends the open requests, again and again up to at least 8 packets; but if this was the
        last of `tries` waits in a row that settled nothing, the job is given up. A late report may
        still settle a request of a job that was given up: then `quiet` begins a new round."""
        self._done(_ground.lpt_ground_quiet)

    def cut_off(self) -> None:
        """Notes that no packet will come any more: the job is at its end."""
        self._done(_ground.lpt_ground_close)

    # ---- what became of it; nothing changes ----

    @property
    def progress(self) -> Progress:
        """How far it is."""
        told = _library.LptProgress()
        self._done(_ground.lpt_ground_progress, byref(told))
        return Progress(told.requests, told.completed, told.failed, told.left)

    def fates(self) -> Iterator[Fate]:
        """What became of each request, in the order of the areas and of their octets."""
        told, at = _library.LptFate(), 0
        while True:
            fault = self._call(_ground.lpt_ground_fate, at, byref(told))
            if fault == NOTHING:
                return
            raise_fault(fault)
            state = FateState(told.state)
            is_read = state is FateState.FAILED and told.code != _UNREAD
            yield Fate(state, _failure_of(told.code) if is_read else None)
            at += 1

    def reports(self) -> Iterator[bytes]:
        """The packets that settled requests as completed. Keep them: after a restart make the job
        again, with the same source and count, and feed them to it; it then continues where it was.
        A late answer to what was asked before the restart then counts; for a new dump or check
        make a job with another source.
        Requests that failed are sent again, unless you feed it the reports of their failures too."""
        room = Room(self._most)
        for at in range(self.progress.requests):
            packet = self._copied(_ground.lpt_ground_report, room, at)
            if packet is not None:
                yield packet

    def dumped(self) -> Optional[list[Loaded]]:
        """The areas of a dump with their octets; None before all have come. For dumps only: a
        completed job of another kind has areas without octets."""
        if self.next() is not Step.COMPLETED:
            return None
        room = Room(self._most)
        requests = range(self.progress.requests)
        pieces = (self._copied(_ground.lpt_ground_dumped, room, it) or b"" for it in requests)
        octets, at = b"".join(pieces), 0
        found: list[Loaded] = []
        areas: Sequence[Union[Area, Loaded]] = self.request.areas
        for area, length in zip(areas, self._lengths):
            found.append(Loaded(area.start, octets[at : at + length]))
            at += length
        return found

    def agrees(self, octets: Octets) -> bool:
        """Whether a check got the checksums of these octets, its areas' octets one after the other.
        A checksum has 16 bits, so about one differing area in 65,536 is taken for the same. Damage
        inside one loaded area that passed its packet's checksum is always taken for the same, because
        both checksums are the same linear CRC."""
        given, told = Given(octets), U32(0)
        self._done(_ground.lpt_ground_agrees, given.at, given.len, byref(told))
        return bool(told.value)


def _place_of(area: Union[Area, Loaded]) -> tuple[int, int]:
    """An area's address and length."""
    of_kind(area, (Area, Loaded))
    length = area.length if isinstance(area, Area) else memoryview(area.octets).nbytes
    return number(area.start, 0xFFFFFFFF, "the address"), number(length, 0xFFFFFFFF, "the length")


def _failure_of(code: int) -> Union[Failure, int]:
    """A failure code, as the failure that it is of, if it is of one."""
    return Failure(code) if code in set(Failure) else code
