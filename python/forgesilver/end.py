"""One end of the link: it sends messages in parts, joins the parts that come, ends receptions, and
knows which names are in use. Two ends that keep to the rules of docs/C.md keep the README's promise."""

from __future__ import annotations

import operator
from collections.abc import Mapping
from ctypes import addressof, byref
from dataclasses import dataclass
from typing import Any, Iterable, Iterator, Optional

from . import _library
from ._handle import NOTHING as _NOTHING
from ._handle import Handle
from ._library import U16, U32, Given, Octets, Room, number, of_kind
from .faults import NoSuchPart, Range, raise_fault
from .kinds import (
    Acknowledge, AppliedKind, Direction, Failure, Mode, NameState, OutcomeKind, Reason, Side, Why,
)
from .memory import SERVICE as MEMORY_SERVICE
from .memory import Area, Check, Dump, Load, Request
from .parts import Name, Named, name_of, part_count

_end = _library.end
_KINDS = {int(it): it for it in OutcomeKind}
_NAMED = frozenset(
    (
        OutcomeKind.KEPT, OutcomeKind.AGAIN, OutcomeKind.RELEASED, OutcomeKind.ABORT_NOTED,
        OutcomeKind.BROKEN,
    )
)
_NO_JOB, _NOTHING_DUE = 51, 50


@dataclass(frozen=True)
class Config:
    """What is fixed about an end. Both ends of a link have the same APID, part size and mode; the
    other values may differ. An end that is restored from a state may have another timeout and
    other limits than before.

    - apid: of all packets, 0 to 2046
    - part_size: in octets, 4 to 1,024
    - timeout: of a reception, in ticks, 1 to 65,535
    - receptions: how many may be open, 1 to 64
    - outgoing: how many messages may be open for sending, 1 to 64
    - clock: its first value, in ticks, 0 to 4,294,967,295; a restored end has its state's
    - mode: in which order the end takes parts
    """

    apid: int = 100
    part_size: int = 1024
    timeout: int = 10
    receptions: int = 8
    outgoing: int = 8
    clock: int = 0
    mode: Mode = Mode.ANY


@dataclass(frozen=True)
class Outcome:
    """What became of a packet. A field that its kind doesn't use is None.

    - name: the transaction, at KEPT, AGAIN, RELEASED, ABORT_NOTED and BROKEN
    - part: the part's number, at KEPT and AGAIN
    - length: of the message that was released; `End.released` copies the message
    - types: the service type and message subtype of a noted report
    - reason: why a reception was aborted
    - why: why the packet was ignored
    """

    kind: OutcomeKind
    name: Optional[Name] = None
    part: Optional[int] = None
    length: Optional[int] = None
    types: Optional[tuple[int, int]] = None
    reason: Optional[Reason] = None
    why: Optional[Why] = None

    @property
    def has_released(self) -> bool:
        """Whether the packet released a message, or is a plain request."""
        return self.length is not None


@dataclass(frozen=True)
class Applied:
    """What became of a request. A field that its kind doesn't use is None.

    - name: under which its report is open, to be sent in parts
    - failure: why it was refused
    """

    kind: AppliedKind
    name: Optional[Name] = None
    failure: Optional[Failure] = None


@dataclass(frozen=True)
class View:
    """What an end has to do, in numbers.

    - clock: in ticks
    - is_due: whether `expire` has a reception to end
    - next_due: the clock's value at which the first reception is due; None if none is open
    - outgoing: packets that wait to be sent
    - unread: requests that weren't read yet
    - requests: requests that weren't executed yet, read or not
    """

    clock: int
    is_due: bool
    next_due: Optional[int]
    outgoing: int
    unread: int
    requests: int


@dataclass(frozen=True)
class Reception:
    """A reception that is open.

    - kept: how many parts were kept
    - last: the number of the last part; None if that hasn't come
    - due: the clock's value at which it is due, unless a part comes before
    """

    name: Name
    kept: int
    last: Optional[int]
    due: int


@dataclass(frozen=True)
class Sender:
    """A message that is open for sending: `parts` is how many it has, `length` its octets."""

    name: Name
    parts: int
    length: int


class End(Handle):
    """An end of the link. It is a context manager, and frees all its memory when it is closed.

    >>> with End(Side.GROUND, Config(part_size=8)) as ground:
    ...     ground.open((1, 7), bytes(20))
    ...     [len(it) for it in ground.parts((1, 7))]
    3
    [25, 25, 21]

    Only the thread that made an end may use it, and it can't be copied or pickled. A call raises the
    first fault that applies, and leaves the end as it was; on a closed end it raises `Empty`.
    Arguments of another type raise TypeError; what is no `Direction`, `Side`, `Mode` or `Failure`
    raises ValueError.
    """

    __slots__ = ("config", "side", "_length", "_longest", "_report")
    _noun, _free = "the end", staticmethod(lambda at: _end.lpt_end_free(at))

    def __init__(
        self,
        side: Side,
        config: Optional[Config] = None,
        memories: Optional[Mapping[int, Octets]] = None,
        state: Optional[Octets] = None,
    ) -> None:
        """Makes an end. `memories` are those of the spacecraft, 1 to 16: for each identifier the octets
        with which the memory begins, 1 to 1,048,576. Ground has none, and ignores them.

        A new end is no restart of an old one: it doesn't know which names were used. So make the
        other end anew too, and let no older packet come.

        If you give `state`, which `End.state` returned, the old end is restored, as after a restart
        and with nothing to send. The clock is that of the state. The timeout and the limits are
        those of this configuration. Give the saved memories too; their sizes aren't compared.

        Raises `Range`, `ConfigApid` to `ConfigOutgoing`, `Memories` or `Allocation`; of a state also
        `StateShort` to `StateOrder`, or `NoNumber`.
        """
        super().__init__()
        self._length, place = 0, _library.POINTER()
        # The report that `serve` sends in parts, and the next part.
        self._report: Optional[tuple[Name, int]] = None
        self.side, self.config = Side(side), of_kind(Config() if config is None else config, Config)
        made = _config_of(self.config)
        # The octets of the longest packet to be sent.
        self._longest = made.part_size + 23
        memories = {} if memories is None else memories
        listed, content = _memories_of(memories)
        given = Given(content)
        begun = addressof(listed), len(memories), given.at, given.len
        ours = byref(place), int(self.side), byref(made)
        if state is None:
            raise_fault(_end.lpt_end_new(*ours, *begun))
        else:
            kept = Given(state)
            raise_fault(_end.lpt_end_resume(*ours, kept.at, kept.len, *begun))
        self._at = place.value

    def __repr__(self) -> str:
        closed = ", closed" if self.is_closed else ""
        return f"<End of {self.side.name.lower()}{closed}>"

    # ---- receiving ----

    def feed(self, octets: Octets) -> Outcome:
        """Takes a packet that came, and returns what became of it. `released` copies the message that
        it released, until the next packet is taken. If a spacecraft aborts a reception, a report of
        that waits to be sent.

        The layer below must know where packets begin and end. A packet that is damaged, foreign or
        late is no fault: its outcome is IGNORED, and says why. Raises `NoNumber` or `Allocation`.
        """
        given, out = Given(octets), _library.LptOutcome()
        self._done(_end.lpt_end_packet, given.at, given.len, byref(out))
        outcome = _outcome_of(out)
        self._length = outcome.length or 0
        return outcome

    def released(self) -> Optional[bytes]:
        """A copy of the message that the last packet released; None if it released nothing."""
        return self._copied(_end.lpt_end_released, Room(self._length))

    def expire(self) -> Optional[Name]:
        """Ends the reception that has waited longest without a part, if it is due by the timeout, and
        returns its name; None if none is due. At a spacecraft a report of this waits to be sent."""
        name = _library.LptName()
        fault = self._call(_end.lpt_end_expire, byref(name))
        if fault == _NOTHING_DUE:
            return None
        raise_fault(fault)
        return Name(name.source, name.id)

    def give_up(self, name: Named) -> None:
        """Ends the open reception of a name before it is due, for example if its sender was reset. The
        name is closed until `retire`. At a spacecraft a report of this waits to be sent, with the same
        reason as that of an expiry. Raises `NotOpen` or `Allocation`."""
        named = _c_name(name)
        self._done(_end.lpt_end_give_up, byref(named))

    # ---- sending ----

    def open(self, name: Named, message: Octets) -> int:
        """Takes a message to be sent in parts, under a free name, and returns how many parts it has.
        The end copies it. Raises `InUse`, `ShortMessage`, `LongMessage`, `TooMany` or `Allocation`."""
        named, given = _c_name(name), Given(message)
        self._done(_end.lpt_end_open, byref(named), given.at, given.len)
        return part_count(given.len, self.config.part_size)

    def part(self, name: Named, its_number: int) -> None:
        """Makes the packet of a part of an open message, by the part's number from 1, and queues it
        behind the packets that wait to be sent. Raises `NotOpen`, `NoSuchPart` or `Allocation`."""
        named, its_number = _c_name(name), number(its_number, 0xFFFF, "the part's number")
        self._done(_end.lpt_end_part, byref(named), its_number)

    def parts(self, name: Named, numbers: Optional[Iterable[int]] = None) -> Iterator[bytes]:
        """Makes the packets of an open message's parts one by one: of all parts, or of those with these
        numbers. Yields them as `outgoing` does, with the packets that wait. The message stays open
        until `finish`."""
        its_name = name_of(name)
        for it in range(1, 0x10000) if numbers is None else numbers:
            try:
                self.part(its_name, it)
            except NoSuchPart:
                if numbers is None:
                    return
                raise
            yield from self.outgoing()

    def plain(
        self, service: int, subtype: int, body: Octets, *, source: int,
        flags: Acknowledge = Acknowledge.NONE,
    ) -> None:
        """Makes the packet of a plain request, and queues it behind the packets that wait to be sent.
        It has at most part_size + 23 octets; `open` takes a longer one. Only ground makes requests.
        The spacecraft executes the request as often as its packet is delivered. Raises `Range`,
        `PartRequest`, `LongMessage` or `Allocation`."""
        words = (
            number(source, 0xFFFF, "the source"), number(flags, 15, "the flags"),
            number(service, 255, "the service"), number(subtype, 255, "the subtype"),
        )
        given = Given(body)
        self._done(_end.lpt_end_plain, *words, given.at, given.len)

    def request(
        self, request: Request, *, source: int, flags: Acknowledge = Acknowledge.NONE
    ) -> None:
        """Makes the packet of a plain request to a memory, as `plain` does."""
        of_kind(request, (Load, Dump, Check))
        self.plain(MEMORY_SERVICE, request.subtype, request.body(), source=source, flags=flags)

    def finish(self, name: Named) -> None:
        """Closes an open message, and frees its memory. Raises `NotOpen`."""
        named = _c_name(name)
        self._done(_end.lpt_end_finish, byref(named))
        if self._report is not None and self._report[0] == name_of(name):
            self._report = None

    def first(self) -> Optional[bytes]:
        """A copy of the next packet to be sent; None if there is none. It stays the next one until
        `sent`."""
        return self._copied(_end.lpt_end_outgoing, Room(self._longest))

    def sent(self) -> None:
        """Drops the next packet to be sent, because it was sent. Raises `Nothing`."""
        self._done(_end.lpt_end_sent)

    def outgoing(self) -> Iterator[bytes]:
        """Yields the packets that wait to be sent, in order. Each is dropped only when the loop asks for
        the next one: if an exception or `break` ends the loop, its packet still waits."""
        room = Room(self._longest)
        while True:
            packet = self._copied(_end.lpt_end_outgoing, room)
            if packet is None:
                return
            yield packet
            self.sent()

    # ---- the requests that the spacecraft released ----

    def read(self) -> bool:
        """Reads the oldest released request that wasn't read yet; False if there is none, as always
        on ground. Raises `Allocation`."""
        return not self._unless(_NO_JOB, self._call(_end.lpt_end_read))

    def execute(self) -> Optional[Applied]:
        """Executes the oldest request, which must have been read, and returns what became of it; None
        if there is none. Its reports wait to be sent; one that is too long for a packet is opened
        as a message. Raises `NotRead`, `Unsent` or `Allocation`."""
        out = _library.LptApplied()
        if self._unless(_NO_JOB, self._call(_end.lpt_end_execute, byref(out))):
            return None
        return _applied_of(out)

    def refuse(self, failure: Failure) -> Optional[Applied]:
        """Refuses the oldest request, which must have been read, in place of `execute`: it is never
        executed, and a report of this failure waits to be sent. Returns the same as `execute` of a
        refused request; None if there is no request. Raises `NotRead`, `Unsent` or `Allocation`."""
        out = _library.LptApplied()
        call = self._call(_end.lpt_end_refuse, int(Failure(failure)), byref(out))
        return None if self._unless(_NO_JOB, call) else _applied_of(out)

    def asked(self) -> Optional[tuple[int, int]]:
        """The service type and the message subtype of the oldest request that wasn't read; None if
        there is none. Raises `Nothing` if it is no telecommand of the end's APID."""
        service, subtype = _library.U8(0), _library.U8(0)
        call = self._call(_end.lpt_end_asked, byref(service), byref(subtype))
        if self._unless(_NO_JOB, call):
            return None
        return service.value, subtype.value

    def asked_areas(self) -> list[tuple[int, Area]]:
        """Where the oldest request that wasn't read will write: for each area of a load, in order,
        the memory's identifier, and the area. If `execute` carries the load out, it writes just these
        areas; if not, nothing. For another request the list is empty."""
        out = _library.LptArea()
        found: list[tuple[int, Area]] = []
        while True:
            fault = self._call(_end.lpt_end_asked_area, len(found), byref(out))
            if fault in (_NO_JOB, _NOTHING):
                return found
            raise_fault(fault)
            found.append((out.memory, Area(out.address, out.len)))

    def drop(self) -> bool:
        """Drops the oldest request of all, in place of `read`: it is never executed, and nothing is
        reported of it. False if there is none. Raises `AlreadyRead` if it was read, or `Allocation`."""
        return not self._unless(_NO_JOB, self._call(_end.lpt_end_drop))

    def serve(self, keep_open: bool = False) -> Iterator[bytes]:
        """Reads and executes all requests that were released, and yields the packets to be sent, as
        `outgoing` does: what waited before, reports, and the parts of reports that are too long for
        a packet. If an exception or `break` ends the loop, the next `serve` continues with its packet.
        You may feed packets in the loop: it also executes what they release.

        It finishes the messages of such reports, so their lost parts can't be made again. If the
        network loses packets, use `keep_open`: then `senders` has the messages, `parts` makes parts
        again, and you call `finish` when ground has all parts. Retire the names at both ends, at
        ground's first.

        If you save the state, take all packets before you send one:
        `packets = list(end.serve())`. Then save the state and the memories in one write, and send
        the packets."""
        self._read_all()
        yield from self.outgoing()
        while True:
            yield from self._report_parts(keep_open)
            self._read_all()
            applied = self.execute()
            if applied is None:
                return
            if applied.name is not None:
                self._report = applied.name, 1
            yield from self.outgoing()

    def _read_all(self) -> None:
        """Reads all requests that were released."""
        while self.read():
            pass

    def _report_parts(self, keep_open: bool) -> Iterator[bytes]:
        """The parts of the report that `serve` sends, from the next one on. Then it finishes it, unless
        it is kept open."""
        while self._report is not None:
            name, its_number = self._report
            try:
                self.part(name, its_number)
            except NoSuchPart:
                if keep_open:
                    self._report = None
                else:
                    self.finish(name)
                return
            self._report = name, its_number + 1
            yield from self.outgoing()

    def memory(self, identifier: int) -> Optional[bytes]:
        """A copy of a memory; None if the end has no such memory."""
        return self._copied(_end.lpt_end_memory, Room(0), number(identifier, 255, "the identifier"))

    def memory_range(self, identifier: int, area: Area) -> Optional[bytes]:
        """A copy of an area of a memory; None if the end has no such memory. Raises `Range` if the
        area ends past the memory's end."""
        room = Room(number(of_kind(area, Area).length, 1 << 20, "the length"))
        memory = number(identifier, 255, "the identifier")
        start = number(area.start, 0xFFFFFFFF, "the start")
        call = self._call(_end.lpt_end_memory_range, memory, start, room.at, room.len)
        if call == Range.number:
            size = len(self.memory(memory) or b"")
            raise Range(f"the area ends at {start + room.len}, and the memory has {size} octets")
        if self._unless(_NOTHING, call):
            return None
        room.needed.value = room.len
        return room.octets()

    # ---- the clock, names, and a restart ----

    def tick(self, ticks: int = 1) -> None:
        """Advances the clock by so many ticks at once. Raises `ClockEnd`, and leaves the clock as it was,
        if it would go past its greatest value."""
        self._done(_end.lpt_end_tick_many, number(ticks, 0xFFFFFFFF, "the ticks"))

    def rebase(self, ticks: int) -> None:
        """Sets the clock back by so many ticks, so that it never has to reach its greatest value. Each
        reception is still due after as many ticks as before. If the clock, or the tick at which an
        open reception last got a part, would go below 0, raises `ClockStart`, and leaves the clock as
        it was."""
        self._done(_end.lpt_end_rebase, number(ticks, 0xFFFFFFFF, "the ticks"))

    def retire(self, direction: Direction, name: Named) -> None:
        """Frees the name of a transaction at this end. A name may be used again only when both ends
        have freed it, in this order: the sender's message is closed; no part of it can come any
        more; the receiver's end retires the name; then the sender's end does. Raises `StillOpen`."""
        named = _c_name(name)
        self._done(_end.lpt_end_retire, int(Direction(direction)), byref(named))

    def name_state(self, direction: Direction, name: Named) -> NameState:
        """The state of a transaction's name at this end. In the direction in which the end sends, it is
        that of a message; in the other direction, that of a reception."""
        named, state = _c_name(name), U32(0)
        self._done(_end.lpt_end_name, int(Direction(direction)), byref(named), byref(state))
        return NameState(state.value)

    def closed_names(self, direction: Direction, start: Named = (0, 0)) -> Iterator[Name]:
        """The closed names of a direction at this end, from this one on, in order."""
        way, at, found = int(Direction(direction)), _c_name(start), _library.LptName()
        while True:
            call = self._call(_end.lpt_end_closed, way, byref(at), byref(found))
            if self._unless(_NOTHING, call):
                return
            yield Name(found.source, found.id)
            after = found.source * 0x10000 + found.id + 1
            if after > 0xFFFFFFFF:
                return
            at.source, at.id = divmod(after, 0x10000)

    def view(self) -> View:
        """What the end has to do, in numbers; nothing changes."""
        told = _library.LptView()
        self._done(_end.lpt_end_view, byref(told))
        due = told.next_due or None
        return View(told.clock, bool(told.due), due, told.outgoing, told.unread, told.requests)

    def receptions(self) -> list[Reception]:
        """The receptions that are open, in the order of their names."""
        return [
            Reception(Name(it.name.source, it.name.id), it.kept, it.last or None, it.due)
            for it in self._each(_end.lpt_end_reception, _library.LptReception)
        ]

    def missing(self, name: Named, start: int = 1) -> Iterator[int]:
        """The numbers of an open reception's missing parts, from this one on, one by one. If the last
        part has come, they end before it, otherwise at 65,535. Raises `NotOpen`, also if the
        reception is released or ends meanwhile: if you feed parts in the loop, iterate over
        `list(end.missing(name))`."""
        named, found = _c_name(name), U16(0)
        start = number(start, 0xFFFF, "the part's number")
        while start <= 0xFFFF:
            call = self._call(_end.lpt_end_missing, byref(named), start, byref(found))
            if self._unless(_NOTHING, call):
                return
            yield found.value
            start = found.value + 1

    def senders(self) -> list[Sender]:
        """The messages that are open for sending, in the order of their names."""
        return [
            Sender(Name(it.name.source, it.name.id), it.parts, it.len)
            for it in self._each(_end.lpt_end_sender, _library.LptSender)
        ]

    def _each(self, function: Any, structure: Any) -> Iterator[Any]:
        """What a call tells by numbers from 0."""
        at, told = 0, structure()
        while not self._unless(_NOTHING, self._call(function, at, byref(told))):
            yield told
            at += 1

    def restart(self) -> None:
        """Restarts the end. It closes open messages and their names, drops open receptions and frees
        their names, drops the released requests that it keeps, and counts its packets from 0. Other
        names, the clock and the memories stay, and so do the message that was released
        last and the packets that wait to be sent. Raises `NoNumber`."""
        self._done(_end.lpt_end_restart)
        self._report = None

    def state(self) -> bytes:
        """What outlasts the end's process, besides the memories: `End(.., state=..)` restores an
        end from it. Save it before you act on a call's result or send anything. At a spacecraft save
        the memories with it, and never save between a release and its execution (`serve` says how).
        If you keep to this, the program may stop at any place, and the promise still holds. Under
        "Saving the state" docs/C.md says after which calls you must save. It never raises
        `Allocation`."""
        return self._copied(_end.lpt_end_state, Room(45)) or b""

    @staticmethod
    def _unless(expected: int, fault: int) -> bool:
        """Whether a call answered this, and no other fault."""
        if fault != expected:
            raise_fault(fault)
        return fault == expected


def _c_name(name: Named) -> Any:
    """A name as the library takes it."""
    return _library.LptName(*name_of(name))


def _config_of(config: Config) -> Any:
    """A configuration as the library takes it. What has no room in it isn't in its range either."""
    names = ("apid", "part_size", "timeout", "receptions", "outgoing")
    words = []
    for name in names:
        value = operator.index(getattr(config, name))
        most = 0xFFFF if name == "apid" else 0xFFFFFFFF
        words.append(value if 0 <= value <= most else most)
    clock = number(config.clock, 0xFFFFFFFF, "the clock")
    return _library.LptConfig(*words, clock, int(Mode(config.mode)))


def _memories_of(memories: Mapping[int, Octets]) -> tuple[Any, bytes]:
    """Memories as the library takes them: the list, and their content."""
    listed = (_library.LptMemory * max(len(of_kind(memories, Mapping)), 1))()
    at, pieces = 0, []
    for it, (identifier, octets) in zip(listed, memories.items()):
        piece = _library.view_of(octets)
        it.id, it.at, it.len = number(identifier, 255, "the identifier"), at, piece.nbytes
        at += piece.nbytes
        pieces.append(piece)
    return listed, b"".join(pieces)


def _applied_of(out: Any) -> Applied:
    """What the library says became of a request."""
    kind = AppliedKind(out.kind)
    name = Name(out.name.source, out.name.id) if kind is AppliedKind.OPENED else None
    return Applied(kind, name, Failure(out.value) if kind is AppliedKind.REFUSED else None)


def _outcome_of(out: Any) -> Outcome:
    """What the library says became of a packet."""
    kind = _KINDS[out.kind]
    name = Name(out.name.source, out.name.id) if kind in _NAMED else None
    if kind in (OutcomeKind.KEPT, OutcomeKind.AGAIN):
        return Outcome(kind, name, part=out.first)
    if kind in (OutcomeKind.RELEASED, OutcomeKind.PLAIN_RELEASED):
        return Outcome(kind, name, length=out.first)
    if kind is OutcomeKind.REPORT_NOTED:
        return Outcome(kind, types=(out.first, out.second))
    if kind is OutcomeKind.IGNORED:
        return Outcome(kind, why=Why(out.first))
    return Outcome(kind, name, reason=Reason(out.first))
