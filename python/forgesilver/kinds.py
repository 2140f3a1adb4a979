"""The kinds of things, each with the number by which the libraries and the packets know it."""

from __future__ import annotations

from enum import IntEnum, IntFlag


class PacketKind(IntEnum):
    """The kinds of packets."""

    TM = 0
    TC = 1


class Acknowledge(IntFlag):
    """The acknowledgement flags of a telecommand: which successes the spacecraft reports."""

    NONE = 0
    ACCEPTANCE = 1
    START = 2
    PROGRESS = 4
    COMPLETION = 8


class PartKind(IntEnum):
    """The kinds of parts."""

    FIRST = 1
    INTERMEDIATE = 2
    LAST = 3


class PieceKind(IntEnum):
    """The first piece of a stream; `find_piece` says what 'in step' is.

    - WHOLE: a packet; in step also an idle packet, or a packet with a right checksum that has no
      secondary header or is a segment
    - DAMAGED, only in step: octets that are no packet, as many as their header says, with a packet or
      the end after them, and no packet at their own end
    - STRAY: an octet with which no such piece begins
    """

    WHOLE = 1
    DAMAGED = 2
    STRAY = 3


class Reason(IntEnum):
    """Why a reception was aborted. EXPIRED: no part came for as long as the timeout, or the
    reception was given up. DISCONTINUITY: in strict mode a part came that is neither the
    next nor one that was kept. CONFLICT: a part contradicts another."""

    EXPIRED = 1
    DISCONTINUITY = 2
    CONFLICT = 3


class Failure(IntEnum):
    """Why a request failed. UNKNOWN_TYPE and BODY: it wasn't accepted. The others: its execution didn't
    start."""

    UNKNOWN_TYPE = 1
    BODY = 2
    UNKNOWN_MEMORY = 3
    OUT_OF_RANGE = 4
    CHECKSUM = 5
    REPLY_TOO_LONG = 6
    NO_IDENTIFIER = 7
    TOO_MANY_OPEN = 8


class ReportKind(IntEnum):
    """The verification reports: the message subtypes of service 1."""

    ACCEPTED = 1
    NOT_ACCEPTED = 2
    STARTED = 3
    NOT_STARTED = 4
    COMPLETED = 7


class Side(IntEnum):
    """The sides of a link."""

    GROUND = 0
    SPACECRAFT = 1


class Direction(IntEnum):
    """The directions: up from ground to the spacecraft."""

    UP = 0
    DOWN = 1


class NameState(IntEnum):
    """The states of a name at an end. OPEN: a message that is open for sending, or a reception,
    uses it. CLOSED: it was used, and not freed since."""

    FREE = 0
    OPEN = 1
    CLOSED = 2


class Mode(IntEnum):
    """In which order an end takes parts: in any order, or strictly in the order of their
    numbers."""

    ANY = 0
    STRICT = 1


class OutcomeKind(IntEnum):
    """What became of a packet that an end was given.

    - KEPT: it has a part, which was kept
    - AGAIN: it has a part that was kept before
    - RELEASED: it has the part with which its message is whole, and is released
    - PLAIN_RELEASED: it is a telecommand that is no part, and is released
    - REPORT_NOTED: it is telemetry that is no part
    - ABORT_NOTED: it is the report of an abortion
    - BROKEN: it has a part that aborted its reception
    - IGNORED: it changed nothing
    """

    KEPT = 1
    AGAIN = 2
    RELEASED = 3
    PLAIN_RELEASED = 4
    REPORT_NOTED = 5
    ABORT_NOTED = 6
    BROKEN = 7
    IGNORED = 8


class Why(IntEnum):
    """Why an end ignored a packet.

    - UNREADABLE: it is no packet, or of the wrong kind: the spacecraft takes telecommands, ground
      telemetry
    - IDLE: it is idle
    - FOREIGN_APID: it has another APID
    - BAD_PART: the body of a part or of an abortion's report can't be read
    - CLOSED: the reception of its message has ended
    - NO_ROOM: as many receptions are open as the limit allows
    """

    UNREADABLE = 1
    IDLE = 2
    FOREIGN_APID = 3
    BAD_PART = 4
    CLOSED = 5
    NO_ROOM = 6


class AppliedKind(IntEnum):
    """What became of a request. OPENED: it was carried out, and its report is open to be sent in
    parts. SILENT: it is no telecommand of the APID: nothing was done."""

    CARRIED_OUT = 1
    OPENED = 2
    SILENT = 3
    REFUSED = 4


class JobKind(IntEnum):
    """What a job asks of a memory."""

    LOAD = 1
    DUMP = 2
    CHECK = 3


class Step(IntEnum):
    """What a job does next. With COMPLETED and those after it the job is at its end; `is_end` says
    so.

    - SEND: a packet is to be sent
    - LISTEN: a packet is to be awaited
    - COMPLETED: each request is settled, and none was reported as failed
    - FAILED: each request is settled, and some were reported as failed
    - GIVEN_UP: some requests are open, and as many waits in a row as `tries` says settled nothing
    - CUT_OFF: some requests are open, and nothing more will come
    """

    SEND = 1
    LISTEN = 2
    COMPLETED = 3
    FAILED = 4
    GIVEN_UP = 5
    CUT_OFF = 6

    @property
    def is_end(self) -> bool:
        """Whether the job is at its end."""
        return self >= Step.COMPLETED


class FateState(IntEnum):
    """What is known of a job's request. OPEN: no report has settled it. COMPLETED: a load was
    reported as completed (with `starts`, at least as started), or a dump or check was answered.
    FAILED: it was reported as failed."""

    OPEN = 0
    COMPLETED = 1
    FAILED = 2
