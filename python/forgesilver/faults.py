"""The faults: an exception for each number of `LptFault` in docs/C.md, named as there.

`ShortPart` is raised if the libraries answer LPT_E_SHORT_PART, and so on. All are `Fault`, so
`except forgesilver.Fault` takes any; `fault.number` is the number. `ValueError` is a base of each,
but of `Allocation`, which is a `MemoryError`.
"""

from __future__ import annotations

from typing import ClassVar


class Fault(Exception):
    """Why a call failed: the base of all faults."""

    #: The number by which docs/C.md knows the fault.
    number: ClassVar[int] = 0

    def __init__(self, said: str = "") -> None:
        """A fault with this text, by default the first line of its class's docstring."""
        super().__init__(said or (type(self).__doc__ or "").partition("\n")[0].rstrip("."))

    def __str__(self) -> str:
        return f"{self.number}: {super().__str__()}"


class Short(Fault, ValueError):
    """The octets are fewer than 7."""

    number = 1


class Version(Fault, ValueError):
    """The octets don't begin with packet version number 000."""

    number = 2


class Length(Fault, ValueError):
    """The octets aren't as many as their data length field says."""

    number = 3


class Segmented(Fault, ValueError):
    """The sequence flags aren't those of an unsegmented packet."""

    number = 4


class NoSecondary(Fault, ValueError):
    """The packet has no secondary header."""

    number = 5


class Checksum(Fault, ValueError):
    """The octets are fewer than 8, or the last two aren't the checksum of those before."""

    number = 6


class PusVersion(Fault, ValueError):
    """The header's PUS version isn't 2."""

    number = 11


class WrongType(Fault, ValueError):
    """The packet is telemetry and a telecommand was expected, or the other way round."""

    number = 12


class ShortHeader(Fault, ValueError):
    """The data field is shorter than its header."""

    number = 13


class TooLong(Fault, ValueError):
    """The packet to be written would have more than 65,542 octets."""

    number = 14


class ShortPart(Fault, ValueError):
    """The body of a part has fewer than 4 octets."""

    number = 20


class ZeroNumber(Fault, ValueError):
    """The part sequence number is 0."""

    number = 21


class KindNumber(Fault, ValueError):
    """A first part with another number than 1, or another part with number 1."""

    number = 22


class PartLength(Fault, ValueError):
    """The part's octets aren't as many as its kind and the part size allow."""

    number = 23


class AbortBody(Fault, ValueError):
    """The body is no abortion report."""

    number = 24


class Memories(Fault, ValueError):
    """Not 1 to 16 memories of 1 to 1,048,576 octets each, with distinct identifiers."""

    number = 25


class LongLoad(Fault, ValueError):
    """The packet of a load would have more than 65,542 octets."""

    number = 27


class BadArea(Fault, ValueError):
    """A request's areas are none, more than 255, or one is empty; or a job's areas are none, one is
    empty or ends past the last address, or two of a load overlap."""

    number = 28


class InUse(Fault, ValueError):
    """The transaction's name isn't free."""

    number = 41


class ShortMessage(Fault, ValueError):
    """The message isn't longer than a part."""

    number = 42


class LongMessage(Fault, ValueError):
    """A message of more than 65,542 octets, or a plain request of more than part_size + 23.

    Such a request is opened as a message, and sent in parts."""

    number = 43


class TooMany(Fault, ValueError):
    """As many messages are open to be sent as the limit."""

    number = 44


class NotOpen(Fault, ValueError):
    """No message or reception of this name is open."""

    number = 45


class NoSuchPart(Fault, ValueError):
    """The message has no part of that number."""

    number = 46


class NothingDue(Fault, ValueError):
    """No reception is due."""

    number = 50


class NoJob(Fault, ValueError):
    """No request waits to be read, or to be executed."""

    number = 51


class NotRead(Fault, ValueError):
    """The oldest request wasn't read."""

    number = 52


class StillOpen(Fault, ValueError):
    """The transaction is open."""

    number = 55


class ClockEnd(Fault, ValueError):
    """The clock would go past its greatest value, 4,294,967,295."""

    number = 56


class Allocation(Fault, MemoryError):
    """An allocation was refused. The end is as it was."""

    number = 58


class PartRequest(Fault, ValueError):
    """The types of a plain request are those of a part."""

    number = 60


class ConfigApid(Fault, ValueError):
    """The APID isn't 0 to 2046."""

    number = 71


class ConfigPartSize(Fault, ValueError):
    """The part size isn't 4 to 1,024 octets."""

    number = 72


class ConfigTimeout(Fault, ValueError):
    """The timeout isn't 1 to 65,535 ticks."""

    number = 73


class ConfigReceptions(Fault, ValueError):
    """The limit of receptions isn't 1 to 64."""

    number = 74


class ConfigOutgoing(Fault, ValueError):
    """The limit of outgoing messages isn't 1 to 64."""

    number = 75


class Idle(Fault, ValueError):
    """The octets are an idle packet."""

    number = 101


class Range(Fault, ValueError):
    """A number is out of its range."""

    number = 102


class Room(Fault, ValueError):
    """The buffer is too short."""

    number = 103


class More(Fault, ValueError):
    """The octets don't say it yet: more of the stream is needed."""

    number = 104


class NoReport(Fault, ValueError):
    """The body is no report of this kind."""

    number = 105


class Empty(Fault, ValueError):
    """It was closed."""

    number = 106


class NoNumber(Fault, ValueError):
    """No number is left for a released request, or for a restart."""

    number = 108


class Nothing(Fault, ValueError):
    """There is nothing to copy, or to drop."""

    number = 109


class Unsent(Fault, ValueError):
    """Packets that wait must be sent first."""

    number = 110


class StateShort(Fault, ValueError):
    """The state has fewer than 45 octets."""

    number = 111


class StateTag(Fault, ValueError):
    """The octets are no state of an end."""

    number = 112


class StateVersion(Fault, ValueError):
    """The state is of another version."""

    number = 113


class StateLength(Fault, ValueError):
    """The state's octets aren't as many as it says."""

    number = 114


class StateSide(Fault, ValueError):
    """The state is the other side's."""

    number = 115


class StateConfig(Fault, ValueError):
    """The state is of another APID, part size or mode."""

    number = 116


class StateChecksum(Fault, ValueError):
    """The state's checksum is wrong."""

    number = 117


class StateOrder(Fault, ValueError):
    """The state's names are out of order."""

    number = 118


class Elsewhere(Fault, ValueError):
    """This call needs the memories in the end, but the program has them; or the other way round. Only
    C has ends whose program has the memories."""

    number = 119


class ReadLength(Fault, ValueError):
    """These are more or fewer octets than the request reads."""

    number = 120


class LongJob(Fault, ValueError):
    """The job takes more requests than a pass has, 16,384."""

    number = 121


class ClockStart(Fault, ValueError):
    """The clock, or the tick at which a reception last got a part, would go below 0."""

    number = 125


class AlreadyRead(Fault):
    """The oldest request was read already."""

    number = 126


#: Each fault by its number.
BY_NUMBER: dict[int, type[Fault]] = {it.number: it for it in Fault.__subclasses__()}


def raise_fault(number: int, said: str = "") -> None:
    """Raises the fault of a number; nothing of 0, which is no fault."""
    if number:
        raise BY_NUMBER.get(number, Fault)(said)
