"""Space packets (CCSDS 133.0-B), PUS headers, large packet transfer, raw memory management and
request verification (ECSS-E-ST-70-41C), over the libraries of Forgesilver and its program `lpt`, which are proved.

    >>> from forgesilver import *
    >>> packets = list(split(bytes(20), name=(1, 7), part_size=8, apid=100))
    >>> with End(Side.SPACECRAFT, Config(part_size=8), {1: bytes(256)}) as spacecraft:
    ...     [spacecraft.feed(it).kind.name for it in packets]
    ['KEPT', 'KEPT', 'RELEASED']

The modules:

- space_packets: packets, telecommands and telemetry, and the packets of a stream
- parts: the parts of large messages, and `split`
- memory: requests to load, dump and check a memory, and their reports
- reports: verification reports
- end: one end of a link, with a spacecraft's memories
- job: a load, dump or check that ground repeats until reports settle it
- kinds: enumerations: kinds of packets, outcomes, reasons and so on
- faults: an exception for each fault
- archives: what archives have, as the program reads them: `packets`, `messages`, `image`, `outcomes`
- plot: pictures of a script's run, of packets, and of a contact; it needs matplotlib, and isn't imported here
- program: the program `lpt`, where it is and how it is run

`python3 -m forgesilver` has the commands `chart`, `shell` and `list`.

Octets are any object with a buffer: `bytes`, `bytearray`, `memoryview`, an array or a mapped file.
`read_packet` and the other functions `read_..` return views if they get a `memoryview`, otherwise
copies. Numbers out of their range raise `faults.Range`, and arguments of
another type TypeError.

The package looks for the libraries in the folder that FORGESILVER_LIB names. If that isn't set, it
looks beside its own files, then in the folder into which ./install puts them, then in `build` of the
checkout. `liblpt` must have the package's version; `version` says whether the libraries are proved.
"""

from __future__ import annotations

from . import faults
from ._handle import WrongThread
from ._library import VERSION as __version__
from ._library import version
from .archives import (
    COLUMNS, Image, Message, MessageName, ProgramWarning, image, messages, outcomes, packets,
    packets_of_messages,
)
from .end import Applied, Config, End, Outcome, Reception, Sender, View
from .faults import Fault
from .job import Fate, Job, Progress
from .kinds import (
    Acknowledge, AppliedKind, Direction, Failure, FateState, JobKind, Mode, NameState, OutcomeKind,
    PacketKind, PartKind, PieceKind, Reason, ReportKind, Side, Step, Why,
)
from .memory import (
    Area, Check, Checked, CheckReport, Dump, DumpReport, Load, Loaded, read_check, read_data_report,
    read_dump, write_load,
)
from .parts import (
    AbortReport, Name, Part, part_count, part_kind, part_of, read_abort, read_part, split,
    write_abort, write_part,
)
from .program import ProgramError
from .reports import VerificationReport, read_report, verification_of, write_report
from .space_packets import (
    LONGEST_PACKET, Packet, Telecommand, Telemetry, crc16, find_piece, packet_length, packets_of,
    read_message, read_packet, read_telecommand, read_telemetry, sound_packets_of, write_packet,
    write_telecommand, write_telemetry,
)

__all__ = [
    "AbortReport", "Acknowledge", "Applied", "AppliedKind", "Area", "COLUMNS", "Check",
    "CheckReport", "Checked", "Config", "Direction", "Dump", "DumpReport", "End", "Failure", "Fate",
    "FateState", "Fault", "Image", "Job", "JobKind", "LONGEST_PACKET", "Load", "Loaded", "Message",
    "MessageName", "Mode", "Name", "NameState", "Outcome", "OutcomeKind", "Packet", "PacketKind",
    "Part", "PartKind", "PieceKind", "ProgramError", "ProgramWarning", "Progress", "Reason",
    "Reception", "ReportKind", "Sender", "Side", "Step", "Telecommand", "Telemetry",
    "VerificationReport", "View", "Why", "WrongThread", "crc16", "faults", "find_piece", "image",
    "messages", "outcomes", "packet_length", "packets", "packets_of", "packets_of_messages", "part_count", "part_kind",
    "part_of", "read_abort", "read_check", "read_data_report", "read_dump", "read_message",
    "read_packet", "read_part", "read_report", "read_telecommand", "read_telemetry",
    "sound_packets_of", "split", "verification_of", "version", "write_abort", "write_load",
    "write_packet", "write_part", "write_report", "write_telecommand", "write_telemetry",
]
