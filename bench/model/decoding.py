"""What octets are as a packet, without a world."""

from .packets import Fault, hexadecimal, number_of, read_headers, read_packet
from .parts import ABORT_SUBTYPE, read_part
from .settings import RANGES

SMALLEST_PART, LARGEST_PART = RANGES["part_size"]


def carried(headers, part_size):
    """The line that says what a body is, where it is read."""
    body, kind = headers.body, (headers.service, headers.subtype)
    part = read_part(headers, part_size)
    if part is not None:
        place = ("first", "middle", "last")[part.place]
        return [f"part {place} id {part.name.identifier} number {part.number} octets {len(part.octets)}"]
    if headers.packet.is_command:
        return []
    if kind == (13, ABORT_SUBTYPE) and len(body) == 3 and body[2] in (1, 2, 3):
        return [f"abort id {number_of(body[:2])} reason {body[2]}"]
    if kind in ((1, 1), (1, 3), (1, 7)) and len(body) == 4:
        return [f"report request {body.hex()}"]
    if kind in ((1, 2), (1, 4)) and len(body) == 6:
        return [f"report request {body[:4].hex()} code {number_of(body[4:])}"]
    return []


def decode(octets, part_size):
    """What octets are as a packet, and the status."""
    try:
        packet = read_packet(octets)
        if packet is None:
            return "idle\n", 0
        headers = read_headers(packet)
    except Fault as fault:
        return f"fault {fault}\n", 1
    kind = f"service {headers.service} subtype {headers.subtype}"
    if packet.is_command:
        kind = f"flags {headers.nibble} {kind} source {headers.peer}"
    else:
        kind = f"status {headers.nibble} {kind} counter {headers.counter}"
        kind += f" destination {headers.peer} time {headers.time}"
    first = f"{'tc' if packet.is_command else 'tm'} apid {packet.apid} count {packet.count} {kind}"
    lines = [first, f"body {hexadecimal(headers.body)}", *carried(headers, part_size)]
    return "".join(line + "\n" for line in lines), 0


def complaint(octets, part_size):
    """What is said of a part that isn't read for this part size, but would be for one of its own; or ''."""
    try:
        packet = read_packet(octets)
        headers = packet and read_headers(packet)
    except Fault:
        return ""
    if headers is None or read_part(headers, part_size) is not None:
        return ""
    length = max(len(headers.body) - 4, 0)
    fitting = max(length, SMALLEST_PART)
    if fitting > LARGEST_PART or read_part(headers, fitting) is None:
        return ""
    unfit = f"its {length} octets don't fit part_size = {part_size}, but part_size = {fitting}"
    return f"lpt: the part isn't read: {unfit}"
