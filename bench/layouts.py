"""Makes the streams of bench/files whose packets are telemetry of a mission's layout."""

import binascii
import os
from typing import NamedTuple

APID = 100
# The octets of a part and of a report's area, and how long each stream is at least.
SIZE, AREA, OCTETS = 1000, 990, 100_000_000


class Form(NamedTuple):
    """A layout: its name in the table, its keys beside the part size, and what they make of a header."""

    name: str
    keys: str = ""
    version: int = 2
    time: int = 4
    spare: int = 0
    checksum: bool = True

    def text(self, size=SIZE):
        """Its file."""
        return f"[telemetry]\n{self.keys}\npart_size = {size}\n"

    def packet(self, service, subtype, body):
        """A packet of it."""
        field = bytes([self.version << 4, service, subtype, 0, 0, 0, 1]) + bytes(self.time + self.spare) + body
        length = len(field) + 2 * self.checksum - 1
        octets = (0x0800 | APID).to_bytes(2, "big") + b"\xc0\x00" + length.to_bytes(2, "big") + field
        return octets + binascii.crc_hqx(octets, 0xFFFF).to_bytes(2, "big") if self.checksum else octets

    def parts(self, message, size=SIZE):
        """The packets of a message's parts, named 7."""
        pieces = [message[at : at + size] for at in range(0, len(message), size)]
        subtypes = [1] + [2] * (len(pieces) - 2) + [3]
        numbered = enumerate(zip(subtypes, pieces), 1)
        return b"".join(self.packet(13, it, b"\x00\x07" + k.to_bytes(2, "big") + piece) for k, (it, piece) in numbered)

    def report(self):
        """The packet of a dump report of one area."""
        octets = os.urandom(AREA)
        body = b"\x01\x01" + bytes(4) + AREA.to_bytes(2, "big") + octets
        return self.packet(6, 6, body + binascii.crc_hqx(octets, 0xFFFF).to_bytes(2, "big"))


PROFILE = Form("The profile")
FORMS = (
    Form("Equal"),
    Form("`time = 7`", "time = 7", time=7),
    Form("`version = 1`", "version = 1", version=1),
    Form("`spare = 1`", "spare = 1", spare=1),
    Form("`checksum = false`", "checksum = false", checksum=False),
)


def streams(form):
    """The streams of a form, by their names: one message again and again, two of one name in turn, dump
    reports, and long packets. Those of each form have the same number of packets."""
    one, other = os.urandom(65 * SIZE), os.urandom(65 * SIZE)
    times = OCTETS // (66 * SIZE)
    return {
        "parts": form.parts(one) * times,
        "messages": (form.parts(one) + form.parts(other)) * (times // 2),
        "reports": b"".join(form.report() for _ in range(100)) * (OCTETS // (101 * SIZE)),
        "packets": b"".join(form.packet(3, 25, os.urandom(60_000)) for _ in range(10)) * (OCTETS // 600_000),
    }


def commands(folder):
    """What is measured: a name, the stream, and the words."""
    return (
        ("list", "parts", ["list"]),
        ("join", "parts", ["join", "down", "--id", "7", "--any"]),
        ("join --each", "messages", ["join", "down", "--any", "--each", folder]),
        ("extract", "reports", ["extract"]),
        ("split --each", "packets", ["split", "down", "0", "--each"]),
    )
