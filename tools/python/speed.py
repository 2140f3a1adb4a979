"""How long the package takes, beside the model of bench/, which is Python alone, for the same work.

    PYTHONPATH=python python3 tools/python/speed.py

A message of 65,000 octets is split into parts of 1,024 octets, and of 64, and a receiver takes all parts. It prints the
median microseconds of processor time for a packet of each, over the package and over the model. The model's checksums are those of Python's binascii, which is C; the last column has the model with a table of its
own in place of it.
"""

from __future__ import annotations

import binascii
import pathlib
import statistics
import sys
import time
from typing import Callable

sys.dont_write_bytecode = True
TOP = pathlib.Path(__file__).resolve().parent.parent.parent
sys.path.insert(0, str(TOP / "bench"))

import forgesilver  # noqa: E402: PYTHONPATH names it
from forgesilver import Config, End, Side  # noqa: E402
from model import packets as model_packets  # noqa: E402: it stands there
from model.nodes import Node  # noqa: E402
from model.packets import Name, read_headers, read_packet  # noqa: E402
from model.parts import read_part  # noqa: E402
from model.settings import Settings  # noqa: E402

MESSAGE = bytes(range(250)) * 260
NAME = Name(1, 7)
TURNS = 9


def crc_table() -> list[int]:
    """What each octet does to the checksum's register."""
    table = []
    for it in range(256):
        register = it << 8
        for _ in range(8):
            register = (register << 1 ^ (0x1021 if register & 0x8000 else 0)) & 0xFFFF
        table.append(register)
    return table


TABLE = crc_table()


def crc_of_python(octets: bytes, register: int) -> int:
    """What binascii.crc_hqx gives, in Python."""
    for it in octets:
        register = (register << 8 & 0xFFFF) ^ TABLE[register >> 8 ^ it]
    return register


class OfPackage:
    """The work over the package."""

    def __init__(self, size: int):
        self.config = Config(100, size)

    def split(self) -> list[bytes]:
        """The packets of all parts, as an end makes them."""
        with End(Side.GROUND, self.config) as ground:
            ground.open(NAME, MESSAGE)
            return list(ground.parts(NAME))

    def join(self, packets: list[bytes]) -> bytes | None:
        """What a receiver makes of them."""
        with End(Side.SPACECRAFT, self.config, {1: b"1"}) as craft:
            for it in packets:
                craft.feed(it)
            return craft.released()

    def read(self, packets: list[bytes]) -> int:
        """Each read as a telecommand."""
        return sum(len(forgesilver.read_telecommand(it).body) for it in packets)


class OfModel:
    """The same work by the model."""

    def __init__(self, size: int):
        self.settings = Settings(apid=100, part_size=size)

    def split(self) -> list[bytes]:
        """The packets of all parts, as a node makes them."""
        ground = Node(self.settings, False)
        count = ground.open(NAME, MESSAGE)
        return [ground.send(NAME, it) for it in range(1, count + 1)]

    def join(self, packets: list[bytes]) -> bytes | None:
        """What a receiver makes of them."""
        craft, message = Node(self.settings, True), None
        for it in packets:
            part = read_part(read_headers(read_packet(it)), self.settings.part_size)
            _, message = craft.accept(part)
        return message

    def read(self, packets: list[bytes]) -> int:
        """Each read as a telecommand."""
        return sum(len(read_headers(read_packet(it)).body) for it in packets)


def median(work: Callable[[], object], count: int) -> float:
    """The median microseconds of processor time of a packet."""
    found = []
    for _ in range(TURNS):
        begun = time.process_time()
        work()
        found.append(time.process_time() - begun)
    return statistics.median(found) / count * 1e6


def main() -> None:
    """The table."""
    print("parts of   work    package   model   model, checksums in Python")
    for size in (1024, 64):
        package, model = OfPackage(size), OfModel(size)
        packets = package.split()
        assert packets == model.split() and package.join(packets) == model.join(packets) == MESSAGE
        for name in ("split", "join", "read"):
            words = () if name == "split" else (packets,)
            rows = [lambda it=it: getattr(it, name)(*words) for it in (package, model)]
            times = [median(it, len(packets)) for it in rows]
            model_packets.binascii = type("Slow", (), {"crc_hqx": staticmethod(crc_of_python)})
            times.append(median(rows[1], len(packets)))
            model_packets.binascii = binascii
            print(f"{size:8}   {name:5} {times[0]:9.1f} {times[1]:7.1f} {times[2]:9.1f}")


if __name__ == "__main__":
    main()
