"""Uses of the package, as a type checker reads them: tests/python gives them to mypy, and nothing runs them. Where
`type: ignore` stands a use is refused: mypy says of a line that needs none that it is so.
"""

from __future__ import annotations

import array
import ctypes
import datetime
import io
import mmap
import pathlib
from typing import Iterator, Optional

import forgesilver as f

OCTETS = array.array("B", bytes(9))


def octets(mapped: mmap.mmap) -> None:
    """What has a buffer is octets."""
    numbers: list[int] = [f.crc16(it) for it in (b"1", bytearray(b"1"), memoryview(b"1"))]
    numbers += [f.crc16(OCTETS), f.crc16(mapped), f.crc16((ctypes.c_uint8 * 4)())]
    f.crc16("text")  # type: ignore[arg-type]
    f.crc16([1, 2])  # type: ignore[arg-type]


def streams(file: io.BufferedReader, mapped: mmap.mmap) -> None:
    """A file gives octets, and octets give views of them."""
    of_file: Iterator[bytes] = f.packets_of(file)
    of_octets: Iterator[memoryview] = f.packets_of(mapped)
    wrong: Iterator[str] = f.packets_of(OCTETS)  # type: ignore[assignment]
    print(wrong)
    print(of_file, of_octets)


def fields(end: f.End) -> None:
    """What is read has octets that can be indexed."""
    first: int = f.read_telecommand(OCTETS).body[0]
    outcome: f.Outcome = end.feed(OCTETS)
    length: Optional[int] = outcome.length
    text: str = outcome.length  # type: ignore[assignment]
    print(first, length, text)


def archives(path: pathlib.Path) -> None:
    """An archive gives a frame, messages and an image."""
    for it in f.messages([path, OCTETS], layout=path, direction=f.Direction.UP):
        whole: Optional[bytes] = it.octets
        date: Optional[datetime.datetime] = it.date
        print(whole, date, it.name.apid + it.name.id)
    image: f.Image = f.image(path, 1, apid=100)
    frame = f.packets("archive", columns=["place"])
    print(image.start, frame, f.outcomes(path, b""))
    f.packets(7)  # type: ignore[arg-type]
    f.messages(path, direction="up")  # type: ignore[arg-type]
