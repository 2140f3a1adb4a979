"""The list of packets as a table, as wide as the terminal and coloured there."""

from __future__ import annotations

import os
import shutil
import sys
from collections.abc import Iterator
from typing import Any

from .program import Word, rows

# The columns of numbers and of words, and the fields that may stand there.
COLUMNS: dict[str, tuple[str, ...]] = {
    "place": ("place",), "length": ("length",), "type": ("packet_type",), "apid": ("application_process_id",),
    "count": ("packet_sequence_count",), "fl": ("acknowledgement_flags", "spacecraft_time_reference_status"),
    "svc": ("service_type",), "sub": ("message_subtype",), "source": ("source_id", "destination_id"),
    "part": ("part",), "id": ("large_message_transaction_identifier",), "number": ("part_sequence_number",),
    "octets": ("part_octets",),
}
WORDS = {"type", "part"}
_PLACED = {field for fields in COLUMNS.values() for field in fields}


def table(packets: list[dict[str, Any]], width: int = 0, *, coloured: bool = False) -> Iterator[str]:
    """A row for each packet, and one above them; at its end a row has the fields without a column. A row is cut if a
    width is given."""
    cells = [[next((str(it[f]) for f in fields if f in it), "") for fields in COLUMNS.values()] for it in packets]
    wide = [max(map(len, column)) for column in zip(COLUMNS, *cells)]

    def told(row: list[str], more: str) -> str:
        padded = (it.ljust(n) if name in WORDS else it.rjust(n) for it, n, name in zip(row, wide, COLUMNS))
        text = "  ".join((*padded, more)).rstrip()
        return text if not width or len(text) <= width else f"{text[:width - 1]}…"

    yield told(list(COLUMNS), "")
    for it, row in zip(packets, cells):
        text = told(row, " ".join(f"{key} {value}" for key, value in it.items() if key not in _PLACED))
        yield f"\033[{_colour(it)}m{text}\033[m" if coloured else text


def _colour(fields: dict[str, Any]) -> int:
    """Red for what is no packet, unread or a failure, blue for telecommands, yellow for telemetry."""
    is_failure = fields.get("service_type") == 1 and fields.get("message_subtype") in (2, 4, 6, 8)
    if fields.get("packet_type", "none") == "none" or fields.get("part") == "unread" or is_failure:
        return 31
    return 34 if fields["packet_type"] == "tc" else 33


def main(files: list[str], *options: Word) -> int:
    """Prints the table of files of packets, without colours if NO_COLOR is set."""
    is_there = sys.stdout.isatty()
    coloured = is_there and not os.environ.get("NO_COLOR") and os.environ.get("TERM", "dumb") != "dumb"
    packets = list(rows("list", "--json", *files, *options))
    for text in table(packets, shutil.get_terminal_size().columns if is_there else 0, coloured=coloured):
        print(text)
    return 0
