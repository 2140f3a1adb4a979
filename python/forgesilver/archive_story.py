"""What became of the parts in a file of packets, as `list --json` and `join --each --json` tell it."""

from __future__ import annotations

import dataclasses
import os
import pathlib
import tempfile
from typing import Any

from .program import Word, rows


@dataclasses.dataclass
class Transfer:
    """The parts that came under a name, as `list` has them, and its messages."""

    name: str
    parts: list[dict[str, Any]] = dataclasses.field(default_factory=list)
    #: The octets of each message: from the packet of its first part to the end of that which made it whole.
    whole: list[tuple[int, int]] = dataclasses.field(default_factory=list)
    #: Where each other began, and which parts it lacks, as `2,4-6,9-`.
    lacking: list[tuple[int, str]] = dataclasses.field(default_factory=list)


@dataclasses.dataclass
class Archive:
    """A file of packets, as `list` has them, with what came under each name."""

    octets: int
    packets: list[dict[str, Any]]
    transfers: dict[str, Transfer]


def name_of(fields: dict[str, Any]) -> str:
    """The name of the message whose part a packet carries, as the program writes it; of other packets nothing."""
    if not isinstance(fields.get("part_sequence_number"), int):
        return ""
    is_up = fields["packet_type"] == "tc"
    source = fields.get("source_id" if is_up else "destination_id", 0)
    return f"{'up' if is_up else 'down'} {source}/{fields['large_message_transaction_identifier']}"


def archive_of(path: str | os.PathLike[str], *options: Word) -> Archive:
    """The story of a file of packets. The options are those that both `lpt list` and `lpt join` take."""
    packets = list(rows("list", "--json", path, *options))
    found = Archive(pathlib.Path(path).stat().st_size, packets, {})
    ends = {it["place"]: it["place"] + it["length"] for it in packets if "length" in it}
    for fields in packets:
        name = name_of(fields)
        if name:
            found.transfers.setdefault(name, Transfer(name)).parts.append(fields)
    for direction in ("up", "down"):
        if not any(it.startswith(direction) for it in found.transfers):
            continue
        with tempfile.TemporaryDirectory() as folder:
            told = list(rows("join", direction, "--each", f"{folder}/all", "--json", path, *options))
        for it in told:
            transfer = found.transfers.setdefault(it["name"], Transfer(it["name"]))
            if "at" in it:
                transfer.whole.append((it["from"], ends[it["at"]]))
            else:
                transfer.lacking.append((it["from"], it["missing"]))
    return found
