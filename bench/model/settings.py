"""Configurations, and the files that they are read from."""

from typing import NamedTuple

LAST_TICK = 0xFFFFFFFF


class Settings(NamedTuple):
    """A configuration; each memory is an identifier, a size and a fill."""

    apid: int = 100
    source: int = 1
    part_size: int = 8
    timeout: int = 10
    receptions: int = 8
    outgoing: int = 8
    clock: int = 0
    mode: str = "any"
    per_seat: int = 100000
    ticks: int = 0
    memory: tuple = ((1, 256, 0),)


RANGES = {
    "apid": (0, 2046),
    "source": (0, 65535),
    "part_size": (4, 1024),
    "timeout": (1, 65535),
    "receptions": (1, 64),
    "outgoing": (1, 64),
    "clock": (0, LAST_TICK),
    "per_seat": (1, 1000000),
    "ticks": (0, 65535),
}
MODES = ("any", "strict")
MEMORY_RANGES = {"id": (0, 255), "size": (1, 1048576), "fill": (0, 255)}


def has_numbers(table, ranges):
    """Whether all values of a table are numbers in the ranges of their keys."""
    return all(
        key in ranges and type(value) is int and ranges[key][0] <= value <= ranges[key][1]
        for key, value in table.items()
    )


def memories_of(array):
    """The memories that an array of tables describes, or `None`."""
    if not isinstance(array, list) or not 1 <= len(array) <= 16:
        return None
    for table in array:
        if not isinstance(table, dict) or not has_numbers(table, MEMORY_RANGES):
            return None
        if "id" not in table or "size" not in table:
            return None
    memories = tuple((table["id"], table["size"], table.get("fill", 0)) for table in array)
    return memories if len({name for name, _, _ in memories}) == len(memories) else None


def settings_of(text):
    """What the octets of a configuration file mean, or `None` where they are refused."""
    # Python has it from 3.11 on, and the rest of the model needs no configuration.
    import tomllib

    if len(text) > 1048576:
        return None
    try:
        table = tomllib.loads(text.decode())
    except (UnicodeDecodeError, tomllib.TOMLDecodeError):
        return None
    memory = memories_of(table.pop("memory")) if "memory" in table else Settings().memory
    mode = table.pop("mode", Settings().mode)
    if memory is None or mode not in MODES or not has_numbers(table, RANGES):
        return None
    return Settings(**table, mode=mode, memory=memory)
