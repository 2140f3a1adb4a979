"""The shared libraries, as ctypes calls them, and how octets reach them. Not for the caller.

The calls keep Python's lock (`PyDLL`), so no other thread of Python writes to what a call reads.
"""

from __future__ import annotations

import ctypes
import operator
import os
import pathlib
import sys
from typing import TYPE_CHECKING, Any, TypeVar, Union

from .faults import Range

#: Octets that were read, or are kept to be written.
Held = Union[bytes, bytearray, memoryview]
if TYPE_CHECKING:
    from _typeshed import ReadableBuffer

    #: What is taken as octets: anything that has a buffer of them.
    Octets = ReadableBuffer
else:
    Octets = Held

VERSION = "0.1.0"
VERSION_NUMBER = 1000
CODECS, END, GROUND = "liblpt.so.0", "liblpt_end.so.0", "liblpt_ground.so.0"

U8, U16, U32, U64 = ctypes.c_uint8, ctypes.c_uint16, ctypes.c_uint32, ctypes.c_uint64
SIZE, POINTER = ctypes.c_size_t, ctypes.c_void_p


def _structure(called: str, /, **fields: Any) -> Any:
    """A structure of C with these fields."""
    return type(called, (ctypes.Structure,), {"_fields_": list(fields.items())})


LptPacket = _structure("LptPacket", kind=U32, apid=U16, count=U16, at=SIZE, len=SIZE)
LptTcHead = _structure(
    "LptTcHead", apid=U16, count=U16, flags=U8, service=U8, subtype=U8, source=U16
)
LptTc = _structure("LptTc", head=LptTcHead, at=SIZE, len=SIZE)
LptTmHead = _structure(
    "LptTmHead", apid=U16, count=U16, status=U8, service=U8, subtype=U8, counter=U16,
    destination=U16, time=U32,
)
LptTm = _structure("LptTm", head=LptTmHead, at=SIZE, len=SIZE)
LptPart = _structure("LptPart", id=U16, number=U16, kind=U32, at=SIZE, len=SIZE)
LptAbort = _structure("LptAbort", id=U16, reason=U16)
LptReport = _structure("LptReport", request=U32, failed=U16, code=U16)
LptRange = _structure("LptRange", address=U32, len=U16)
LptDumped = _structure(
    "LptDumped", memory=U8, areas=U8, address=U32, at=SIZE, len=SIZE
)
LptChecked = _structure(
    "LptChecked", memory=U8, areas=U8, address=U32, len=U16, checksum=U16
)

LptConfig = _structure(
    "LptConfig", apid=U16, part_size=U32, timeout=U32, receptions=U32, outgoing=U32, clock=U32,
    mode=U32,
)
LptName = _structure("LptName", source=U16, id=U16)
LptMemory = _structure("LptMemory", id=U8, at=SIZE, len=SIZE)
LptOutcome = _structure("LptOutcome", kind=U32, name=LptName, first=U32, second=U32)
LptApplied = _structure("LptApplied", kind=U32, name=LptName, value=U32)
LptArea = _structure("LptArea", memory=U8, address=U32, len=SIZE)
LptSize = _structure("LptSize", id=U8, len=SIZE)
LptAccess = _structure("LptAccess", memory=U8, write=U8, address=U32, len=SIZE)

LptView = _structure(
    "LptView", clock=U32, due=U32, next_due=U64, outgoing=SIZE, unread=SIZE, requests=SIZE
)
LptReception = _structure("LptReception", name=LptName, kept=U32, last=U32, due=U64)
LptSender = _structure("LptSender", name=LptName, parts=U32, len=SIZE)

LptJob = _structure(
    "LptJob", kind=U32, memory=U8, flags=U8, apid=U16, source=U16, count=U16, part_size=U32,
    tries=U32,
)
LptPlace = _structure("LptPlace", address=U32, len=U32)
LptProgress = _structure("LptProgress", requests=SIZE, completed=SIZE, failed=SIZE, left=SIZE)
LptFate = _structure("LptFate", state=U32, code=U32)

# What the calls take. A pointer is octets or an address, and in front of its length.
_READ, _WRITE = (POINTER, SIZE), (POINTER, SIZE, POINTER)
_OF_CODECS: dict[str, tuple[Any, ...]] = {
    "lpt_version": (),
    "lpt_crc16": _READ,
    "lpt_crc16_more": (U16, *_READ),
    "lpt_packet_length": (*_READ, POINTER),
    "lpt_find_piece": (*_READ, U32, U32, POINTER, POINTER),
    "lpt_count_strays": (*_READ, U32, POINTER, SIZE),
    "lpt_read_packet": (*_READ, POINTER),
    "lpt_write_packet": (U32, U16, U16, *_READ, *_WRITE),
    "lpt_build_packet": (U32, U16, U16, SIZE, *_WRITE),
    "lpt_read_tc": (*_READ, POINTER),
    "lpt_write_tc": (POINTER, *_READ, *_WRITE),
    "lpt_build_tc": (POINTER, SIZE, *_WRITE),
    "lpt_request_id": (POINTER, POINTER),
    "lpt_read_tm": (*_READ, POINTER),
    "lpt_write_tm": (POINTER, *_READ, *_WRITE),
    "lpt_build_tm": (POINTER, SIZE, *_WRITE),
    "lpt_part_kind": (U32, U8, U8),
    "lpt_part_count": (SIZE, U32),
    "lpt_slice_part": (*_READ, U32, U16, U16, POINTER, *_WRITE),
    "lpt_read_part": (U32, *_READ, U32, POINTER),
    "lpt_write_part": (U32, U16, U16, *_READ, U32, *_WRITE),
    "lpt_build_part": (U32, U16, U16, SIZE, U32, *_WRITE),
    "lpt_read_abort": (*_READ, POINTER),
    "lpt_write_abort": (U16, U16, *_WRITE),
    "lpt_read_report": (U8, *_READ, POINTER),
    "lpt_write_report": (U8, U32, U16, *_WRITE),
    "lpt_write_load": (U8, U32, *_READ, *_WRITE),
    "lpt_write_dump": (U8, POINTER, SIZE, *_WRITE),
    "lpt_write_check": (U8, POINTER, SIZE, *_WRITE),
    "lpt_read_dump": (*_READ, SIZE, POINTER),
    "lpt_read_check": (*_READ, SIZE, POINTER),
}
_OF_END: dict[str, tuple[Any, ...]] = {
    "lpt_end_new": (POINTER, U32, POINTER, POINTER, SIZE, *_READ),
    "lpt_end_free": (POINTER,),
    "lpt_end_packet": (POINTER, *_READ, POINTER),
    "lpt_end_released": (POINTER, *_WRITE),
    "lpt_end_expire": (POINTER, POINTER),
    "lpt_end_give_up": (POINTER, POINTER),
    "lpt_end_open": (POINTER, POINTER, *_READ),
    "lpt_end_part": (POINTER, POINTER, U16),
    "lpt_end_plain": (POINTER, U16, U8, U8, U8, *_READ),
    "lpt_end_finish": (POINTER, POINTER),
    "lpt_end_outgoing": (POINTER, *_WRITE),
    "lpt_end_sent": (POINTER,),
    "lpt_end_read": (POINTER,),
    "lpt_end_execute": (POINTER, POINTER),
    "lpt_end_memory": (POINTER, U8, *_WRITE),
    "lpt_end_memory_range": (POINTER, U8, U32, *_READ),
    "lpt_end_tick": (POINTER,),
    "lpt_end_tick_many": (POINTER, U32),
    "lpt_end_rebase": (POINTER, U32),
    "lpt_end_retire": (POINTER, U32, POINTER),
    "lpt_end_name": (POINTER, U32, POINTER, POINTER),
    "lpt_end_closed": (POINTER, U32, POINTER, POINTER),
    "lpt_end_view": (POINTER, POINTER),
    "lpt_end_reception": (POINTER, SIZE, POINTER),
    "lpt_end_missing": (POINTER, POINTER, U16, POINTER),
    "lpt_end_sender": (POINTER, SIZE, POINTER),
    "lpt_end_restart": (POINTER,),
    "lpt_end_state": (POINTER, *_WRITE),
    "lpt_end_resume": (POINTER, U32, POINTER, *_READ, POINTER, SIZE, *_READ),
    "lpt_end_asked": (POINTER, POINTER, POINTER),
    "lpt_end_asked_area": (POINTER, SIZE, POINTER),
    "lpt_end_drop": (POINTER,),
    "lpt_end_new_sized": (POINTER, POINTER, POINTER, SIZE),
    "lpt_end_resume_sized": (POINTER, POINTER, *_READ, POINTER, SIZE),
    "lpt_end_access": (POINTER, SIZE, POINTER),
    "lpt_end_access_octets": (POINTER, SIZE, *_WRITE),
    "lpt_end_execute_given": (POINTER, *_READ, POINTER),
    "lpt_end_refuse": (POINTER, U16, POINTER),
    "lpt_end_drop_read": (POINTER,),
}
_OF_GROUND: dict[str, tuple[Any, ...]] = {
    "lpt_ground_new": (POINTER, POINTER, POINTER, SIZE, *_READ),
    "lpt_ground_free": (POINTER,),
    "lpt_ground_next": (POINTER, POINTER),
    "lpt_ground_outgoing": (POINTER, *_WRITE),
    "lpt_ground_sent": (POINTER,),
    "lpt_ground_packet": (POINTER, *_READ),
    "lpt_ground_quiet": (POINTER,),
    "lpt_ground_close": (POINTER,),
    "lpt_ground_progress": (POINTER, POINTER),
    "lpt_ground_fate": (POINTER, SIZE, POINTER),
    "lpt_ground_report": (POINTER, SIZE, *_WRITE),
    "lpt_ground_dumped": (POINTER, SIZE, *_WRITE),
    "lpt_ground_agrees": (POINTER, *_READ, POINTER),
}


def folder() -> pathlib.Path:
    """The folder of the libraries: that of FORGESILVER_LIB, if it is set; otherwise the first of
    these that has them: the package's own, the `lib` in which it is installed, and `build` of its
    checkout."""
    here = pathlib.Path(__file__).resolve().parent
    above = list(here.parents)
    places = [here, *above[2:3], *(it / "build" for it in above[1:2])]
    if os.environ.get("FORGESILVER_LIB"):
        places = [pathlib.Path(os.environ["FORGESILVER_LIB"]).resolve()]
    for place in places:
        if all((place / it).is_file() for it in (CODECS, END, GROUND)):
            return place
    said = ", ".join(map(str, places))
    raise ImportError(f"forgesilver: {CODECS}, {END} and {GROUND} aren't in {said}: run "
                      "./build-c, or name their folder in FORGESILVER_LIB")


# What the calls answer that don't answer a U32.
_ANSWERS = {
    "lpt_crc16": U16, "lpt_crc16_more": U16, "lpt_end_free": None, "lpt_ground_free": None,
}


class _Library:
    """A library, which is loaded when one of its calls is first used: what asks only the program needs none."""

    def __getattr__(self, call: str) -> Any:
        # Python asks this only of what isn't there yet.
        if call.startswith("lpt_") and not _LOADED:
            _load()
        return object.__getattribute__(self, call)


codecs, end, ground = _Library(), _Library(), _Library()
_LIBRARIES = [
    (codecs, CODECS, _OF_CODECS), (end, END, _OF_END), (ground, GROUND, _OF_GROUND),
]
# The files of the libraries that were loaded.
_LOADED: list[pathlib.Path] = []


def version() -> str:
    """The version of the libraries. It ends in `+unproved` if one of them is of `./build-c --unproved`: so says its
    file, in the section .comment, unless that was stripped."""
    if not _LOADED:
        _load()
    mark = f"forgesilver {VERSION}+unproved".encode()
    is_unproved = any(mark in it.read_bytes() for it in _LOADED)
    return f"{VERSION}+unproved" if is_unproved else VERSION


def _loaded(path: pathlib.Path, calls: dict[str, tuple[Any, ...]]) -> dict[str, Any]:
    """The calls of a shared library, each of which knows what it takes and answers."""
    try:
        library = ctypes.PyDLL(str(path))
        found = {name: getattr(library, name) for name in calls}
    except (OSError, AttributeError) as error:
        raise ImportError(f"forgesilver: {path}: {error}") from error
    for name, call in found.items():
        call.argtypes, call.restype = calls[name], _ANSWERS.get(name, U32)
    return found


def _load() -> None:
    """Loads the libraries, which are of the package's version."""
    place = folder()
    loaded = [_loaded(place / name, calls) for _, name, calls in _LIBRARIES]
    found = loaded[0]["lpt_version"]()
    if found != VERSION_NUMBER:
        raise ImportError(f"forgesilver: {place / CODECS} is of version {_dotted(found)}, and the "
                          f"package of {VERSION}")
    for (library, _, _), calls in zip(_LIBRARIES, loaded):
        vars(library).update(calls)
    _LOADED[:] = [place / name for _, name, _ in _LIBRARIES]


def _dotted(number: int) -> str:
    """A version's number, as it is written."""
    return f"{number // 1000000}.{number // 1000 % 1000}.{number % 1000}"


# ---- octets in ----

# A view of no more octets than these is copied, which is quicker than to ask where it stands.
_QUICKLY_COPIED = 4096


class _Buffer(ctypes.Structure):
    """Python's Py_buffer."""

    _fields_ = [
        ("at", POINTER), ("of", POINTER), ("len", ctypes.c_ssize_t),
        ("itemsize", ctypes.c_ssize_t), ("readonly", ctypes.c_int), ("ndim", ctypes.c_int),
        ("format", POINTER), ("shape", POINTER), ("strides", POINTER), ("suboffsets", POINTER),
        ("internal", POINTER),
    ]


def _has_addresses() -> bool:
    """Whether Python says where a buffer stands, and its lock keeps others from writing there."""
    is_locked = getattr(sys, "_is_gil_enabled", lambda: True)()
    return is_locked and hasattr(ctypes, "pythonapi")


_HAS_ADDRESSES = _has_addresses()
if _HAS_ADDRESSES:
    _get = ctypes.pythonapi.PyObject_GetBuffer
    _get.argtypes, _get.restype = (ctypes.py_object, ctypes.POINTER(_Buffer), ctypes.c_int), int
    _release = ctypes.pythonapi.PyBuffer_Release
    _release.argtypes, _release.restype = (ctypes.POINTER(_Buffer),), None


def view_of(octets: Octets) -> memoryview:
    """A view of octets, one after the other; TypeError of what has none."""
    view = memoryview(octets)
    if view.format == "B" and view.ndim == 1 and view.c_contiguous:
        return view
    try:
        return view.cast("B")
    except ValueError:
        # The formats of ctypes can't be cast.
        return memoryview(view.tobytes())


def has_octets(it: object) -> bool:
    """Whether it is taken as octets."""
    try:
        memoryview(it)  # type: ignore[arg-type]
    except TypeError:
        return False
    return True


class Given:
    """Octets for a call that reads them: `at` and `len`, as long as this is kept."""

    __slots__ = ("at", "kept", "len")

    def __init__(self, octets: Octets) -> None:
        self.at: Union[bytes, int]
        if type(octets) is bytes:
            self.at, self.len, self.kept = octets, len(octets), None
            return
        view = view_of(octets)
        self.len = view.nbytes
        if self.len <= _QUICKLY_COPIED or not _HAS_ADDRESSES:
            self.at, self.kept = view.tobytes(), None
            return
        buffer = _Buffer()
        _get(view, buffer, 0)
        self.at = buffer.at
        _release(buffer)
        # The view keeps its octets where they are.
        self.kept = view


def piece_of(octets: Octets, at: int, length: int) -> Held:
    """A piece of octets: of a view a view, of all else a copy."""
    if type(octets) is bytes:
        return octets[at : at + length]
    piece = view_of(octets)[at : at + length]
    return piece if isinstance(octets, memoryview) else piece.tobytes()


# ---- octets out ----

LONGEST_PACKET = 65542
_BYTE = ctypes.c_char


class Room:
    """A buffer of this length for a call that writes: its `at`, what it `needed`, and then
    `octets`."""

    __slots__ = ("at", "buffer", "len", "needed", "needs", "_pin")

    def __init__(self, length: int) -> None:
        self.buffer = bytearray(length or 1)
        self.len = length
        self._pin = _BYTE.from_buffer(self.buffer)
        self.at = ctypes.addressof(self._pin)
        self.needed = SIZE(0)
        self.needs = ctypes.addressof(self.needed)

    def octets(self) -> bytes:
        """What a call wrote."""
        return bytes(memoryview(self.buffer)[: self.needed.value])


# ---- numbers, and what has fields ----


def number(value: Any, most: int, what: str, least: int = 0) -> int:
    """A whole number of this range; TypeError of what is none, `Range` of another."""
    value = operator.index(value)
    if not least <= value <= most:
        raise Range(f"{what} is {value}, and not {least:,} to {most:,}")
    return int(value)


_T = TypeVar("_T")


def of_kind(it: _T, kind: Union[type, "tuple[type, ...]"]) -> _T:
    """What is given; TypeError if it isn't of this kind."""
    if not isinstance(it, kind):
        kinds = kind if isinstance(kind, tuple) else (kind,)
        raise TypeError(f"{it!r:.80} is no {' or '.join(each.__name__ for each in kinds)}")
    return it
