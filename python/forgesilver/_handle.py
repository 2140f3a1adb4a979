"""What ends and jobs share: the address of something in a library. Not for the caller."""

from __future__ import annotations

import sys
import threading
import warnings
from types import FrameType, TracebackType
from typing import Any, ClassVar, Optional, TypeVar

from ._library import Room
from .faults import Empty, raise_fault

ROOM, NOTHING = 103, 109
_H = TypeVar("_H", bound="Handle")


class WrongThread(RuntimeError):
    """An end or a job is used by another thread than the one that made it, or within
    another of its calls."""


class Handle:
    """An address of a library's, which is given back when it is closed. It stays on the thread that
    made it."""

    __slots__ = ("_at", "_is_called", "_thread", "__weakref__")
    _noun: ClassVar[str]
    _free: ClassVar[Any]

    def __init__(self) -> None:
        self._at: Optional[int] = None
        self._is_called, self._thread = False, threading.get_ident()

    def close(self) -> None:
        """Frees it with all its memory. If it is closed already, nothing changes."""
        if self._at is not None:
            self._call(self._let_go)

    def _let_go(self, at: int) -> None:
        """Gives its memory back."""
        self._at = None
        self._free(at)

    @property
    def is_closed(self) -> bool:
        """Whether it was closed."""
        return self._at is None

    def __enter__(self: _H) -> _H:
        if self.is_closed:
            raise Empty
        return self

    def __exit__(
        self,
        kind: Optional[type[BaseException]],
        error: Optional[BaseException],
        trace: Optional[TracebackType],
    ) -> None:
        self.close()

    def __del__(self) -> None:
        if getattr(self, "_at", None) is None:
            return
        try:
            warnings.warn(f"{self!r} wasn't closed", ResourceWarning, stacklevel=2, source=self)
        finally:
            # Another thread leaves it alone, and so its memory isn't given back.
            if threading.get_ident() == self._thread:
                self.close()

    def __reduce__(self) -> Any:
        raise TypeError(f"{self._noun} is neither copied nor pickled")

    def _call(self, function: Any, *words: Any) -> int:
        """Calls a function of the library on it: the answer, or that it was closed."""
        if threading.get_ident() != self._thread:
            raise WrongThread(f"{self._noun} is of another thread")
        if self._is_called and self._is_under_way():
            raise WrongThread(f"a call of {self._noun} is under way")
        # A mark, and no lock that an interrupt, as by Ctrl-C, might leave taken.
        self._is_called = True
        try:
            if self._at is None:
                return Empty.number
            return function(self._at, *words)  # type: ignore[no-any-return]
        finally:
            self._is_called = False

    def _is_under_way(self) -> bool:
        """Whether this call came within another. Else the mark was left by an interrupt: Python 3.9
        lets one in as a call ends."""
        frame: Optional[FrameType] = sys._getframe(2)
        while frame is not None:
            if frame.f_code is Handle._call.__code__ and frame.f_locals.get("self") is self:
                return True
            frame = frame.f_back
        return False

    def _done(self, function: Any, *words: Any) -> None:
        """The same of a call that has to end well."""
        fault = self._call(function, *words)
        if fault:
            raise_fault(fault)

    def _copied(self, function: Any, room: Room, *words: int) -> Optional[bytes]:
        """The octets that a call copies, by way of this room or of a longer one; None where there
        are none."""
        fault = self._call(function, *words, room.at, room.len, room.needs)
        if fault == ROOM:
            room = Room(room.needed.value)
            fault = self._call(function, *words, room.at, room.len, room.needs)
        if fault == NOTHING:
            return None
        raise_fault(fault)
        return room.octets()
