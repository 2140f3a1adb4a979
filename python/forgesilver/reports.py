"""Verification reports (ECSS-E-ST-70-41C, service 1)."""

from __future__ import annotations

from ctypes import byref
from dataclasses import dataclass
from typing import Optional, Union

from . import _library
from ._library import Given, Octets, Room, number, of_kind
from .faults import NoReport, raise_fault
from .kinds import Failure, ReportKind
from .space_packets import Telemetry

#: The service type of request verification.
SERVICE = 1

_codecs = _library.codecs
_FAILURES = {int(it): it for it in Failure}


@dataclass(frozen=True)
class VerificationReport:
    """What a verification report says of a request: what was reached, or why it failed. A failure
    code that isn't one of `Failure` is a number."""

    kind: ReportKind
    request_id: int
    code: Union[Failure, int, None] = None

    @property
    def has_failed(self) -> bool:
        """Whether it is the report of a failure."""
        return self.kind in (ReportKind.NOT_ACCEPTED, ReportKind.NOT_STARTED)


def read_report(subtype: int, body: Octets) -> VerificationReport:
    """Reads a message's body as the report of this message subtype. Raises `NoReport`."""
    subtype = number(subtype, 255, "the subtype")
    given, out = Given(body), _library.LptReport()
    raise_fault(_codecs.lpt_read_report(subtype, given.at, given.len, byref(out)))
    code: Optional[int] = _FAILURES.get(out.code, out.code) if out.failed else None
    return VerificationReport(ReportKind(subtype), out.request, code)


def write_report(report: VerificationReport) -> bytes:
    """The body of a report; `report.kind` is the subtype of its message. Raises `Range`, also if
    the code of a failure isn't one of `Failure`."""
    kind = number(of_kind(report, VerificationReport).kind, 255, "the kind")
    request = number(report.request_id, 0xFFFFFFFF, "the request ID")
    code, room = number(report.code or 0, 0xFFFF, "the code"), Room(6)
    raise_fault(
        _codecs.lpt_write_report(kind, request, code, room.at, room.len, room.needs)
    )
    return room.octets()


def verification_of(telemetry: Telemetry) -> VerificationReport:
    """The verification report that telemetry carries. Raises `NoReport`."""
    if of_kind(telemetry, Telemetry).service != SERVICE:
        raise NoReport(f"service {telemetry.service}")
    return read_report(telemetry.subtype, telemetry.body)
