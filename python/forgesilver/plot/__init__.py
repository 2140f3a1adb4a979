"""Pictures, each a figure of matplotlib, which a notebook shows: of a script's `run`, of a `stream` of packets, and
of a `contact`. What they show is what the program `lpt` prints. `save` writes one as SVG, PNG or PDF.
"""

from __future__ import annotations

from ._contact import contact
from ._page import save, svg
from ._run import run
from ._stream import stream

__all__ = ["contact", "run", "save", "stream", "svg"]
