"""How all pictures look: their colours in the light and in the dark, and a page whose units are points."""

from __future__ import annotations

import html
import io
import math
import os
import pathlib
import re
from collections.abc import Sequence
from typing import Any, Union

import matplotlib  # type: ignore[import]
from matplotlib.backends.backend_agg import FigureCanvasAgg  # type: ignore[import]
from matplotlib.collections import PolyCollection  # type: ignore[import]
from matplotlib.figure import Figure  # type: ignore[import]
from matplotlib.lines import Line2D  # type: ignore[import]
from matplotlib.patches import FancyBboxPatch, Rectangle  # type: ignore[import]
from matplotlib.text import Text  # type: ignore[import]

#: A line's dashes, as matplotlib has them: `-`, or where they begin and how long they and their gaps are.
Dashes = Union[str, "tuple[float, tuple[float, ...]]"]

# Blue and vermilion, of Okabe and Ito, keep apart for all eyes; no colour stands alone for a meaning.
LIGHT = {
    "page": "#ffffff", "ink": "#1a1a1a", "grey": "#696969", "rule": "#d2d2d2", "band": "#f5f6f7", "up": "#0b5fa5",
    "down": "#b34700", "upfill": "#a9cdea", "downfill": "#f3c3a0", "job": "#5b3a8e", "jobfill": "#d3c6e8",
    "bad": "#b00021", "good": "#00684d", "goodfill": "#cfe9df", "badfill": "#f6c9cf",
}
DARK = {
    "page": "#16181b", "ink": "#e9e9ea", "grey": "#a2a4a8", "rule": "#3c4046", "band": "#1e2125", "up": "#6db5f2",
    "down": "#f59a58", "upfill": "#24517a", "downfill": "#7a4520", "job": "#bfa2f2", "jobfill": "#4d3c72",
    "bad": "#ff7d8c", "good": "#5fcfa9", "goodfill": "#1d5a47", "badfill": "#6b2530",
}
THEMES = {"light": LIGHT, "dark": DARK}
# Matplotlib brings these two; a viewer of an SVG may have others.
MONO, SANS = "DejaVu Sans Mono", "DejaVu Sans"
FONTS = {
    f"'{MONO}'": f"'{MONO}', Menlo, Consolas, monospace",
    f"'{SANS}'": f"'{SANS}', Helvetica, Arial, sans-serif",
}
#: How wide a monospaced letter is, and about how wide one of a title, in ems.
WIDE, WIDE_TITLE = 0.602, 0.63
TITLE = 12.5


class Picture(Figure):  # type: ignore[misc]
    """A figure that a notebook shows as SVG, whatever its backend, and what stands under the pointer."""

    tips: dict[str, str]

    def _repr_svg_(self) -> str:
        return svg(self)


class Page:
    """A figure whose units are points, with y going down."""

    def __init__(self, width: float, height: float, theme: str = "light") -> None:
        self.colours = THEMES[theme]
        self.width, self.height = math.ceil(width), math.ceil(height)
        self.figure = Picture(figsize=(self.width / 72, self.height / 72), facecolor=self.colours["page"])
        self.figure.tips = {}
        FigureCanvasAgg(self.figure)
        self.axes = self.figure.add_axes((0, 0, 1, 1))
        self.axes.set(xlim=(0, self.width), ylim=(self.height, 0))
        self.axes.set_axis_off()

    def title(self, lines: Sequence[str], said: str) -> None:
        """The title, and a line below it."""
        for k, line in enumerate(lines):
            self.text(24, 26 + 17 * k, line, size=TITLE, bold=True, sans=True)
        self.text(24, 28 + 17 * len(lines), said, "grey")

    def text(
        self, x: float, y: float, said: str, colour: str = "ink", size: float = 9, align: str = "left", *,
        bold: bool = False, sans: bool = False, tip: str = "", turn: float = 0,
    ) -> None:
        """A line of text, whose middle is at this height."""
        at = Text(
            x, y, said.replace("$", r"\$"), color=self.colours[colour], fontsize=size, ha=align,
            va="center" if turn else "center_baseline", weight="bold" if bold else "normal",
            family=SANS if sans else MONO, rotation=turn, zorder=6,
        )
        self._add(at, tip)

    def line(
        self, xs: Sequence[float], ys: Sequence[float], colour: str, width: float = 1.4, dashes: Dashes = "-",
        z: float = 3, tip: str = "",
    ) -> None:
        """A line through these points."""
        at = Line2D(
            xs, ys, color=self.colours[colour], linewidth=width, linestyle=dashes, zorder=z,
            solid_capstyle="round", dash_capstyle="butt", solid_joinstyle="round",
        )
        self._add(at, tip)

    def mark(
        self, x: float, y: float, shape: str, size: float, colour: str, fill: str | None = None,
        width: float = 1.3, tip: str = "",
    ) -> None:
        """A marker of matplotlib's, filled with its own colour if no other is given."""
        at = Line2D(
            [x], [y], marker=shape, markersize=size, color=self.colours[colour], zorder=5, linestyle="none",
            markerfacecolor=self.colours[fill or colour], markeredgewidth=width,
        )
        self._add(at, tip)

    def box(
        self, x: float, y: float, wide: float, high: float, fill: str | None, edge: str | None = None,
        width: float = 0.9, dashes: Dashes = "-", z: float = 1, corner: float = 0, tip: str = "",
    ) -> None:
        """A rectangle from its upper left corner."""
        look = {
            "facecolor": self.colours[fill] if fill else "none", "linewidth": width, "linestyle": dashes,
            "edgecolor": self.colours[edge] if edge else "none", "zorder": z,
        }
        at = Rectangle((x, y), wide, high, **look)
        if corner:
            at = FancyBboxPatch((x, y), wide, high, boxstyle=f"round,pad=0,rounding_size={corner}", **look)
        self._add(at, tip)

    def boxes(self, boxes: Sequence[tuple[float, float, float, float]], fill: str, z: float) -> None:
        """Many rectangles of one colour, each by its upper left corner, width and height."""
        corners = [[(x, y), (x + wide, y), (x + wide, y + high), (x, y + high)] for x, y, wide, high in boxes]
        self._add(PolyCollection(corners, facecolors=self.colours[fill], linewidths=0, zorder=z))

    def _add(self, artist: Any, tip: str = "") -> None:
        """Draws a thing, with what stands under the pointer over it."""
        self.axes.add_artist(artist)
        if tip:
            name = f"tip{len(self.figure.tips)}"
            artist.set_gid(name)
            self.figure.tips[name] = tip


def cut(text: str, most: int) -> str:
    """A text of at most so many letters."""
    return text if len(text) <= most else text[: most - 1] + "…"


def plural(count: int, word: str) -> str:
    """A count of something, in words."""
    return f"{count} {word}{'s' * (count != 1)}"


def _dark_rules() -> str:
    """What a viewer with a dark theme draws: each colour of the dark theme in place of the light one."""
    rules = "".join(
        f'[style*="{what}: {light}"]{{{what}:{DARK[name]}!important}}'
        for name, light in LIGHT.items() for what in ("fill", "stroke")
    )
    return f"@media(prefers-color-scheme:dark){{{rules}}}"


def svg(figure: Picture) -> str:
    """A picture as SVG: texts stay texts, and what a thing is stands under the pointer. A picture of the light
    theme is dark in a viewer with a dark one."""
    kept = io.StringIO()
    with matplotlib.rc_context({"svg.fonttype": "none", "svg.hashsalt": "forgesilver"}):
        figure.savefig(kept, format="svg", metadata={"Date": None, "Creator": None})
    text = re.sub(
        r'<g id="(tip\d+)">', lambda it: f"<g><title>{html.escape(figure.tips[it[1]])}</title>", kept.getvalue()
    )
    for font, others in FONTS.items():
        text = text.replace(font, others)
    return text.replace("</style>", f"</style><style>{_dark_rules()}</style>", 1)


def save(figure: Picture, path: str | os.PathLike[str], dpi: float = 150) -> None:
    """Writes a picture as SVG, PNG or PDF, by the path's ending."""
    if os.fspath(path).endswith(".svg"):
        pathlib.Path(path).write_text(svg(figure), encoding="utf-8")
    else:
        with matplotlib.rc_context({"pdf.fonttype": 42}):
            figure.savefig(path, dpi=dpi)
