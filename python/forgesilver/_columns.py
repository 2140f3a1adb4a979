"""The objects that the program prints as JSON, one in each line, as columns. Not for the caller.

Lines that differ in their digits alone are one table of octets. All numbers in it are read by one product with powers
of ten: this takes a fraction of the time that an object for each line would.
"""

from __future__ import annotations

import importlib
import re
from typing import Any, Iterable, Iterator, NamedTuple, Optional

# As a value, so that types can be looked at where numpy isn't there.
numpy: Any = importlib.import_module("numpy")

# Lines of one shape have the same octets here. A text may have hexadecimal digits, or be a date.
_SHAPE = bytes.maketrans(b"123456789abcdef", b"0" * 15)
_FIELD = re.compile(rb'"(\w+)":(?:"([^"]*)"|(\d+)|(true|false))')
_DATE = re.compile(rb"(\d{4})-(\d\d)-(\d\d)T(\d\d):(\d\d):(\d\d)(?:\.(\d{1,9})\d*)?")
_ZERO, _LINE_END, _SECOND = numpy.uint8(ord("0")), ord("\n"), 10**9
_FACTORS = numpy.random.default_rng(7).integers(1 << 63, size=1 << 13, dtype=numpy.uint64) * numpy.uint64(2) + numpy.uint64(1)
# What a truth's name ends in as long as it is a text.
_TRUTH = "?"
# The years of which each nanosecond is a datetime64; if others come, the column has microseconds.
_YEARS = 1678, 2261


class Shape(NamedTuple):
    """What lines of a shape have: the names of the numbers, where digits stand, and how much each counts in each
    number; the names of the texts, and where they stand. A date is seven numbers, the last of them as many digits of
    a second's fraction as `places` says."""

    numbers: tuple[str, ...]
    digits: Any
    powers: Any
    texts: tuple[str, ...]
    spans: list[tuple[int, int]]
    places: int


class Table(NamedTuple):
    """Lines that came: their numbers, the values of their fields that are numbers, and of those that are texts, each
    with its octets in every line or once if all lines have the same."""

    at: Any
    values: Any
    texts: list[Any]


class Columns:
    """The columns of the lines that came; if names are given, only of these fields."""

    def __init__(self, names: Optional[Iterable[str]] = None) -> None:
        self.count = 0
        self._names = None if names is None else set(names)
        self._order: dict[str, None] = {}
        self._shapes: dict[bytes, Shape] = {}
        self._tables: dict[Any, list[Table]] = {}

    def read(self, octets: bytes) -> None:
        """Reads whole lines."""
        lines = numpy.frombuffer(octets, numpy.uint8)
        ends = numpy.flatnonzero(lines == _LINE_END)
        starts = numpy.concatenate(([0], ends[:-1] + 1))
        shapes = numpy.frombuffer(octets.translate(_SHAPE), numpy.uint8)
        for at in _of_one_shape(shapes, starts, ends - starts):
            first, end = int(starts[at[0]]), int(ends[at[0]])
            shape = self._shape_of(shapes[first:end].tobytes(), octets[first:end])
            self._put(shape, at + self.count, _rows(lines, starts[at], end - first))
        self.count += len(ends)

    def _put(self, shape: Shape, at: Any, rows: Any) -> None:
        """Puts lines of one shape, whose octets are rows."""
        digits = rows.take(shape.digits, 1) - _ZERO
        texts = []
        for start, end in shape.spans:
            text = rows[:, start:end]
            is_one = bool((text == text[0]).all())
            texts.append(text[0].tobytes() if is_one else numpy.ascontiguousarray(text))
        key = shape.numbers, shape.texts, shape.places
        self._tables.setdefault(key, []).append(Table(at, digits.astype(numpy.float64) @ shape.powers, texts))

    def _shape_of(self, key: bytes, line: bytes) -> Shape:
        """The shape of a line."""
        if key not in self._shapes:
            self._shapes[key] = _shape(line, self._names)
            self._order.update(dict.fromkeys(it[1].decode() for it in _FIELD.finditer(line)))
        return self._shapes[key]

    def all(self) -> dict[str, tuple[Any, Any]]:
        """Of each field that some line has the values, and which lines have it. Texts are objects, dates are
        datetime64, truths are truths, and all else are numbers."""
        found: dict[str, list[tuple[Any, Any]]] = {}
        for (numbers, texts, places), tables in self._tables.items():
            at = numpy.concatenate([it.at for it in tables])
            values = numpy.concatenate([it.values for it in tables]).astype(numpy.int64).T
            for name, its in zip(numbers, values):
                if name:
                    found.setdefault(name, []).append((at, its))
            if "date" not in texts and numbers[-1:] == ("",):
                found.setdefault("date", []).append((at, _dates(values[-7:], places)))
            for k, name in enumerate(texts):
                its = _texts([(len(it.at), it.texts[k]) for it in tables])
                if name.endswith(_TRUTH):
                    name, its = name[: -len(_TRUTH)], its == "true"
                found.setdefault(name, []).append((at, its))
        return {name: self._column(found[name]) for name in self._order if name in found}

    def _column(self, found: list[tuple[Any, Any]]) -> tuple[Any, Any]:
        """A column of what lines have."""
        kinds = {it.dtype.str for _, it in found}
        kind = numpy.dtype(min(kinds) if len(kinds) == 1 else "M8[us]" if "<M8[us]" in kinds else object)
        values: Any = numpy.full(self.count, None, object) if kind == object else numpy.zeros(self.count, kind)
        has: Any = numpy.zeros(self.count, bool)
        for at, its in found:
            values[at], has[at] = its, True
        if kind.kind == "M":
            values[~has] = numpy.datetime64("NaT")
        return values, has


def pieces(octets: Iterable[bytes]) -> Iterator[bytes]:
    """Octets that came, cut behind the ends of lines."""
    left = b""
    for piece in octets:
        cut = piece.rfind(b"\n") + 1
        if cut:
            yield b"".join([left, memoryview(piece)[:cut]])
            left = b""
        left += piece[cut:]
    if left:
        yield left + b"\n"


def _shape(line: bytes, names: Optional[set[str]]) -> Shape:
    """The shape of a line."""
    numbers: list[tuple[str, int, int]] = []
    dates: list[tuple[str, int, int]] = []
    texts, spans, places = [], [], 0
    for it in _FIELD.finditer(line):
        name, kind = it[1].decode(), it.lastindex or 0
        date = _DATE.fullmatch(it[2]) if kind == 2 else None
        if names is not None and name not in names:
            continue
        if kind == 3:
            numbers.append((name, it.start(3), it.end(3)))
        elif date is not None:
            dates = [("", it.start(2) + date.start(k), it.start(2) + date.end(k)) for k in range(1, 8)]
            places = max(date.end(7) - date.start(7), 0)
            dates = dates if places else [*dates[:6], ("", 0, 0)]
        else:
            texts.append(name if kind == 2 else name + _TRUTH)
            spans.append(it.span(kind))
    numbers += dates
    digits = numpy.array([at for _, start, end in numbers for at in range(start, end)], int)
    powers = numpy.zeros((len(digits), len(numbers)))
    row = 0
    for k, (_, start, end) in enumerate(numbers):
        powers[row : row + end - start, k] = 10.0 ** numpy.arange(end - start - 1, -1, -1)
        row += end - start
    return Shape(tuple(it[0] for it in numbers), digits, powers, tuple(texts), spans, places)


def _rows(octets: Any, starts: Any, length: int) -> Any:
    """A row for each place: so many octets from there on."""
    rows = numpy.lib.stride_tricks.as_strided(octets, (len(octets) - length + 1, length), (1, 1), writeable=False)
    return rows[starts]


def _of_one_shape(shapes: Any, starts: Any, lengths: Any) -> Iterator[Any]:
    """The numbers of the lines of each shape."""
    order = numpy.argsort(lengths, kind="stable")
    for of_length in numpy.split(order, numpy.flatnonzero(numpy.diff(lengths[order])) + 1):
        length = int(lengths[of_length[0]])
        if length:
            marks = _marks(shapes, starts[of_length], length)
            inner = numpy.argsort(marks, kind="stable")
            yield from numpy.split(of_length[inner], numpy.flatnonzero(numpy.diff(marks[inner])) + 1)


def _marks(octets: Any, starts: Any, length: int) -> Any:
    """A number of 64 bits for each of these lines, another one for another line. No line is shorter than 8 octets."""
    words = _rows(octets, starts, length // 8 * 8).view(numpy.uint64)
    last = _rows(octets, starts + (length - 8), 8).view(numpy.uint64)[:, 0]
    return words @ _FACTORS[: words.shape[1]] + last * _FACTORS[-1]


def _texts(found: list[tuple[int, Any]]) -> Any:
    """The texts of so many lines each: one for all of them, or one for each."""
    return numpy.concatenate([
        numpy.full(count, it.decode(), object) if isinstance(it, bytes)
        else it.view(f"S{it.shape[1]}")[:, 0].astype("U").astype(object)
        for count, it in found
    ])


def _dates(values: Any, places: int) -> Any:
    """The dates of years, months, days, hours, minutes, seconds and fractions of seconds of so many digits. A leap
    second is the last nanosecond before it."""
    year, month, day, hour, minute, second, parts = values
    is_leap = second == 60
    parts = numpy.where(is_leap, _SECOND - 1, parts * 10 ** (9 - places))
    days = ((year - 1970) * 12 + month - 1).astype("M8[M]").astype("M8[D]").astype(numpy.int64) + day - 1
    seconds = days * 86400 + hour * 3600 + minute * 60 + second - is_leap
    if len(year) and (year.min() < _YEARS[0] or year.max() > _YEARS[1]):
        return (seconds * 10**6 + parts // 1000).astype("M8[us]")
    return (seconds * _SECOND + parts).astype("M8[ns]")
