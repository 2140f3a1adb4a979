"""What archives have, by the program `lpt`, which is their only reader: `packets` as a frame of pandas, `messages`, the
`image` of a memory, and the `outcomes` of requests.

An archive is a file of packets or a capture, or octets; several are read one behind the other, as one. A place is the
number of an octet in this. `layout` is the path of a mission's layout file. What the program passes over it says in a
`ProgramWarning`; if it can't do what is asked, its words are those of a `ProgramError`.
"""

from __future__ import annotations

import datetime
import importlib
import importlib.util
import json
import os
import pathlib
import re
import subprocess
import tempfile
import warnings
from collections import Counter
from collections.abc import Iterable, Iterator, Sequence
from dataclasses import dataclass
from typing import Any, Literal, NamedTuple, Optional, Union

from . import program
from ._library import Octets, has_octets, view_of
from .kinds import Direction

#: A path, or octets.
Archive = Union[str, "os.PathLike[str]", Octets]
#: One of these, or several.
Archives = Union[Archive, Sequence[Archive]]

#: The columns of `packets`: the names of `lpt list --json`. Those of _TEXTS are texts, `date` is a date, and all else are
#: numbers, but for `time`, which is hexadecimal digits where a layout's time has a code or more than 4 octets.
COLUMNS = (
    "place", "length", "packet_type", "application_process_id", "packet_sequence_count",
    "acknowledgement_flags", "spacecraft_time_reference_status", "service_type", "message_subtype",
    "message_type_counter", "source_id", "destination_id", "time", "date", "spare", "part",
    "large_message_transaction_identifier", "part_sequence_number", "part_octets", "memory_id", "areas",
    "start_address", "area_length", "request_id", "failure_code", "failure_reason", "sequence_flags",
    "fault_code", "fault",
)
_TEXTS = {"packet_type", "spare", "part", "request_id", "failure", "sequence_flags", "fault"}
_PIECE = 8 << 20
# What `join` says of a message that isn't whole or isn't given, and `extract` of addresses.
_LOST = re.compile(r"lpt: (?:up|down) (?:(\d+)/)?(\d+): (?:from octet (\d+) on, )?(?:missing parts: [\d/]+:(\S+)|(.*))$")
_SPAN = re.compile(r"lpt: memory \d+: (no octets came for )?address(?:es)? (\d+)(?:-(\d+))?(?: came with different octets)?$")
# The source that the program writes as none: the profile's, and that of a layout without a field for it.
_OWN_SOURCE, _NO_SOURCE = 1, 0
# How captures begin, and in which order of octets their numbers are.
_CAPTURES: dict[bytes, Literal["big", "little"]] = {
    b"\xa1\xb2\xc3\xd4": "big", b"\xa1\xb2\x3c\x4d": "big", b"\xd4\xc3\xb2\xa1": "little",
    b"\x4d\x3c\xb2\xa1": "little",
}


class ProgramWarning(UserWarning):
    """What the program said of an archive, for example what it passed over."""


class MessageName(NamedTuple):
    """What names a message in an archive. The source is that of telecommands, and the destination of telemetry."""

    direction: Direction
    apid: int
    source: int
    id: int

    def __str__(self) -> str:
        return f"{self.direction.name.lower()} {self.source}/{self.id} of APID {self.apid}"


@dataclass(frozen=True, repr=False)
class Message:
    """A message of an archive, or what came of one that isn't whole.

    - octets: the message, or None
    - place: of the packet with which it became whole
    - first: the place of its first part that came
    - date: of the packet at `place`, if the layout's time is a code
    - missing: the parts that are missing of one that isn't whole, as `2,4,12-`
    - fault: why one that is whole isn't given, in the program's words
    """

    name: MessageName
    octets: Optional[bytes] = None
    place: Optional[int] = None
    first: Optional[int] = None
    date: Optional[datetime.datetime] = None
    missing: str = ""
    fault: str = ""

    def __repr__(self) -> str:
        if self.octets is not None:
            said = f"{len(self.octets)} octets"
        else:
            said = f"{self.fault:.60}" or f"missing parts {self.missing:.40}"
        at = "" if self.date is None else f", {self.date}"
        return f"<Message {self.name}: {said}{at}>"


@dataclass(frozen=True, repr=False, eq=False)
class Image:
    """An image of a memory.

    - octets: a masked array of numpy, of which the gaps are masked
    - start: the address of its first octet
    - contradictions: the addresses for which areas had different octets
    - said: what the program said
    - is_clean: whether nothing is missing, contradicted or passed over: then `lpt extract` has status 0
    """

    memory: int
    octets: Any
    start: int
    contradictions: tuple[range, ...]
    said: tuple[str, ...]
    is_clean: bool

    def __repr__(self) -> str:
        gaps = int(self.octets.mask.sum())
        against = sum(map(len, self.contradictions))
        said = f"{len(self.octets)} octets from address {self.start}, {gaps} missing, {against} contradicted"
        return f"<Image of memory {self.memory}: {said}>"


def packets(
    paths: Archives,
    *,
    layout: Optional[program.Word] = None,
    apid: Optional[int] = None,
    part_size: Optional[int] = None,
    columns: Optional[Sequence[str]] = None,
    octets: bool = False,
) -> Any:
    """A `pandas.DataFrame` with a row for each packet, of all APIDs and both directions, as `lpt list --json` has them;
    also for damaged ones, and for octets that are no packet. With `apid` only this APID's.

    Its columns are those of `COLUMNS`, or only these `columns`. With `octets` there is another with the octets of each
    row. What a packet lacks is NA. A date is a datetime64, or NaT; a leap second is the last nanosecond before it.
    """
    pandas = _needed("pandas")
    wanted = COLUMNS if columns is None else tuple(columns)
    names = {*wanted, "place", "length", *(["application_process_id"] if apid is not None else [])}
    with _Given(paths) as given:
        words = ["list", "--json", *_options(layout, part_size), *given.words]
        count, found = _read(words, None if columns is None else names)
        if octets:
            wanted, found["octets"] = (*wanted, "octets"), _octets_of(given.words, found, count)
    if columns is None:
        wanted = (*wanted, *(it for it in found if it not in wanted))
    chosen = None
    if apid is not None:
        values, has = found.get("application_process_id", (None, None))
        chosen = [] if has is None else (has & (values == apid)).nonzero()[0]
        count = len(chosen)
    return pandas.DataFrame({it: _series(pandas, it, found.get(it), chosen, count) for it in wanted}, copy=False)


def outcomes(requests: Archive, reports: Archives, *, layout: Optional[program.Word] = None) -> Any:
    """A `pandas.DataFrame` with a row for each request, with what `lpt verify --json` says became of it by these
    reports."""
    pandas = _needed("pandas")
    with _Given(requests) as asked, _Given(reports) as given:
        count, found = _read(["verify", "--json", *_options(layout), *asked.words, *given.words], None)
    return pandas.DataFrame({name: _series(pandas, name, it, None, count) for name, it in found.items()})


def messages(
    paths: Archives,
    *,
    direction: Optional[Direction] = None,
    apid: Optional[int] = None,
    layout: Optional[program.Word] = None,
    part_size: Optional[int] = None,
    any: bool = False,
) -> Iterator[Message]:
    """The messages that `lpt join --each` joins, and what came of those that aren't whole: of all APIDs and both
    directions, or only of this one. They come APID by APID, those of each as the program tells them.

    With `any` a message may be any octets; otherwise it is a packet of its direction. `lpt list` says which APIDs and
    directions have parts. If only one of a layout's tables has a checksum, it reads up to damage: then name both."""
    asked = None if direction is None else Direction(direction)
    options = _options(layout, part_size)
    with _Given(paths) as given:
        dates = _Dates(["list", "--json", "--quiet", *options, *given.words])
        pairs = dates.pairs if asked is None or apid is None else [(asked, apid)]
        for its_direction, its_apid in pairs:
            if asked in (None, its_direction) and apid in (None, its_apid):
                words = ["--apid", f"{its_apid}", *options, *["--any"] * bool(any), *given.words]
                yield from _joined(its_direction, its_apid, words, dates)


def packets_of_messages(
    paths: Archives,
    names: Iterable[MessageName],
    *,
    layout: Optional[program.Word] = None,
    part_size: Optional[int] = None,
) -> bytes:
    """The packets with parts of messages of these names, one behind the other. With them, what isn't whole in each of
    several archives is joined once more, over all of them."""
    wanted, columns = set(names), [*_NAMING, "part"]
    frame = packets(paths, layout=layout, part_size=part_size, columns=columns, octets=True)
    frame = frame[frame["part"].notna() & (frame["part"] != "unread")]
    rows = zip(frame["octets"], *(frame[it].fillna("" if it == "packet_type" else 0) for it in _NAMING))
    return b"".join(it[0] for it in rows if _name_of(*it[1:]) in wanted)


def image(
    paths: Archives,
    memory: int,
    *,
    apid: int,
    layout: Optional[program.Word] = None,
    part_size: Optional[int] = None,
    start: int = 0,
    fill: int = 0,
) -> Image:
    """The image of a memory from the dump reports of an APID, as `lpt extract --join --at` writes it, from the address
    `start` on. A gap is masked, and has the octet `fill`."""
    numpy = _needed("numpy")
    with _Given(paths) as given:
        words = ["--at", f"{memory}", "--from", f"{start}", "--fill", f"{fill}", "--apid", f"{apid}"]
        ran = program.run("extract", "--join", *words, *_options(layout, part_size), *given.words)
    octets = numpy.ma.MaskedArray(numpy.frombuffer(ran.printed, numpy.uint8).copy(), False)
    octets.mask = numpy.zeros(len(octets), bool)
    contradictions = []
    for it in filter(None, map(_SPAN.match, _said(ran.said))):
        span = range(int(it[2]), int(it[3] or it[2]) + 1)
        if it[1]:
            octets.mask[max(span.start - start, 0) : span.stop - start] = True
        else:
            contradictions.append(span)
    return Image(memory, octets, start, tuple(contradictions), tuple(_said(ran.said)), ran.status == 0)


# ---- the program ----


class _Given:
    """Archives as words of a command line: octets are in files until this is left."""

    def __init__(self, archives: Archives) -> None:
        several = not (isinstance(archives, (str, os.PathLike)) or has_octets(archives))
        self._archives: list[Any] = list(archives) if several else [archives]  # type: ignore[arg-type]
        if not self._archives:
            raise ValueError("no archive is given")
        self.words: list[str] = []

    def __enter__(self) -> _Given:
        self._folder = tempfile.TemporaryDirectory(prefix="forgesilver-")
        try:
            self.words = [self._word(at, it) for at, it in enumerate(self._archives)]
        except BaseException:
            self._folder.cleanup()
            raise
        return self

    def __exit__(self, *_: object) -> None:
        self._folder.cleanup()

    def _word(self, at: int, archive: Any) -> str:
        """An archive's path, which is no option."""
        if isinstance(archive, (str, os.PathLike)):
            word = os.fsdecode(archive)
            return f"./{word}" if word.startswith("-") else word
        place = pathlib.Path(self._folder.name, f"{at}")
        place.write_bytes(view_of(archive))
        return str(place)


def _options(layout: Optional[program.Word], part_size: Optional[int] = None) -> list[str]:
    """The options of a command."""
    words = [] if layout is None else ["--layout", os.fsdecode(layout)]
    return words + ([] if part_size is None else ["--part-size", f"{part_size}"])


def _printed(words: list[str]) -> Iterator[bytes]:
    """What a command prints, in long pieces. At its end it is a warning what it said, or an exception if it failed."""
    with tempfile.TemporaryFile() as said:
        with program.start(*words, stdin=subprocess.DEVNULL, said=said) as running:
            assert running.stdout is not None
            try:
                while piece := running.stdout.read(_PIECE):
                    yield piece
            except GeneratorExit:
                running.kill()
                raise
        said.seek(0)
        text = said.read().decode(errors="replace")
    if running.returncode not in program.DONE:
        raise program.failure(words[0], running.returncode, text)
    _warn(_said(text), 6)


def _said(text: str) -> list[str]:
    """What the program said, but that it isn't proved, and how much was damaged, which rows have too."""
    passed = ("lpt: damaged packets:", "lpt: this program is compiled and not proved")
    return [it for it in text.splitlines() if not it.startswith(passed)]


def _warn(said: Iterable[str], level: int) -> None:
    """Warns the caller, so many calls above, of what the program said."""
    for it in said:
        warnings.warn(it, ProgramWarning, level)


def _needed(module: str) -> Any:
    """A module that isn't the package's own."""
    try:
        return importlib.import_module(module)
    except ImportError as error:
        raise ImportError(f"forgesilver reads archives with {module}: {error}") from error


# ---- columns ----


def _read(words: list[str], names: Optional[Iterable[str]]) -> tuple[int, dict[str, Any]]:
    """How many objects a command prints, and their fields: of each the values, and which objects have it."""
    _needed("numpy")
    reader = importlib.import_module("._columns", __package__)
    columns = reader.Columns(names)
    for piece in reader.pieces(_printed(words)):
        columns.read(piece)
    return columns.count, columns.all()


def _series(pandas: Any, name: str, found: Any, chosen: Any, count: int) -> Any:
    """A column of a frame, of these rows."""
    if not found and name == "place":
        return _needed("numpy").zeros(count, "int64")
    if not found:
        kind = "M8[ns]" if name == "date" else _text_kind() if name in _TEXTS else "Int64"
        return pandas.array([None], dtype=kind).repeat(count)
    values: Any = found[0] if chosen is None else found[0][chosen]
    has: Any = found[1] if chosen is None else found[1][chosen]
    if name in ("place", "octets") or values.dtype == "M8[ns]":
        return values
    if values.dtype.kind == "M":
        # Some are out of the range that a datetime64 of nanoseconds has.
        return pandas.Series(values.astype(object))
    if values.dtype == object:
        return pandas.array(values, dtype=_text_kind())
    of = pandas.arrays.BooleanArray if values.dtype == bool else pandas.arrays.IntegerArray
    return of(values, ~has)


def _text_kind() -> str:
    """How texts are kept: by pyarrow, where it is there."""
    return "string" if importlib.util.find_spec("pyarrow") is None else "string[pyarrow]"


def _octets_of(paths: list[str], found: dict[str, Any], count: int) -> Any:
    """The octets of each row, and that all have them."""
    numpy = _needed("numpy")
    archive = b"".join(map(_records, paths))
    places, has_place = found.get("place", (numpy.zeros(0, int), numpy.zeros(0, bool)))
    lengths, has = found.get("length", (places, ~has_place))
    ends = numpy.where(has, places + lengths, numpy.append(places[1:], len(archive)))
    octets = numpy.empty(count, object)
    octets[:] = [archive[at:end] for at, end in zip(places.tolist(), ends.tolist())]
    return octets, has_place


def _records(path: str) -> bytes:
    """A file's octets; of a capture those of its records."""
    octets = pathlib.Path(path).read_bytes()
    order = _CAPTURES.get(octets[:4])
    if order is None:
        return octets
    at, found = 24, []
    while at < len(octets):
        length = int.from_bytes(octets[at + 8 : at + 12], order)
        found.append(octets[at + 16 : at + 16 + length])
        at += 16 + length
    return b"".join(found)


# ---- messages ----

_FIELD_OF_SOURCE = {Direction.UP: "source_id", Direction.DOWN: "destination_id"}
_NAMING = ("packet_type", "application_process_id", "source_id", "destination_id", "large_message_transaction_identifier")


def _name_of(kind: str, apid: int, source: int, destination: int, identifier: int) -> MessageName:
    """The name of the message of a part."""
    if kind == "tc":
        return MessageName(Direction.UP, int(apid), int(source), int(identifier))
    return MessageName(Direction.DOWN, int(apid), int(destination), int(identifier))


class _Dates:
    """Of which directions and APIDs parts came, in the order of their first, and the date of each packet with a part;
    and of each direction the source that the program writes as none."""

    def __init__(self, words: list[str]) -> None:
        names = ["place", "packet_type", "application_process_id", "date", "part", *_FIELD_OF_SOURCE.values()]
        _, found = _read(words, names)
        self._places: Any = None
        self.pairs: list[tuple[Direction, int]] = []
        self.own = dict.fromkeys(Direction, _OWN_SOURCE)
        if "part" not in found:
            return
        chosen = found["part"][1].nonzero()[0]
        kinds, apids = found["packet_type"][0][chosen], found["application_process_id"][0][chosen]
        pairs = dict.fromkeys(zip(kinds.tolist(), apids.tolist()))
        self.pairs = [(Direction.UP if it == "tc" else Direction.DOWN, apid) for it, apid in pairs]
        for direction, kind in ((Direction.UP, "tc"), (Direction.DOWN, "tm")):
            its, field = chosen[kinds == kind], _FIELD_OF_SOURCE[direction]
            if len(its) and not (field in found and found[field][1][its].any()):
                self.own[direction] = _NO_SOURCE
        if "date" in found:
            self._places = found["place"][0][chosen]
            self._dates = found["date"][0][chosen]

    def date(self, place: Optional[int]) -> Optional[datetime.datetime]:
        """The date of the packet at a place."""
        if place is None or self._places is None:
            return None
        at = self._places.searchsorted(place)
        is_there = at < len(self._places) and self._places[at] == place
        found: Optional[datetime.datetime] = self._dates[at].astype("M8[us]").item() if is_there else None
        return found


def _joined(direction: Direction, apid: int, words: list[str], dates: _Dates) -> Iterator[Message]:
    """The messages of an APID in a direction, and what came of those that aren't whole."""
    way, numbers = direction.name.lower(), Counter[str]()
    with tempfile.TemporaryDirectory(prefix="forgesilver-") as folder:
        place = pathlib.Path(folder, "each")
        ran = program.run("join", way, "--each", str(place), *_json_of_join(), *words)
        for it in _told(ran, place, dates.own[direction]):
            source, identifier = _source_and_id(it["name"])
            name, first = MessageName(direction, apid, source, identifier), it.get("from")
            if "missing" in it or "fault" in it:
                yield Message(name, first=first, missing=it.get("missing", ""), fault=it.get("fault", ""))
                continue
            stem = f"{way}-{source}-{identifier}"
            file = place / f"{stem}.{numbers[stem]}"
            numbers[stem] += 1
            yield Message(name, file.read_bytes(), it.get("at"), first, dates.date(it.get("at")))
            file.unlink()
    _warn((it for it in _said(ran.said) if not _LOST.match(it)), 4)


def _told(ran: program.Ran, place: pathlib.Path, own: int) -> list[dict[str, Any]]:
    """What was told of messages, as objects: of whole ones by their files, if the command printed none; then what isn't
    whole, by what it said, as far as no object has it."""
    told: list[dict[str, Any]] = [json.loads(it) for it in ran.printed.splitlines()]
    if not told and place.is_dir():
        files = sorted([int(it) for it in re.findall(r"\d+", file.name)] for file in place.iterdir())
        told = [{"name": f"{source}/{identifier}"} for source, identifier, _ in files]
    has = {key for it in told for key in it}
    for it in filter(None, map(_LOST.match, _said(ran.said))):
        key = "missing" if it[4] else "fault"
        if key not in has:
            name = f"{it[1] or own}/{it[2]}"
            told.append({"name": name, "from": int(it[3]) if it[3] else None, key: it[4] or it[5]})
    return told


def _source_and_id(name: str) -> tuple[int, int]:
    """The source and the ID in a name such as `up 1/7`."""
    source, _, identifier = name.rpartition(" ")[2].rpartition("/")
    return int(source), int(identifier)


def _json_of_join() -> list[str]:
    """The option that has `join --each` print objects, with places, if the program has it."""
    return ["--json"] if b"--json" in program.run("join", "--help").printed else []
