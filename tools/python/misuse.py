"""Wrong uses of the package: each is an exception, and none a crash.

`all_of(WANT)` calls WANT(CASE, GOT, WANTED) for each.
"""

from __future__ import annotations

import copy
import dataclasses
import gc
import inspect
import io
import pickle
import random
import signal
import threading
import warnings

import forgesilver
from forgesilver import Config, Direction, End, Mode, Side, faults

NAME = (1, 7)
CONFIG = Config(part_size=8)
INTERRUPTS = 1000
# Calls of an end, with arguments that it takes.
CALLS = {
    "feed": (b"",), "released": (), "expire": (), "open": (NAME, bytes(20)), "part": (NAME, 1), "parts": (NAME,),
    "plain": (6, 5, b""), "request": (forgesilver.Dump(1, [forgesilver.Area(0, 1)]),), "finish": (NAME,),
    "first": (), "sent": (), "outgoing": (), "read": (), "execute": (), "serve": (), "memory": (1,), "tick": (),
    "retire": (Direction.UP, NAME), "restart": (), "view": (),
}
NAMED = {"plain": {"source": 1}, "request": {"source": 1}}
JUNK = [
    None, 1.5, "text", [], {}, object(), -1, 1 << 70, b"", (), (1,), (1, 2, 3), ("a", "b"), (-1, 1), (1, 1 << 16),
    memoryview(bytes(16))[::2], bytearray(3), bytes(20), 70000, int, End, Side.GROUND, CONFIG, NAME, [NAME], float("nan"),
]


def raised(call, *words, **named):
    """The exception that a call raises, with all that a generator gives; the answer where it raises none."""
    try:
        got = call(*words, **named)
        return list(got) if inspect.isgenerator(got) else got
    except Exception as error:  # noqa: BLE001: whichever it is
        return type(error)


def spacecraft(config: Config = CONFIG) -> End:
    """A spacecraft's end, with a memory."""
    return End(Side.SPACECRAFT, config, {1: bytes(16)})


def closed(want) -> None:
    """Each call of an end that was closed, also one that is under way."""
    with End(Side.GROUND, CONFIG) as ground:
        ground.open(NAME, bytes(20))
        parts = ground.parts(NAME)
        next(parts)
        want("a repr", repr(ground), "<End of ground>")
    want("closed", (ground.is_closed, repr(ground)), (True, "<End of ground, closed>"))
    want("parts, closed", raised(next, parts), faults.Empty)
    ground.close()
    for name, words in CALLS.items():
        want(f"{name}, closed", raised(getattr(ground, name), *words, **NAMED.get(name, {})), faults.Empty)
    want("entered again", raised(ground.__enter__), faults.Empty)


def threads(want) -> None:
    """Each call from another thread; and from many, at once."""
    with spacecraft() as end:
        found = {}

        def call_all() -> None:
            for name, words in [*CALLS.items(), ("close", ())]:
                found[name] = raised(getattr(end, name), *words, **NAMED.get(name, {}))

        others = [threading.Thread(target=call_all) for _ in range(4)]
        for it in others:
            it.start()
        for _ in range(300):
            end.feed(bytes(9))
        for it in others:
            it.join()
        for name in [*CALLS, "close"]:
            want(f"{name}, from another thread", found.get(name), forgesilver.WrongThread)
        want("still open", end.memory(1), bytes(16))
        # As if a signal's handler came within a call.
        want("within a call", end._call(lambda _: raised(end.tick)), forgesilver.WrongThread)
        want("behind it", raised(end.tick), None)
    # An end for each thread, all at once.
    message, joined = random.Random(3).randbytes(5000), []

    def carry() -> None:
        with End(Side.GROUND, CONFIG) as ground, spacecraft() as craft:
            for k in range(4):
                ground.open((1, k), message)
                for packet in ground.parts((1, k)):
                    craft.feed(packet)
                ground.finish((1, k))
                joined.append(craft.released())

    others = [threading.Thread(target=carry) for _ in range(4)]
    for it in others:
        it.start()
    for it in others:
        it.join()
    want("each thread its own", joined == [message] * 16, True)


def interrupts(want) -> None:
    """Interrupts as by Ctrl-C, at any place of a call: they come out as such, and the end goes on."""
    r, found = random.Random(5), []
    packet = next(forgesilver.split(bytes(20), name=NAME, part_size=8, apid=100))
    before = signal.signal(signal.SIGALRM, signal.default_int_handler)
    end = spacecraft()
    for at in range(INTERRUPTS):
        found.append(interrupted(end, packet, r.uniform(2e-5, 4e-4)))
        # Most ends go on; some are closed at once.
        found += [raised(end.state) is faults.Empty, raised(end.memory, 1) != bytes(16)]
        if at % 5 == 0:
            found += [raised(end.close) is not None, not end.is_closed]
            end = spacecraft()
    end.close()
    signal.signal(signal.SIGALRM, before)
    want("interrupted", set(found), {KeyboardInterrupt, False})


def interrupted(end: End, packet: bytes, seconds: float) -> object:
    """What comes out of calls of an end that are interrupted so many seconds from now."""
    try:
        signal.setitimer(signal.ITIMER_REAL, seconds)
        for _ in range(1_000_000):
            end.feed(packet)
    except BaseException as error:  # noqa: BLE001: whichever it is
        return type(error)
    return None


def copies(want) -> None:
    """An end is neither copied nor pickled; one that is dropped warns."""
    with End(Side.GROUND, CONFIG) as ground:
        for make in (copy.copy, copy.deepcopy, pickle.dumps):
            want(make.__name__, raised(make, ground), TypeError)
    with warnings.catch_warnings(record=True) as told:
        warnings.simplefilter("always")
        dropped = End(Side.GROUND, CONFIG)
        del dropped
        gc.collect()
    want("dropped", [it.category for it in told], [ResourceWarning])


def wrong_types(want) -> None:
    """Arguments of other types, in each place of each call: a fault, a TypeError, a ValueError of an enumeration, or
    an answer, and the end goes on."""
    found: set[type] = set()

    def tried(call, *words, **named) -> object:
        got = raised(call, *words, **named)
        # The class of ends has a `read`, as files have.
        is_known = End in words or not isinstance(got, type) or issubclass(got, (TypeError, ValueError, faults.Fault))
        if not is_known:
            found.add(got)
        return got

    with spacecraft() as craft, End(Side.GROUND, CONFIG) as ground:
        for end in (craft, ground):
            for name, words in CALLS.items():
                for at in range(len(words)):
                    for junk in JUNK:
                        tried(getattr(end, name), *words[:at], junk, *words[at + 1 :], **NAMED.get(name, {}))
                want(f"{name} without arguments", raised(getattr(end, name)) is TypeError, bool(words))
        for junk in (None, 1.5, "text", [], {}, object(), 7, memoryview(bytes(16))[::2]):
            want(f"feed {junk!r}", raised(ground.feed, junk), TypeError)
            want(f"open {junk!r}", raised(ground.open, (9, 9), junk), TypeError)
        for junk in (None, 1.5, "t", [], {}, object(), 7):
            want(f"named {junk!r}", raised(ground.finish, junk) in (TypeError, ValueError), True)
        want("alive", (ground.is_closed, craft.memory(1) is not None), (False, True))
    # tests/archives tries those that start the program.
    functions = [it for it in map(vars(forgesilver).get, forgesilver.__all__) if inspect.isfunction(it)]
    functions = [it for it in functions if it.__module__ != "forgesilver.archives"]
    for call in functions:
        for junk in JUNK:
            for words in ((junk,), (junk, junk), (junk, b"12345", 8), (1, junk, 8), (1, b"12345", junk)):
                tried(call, *words)
        want(f"{call.__name__} of nothing", raised(call, None), TypeError)
    for junk in JUNK:
        tried(forgesilver.split, junk, name=junk, part_size=junk, apid=junk)
        tried(forgesilver.split, bytes(20), name=NAME, part_size=8, apid=junk, count=junk)
        tried(forgesilver.Load(1, [junk]).body)
        tried(forgesilver.Dump(1, [junk]).body)
        for words in ((junk,), (Side.GROUND, junk), (Side.SPACECRAFT, CONFIG, junk), (0, CONFIG, {junk: b"1"} if junk.__hash__ else junk)):
            made = tried(End, *words)
            if isinstance(made, End):
                made.close()
    want("other exceptions", found, set())


def each_fault(want) -> None:
    """Faults of each call, by the conditions of the headers."""
    big = Config(part_size=8, outgoing=1, receptions=1, clock=0xFFFFFFFF)
    f, e = forgesilver, faults
    for named, fault in (
        ({"apid": 2047}, e.ConfigApid), ({"apid": 1 << 40}, e.ConfigApid), ({"part_size": 3}, e.ConfigPartSize),
        ({"part_size": -1}, e.ConfigPartSize), ({"timeout": 0}, e.ConfigTimeout), ({"timeout": 65536}, e.ConfigTimeout),
        ({"receptions": 65}, e.ConfigReceptions), ({"outgoing": 0}, e.ConfigOutgoing), ({"clock": 1 << 32}, e.Range),
        ({"mode": 2}, ValueError), ({"apid": "1"}, TypeError),
    ):
        want(f"{named}", raised(End, Side.GROUND, Config(**named)), fault)
    for memories in ({}, {1: b""}, {k: b"1" for k in range(17)}, {1: bytes(1048577)}):
        want(f"{len(memories)} memories", raised(End, Side.SPACECRAFT, CONFIG, memories), e.Memories)
    want("a memory 256", raised(End, Side.SPACECRAFT, CONFIG, {256: b"1"}), e.Range)
    want("a side", raised(End, 2, CONFIG), ValueError)
    load = f.write_telecommand(f.Load(1, [f.Loaded(0, b"1")]).telecommand(apid=100, count=0, source=1))
    with End(Side.GROUND, Config(clock=0xFFFFFFFA)) as late:
        want("ticks", (raised(late.tick, 10), late.view().clock), (e.ClockEnd, 0xFFFFFFFA))
    with End(Side.GROUND, big) as ground, spacecraft(big) as craft:
        want("open", ground.open(NAME, bytes(20)), 3)
        rows = [
            (ground.open, (NAME, bytes(20)), e.InUse), (ground.open, ((1, 8), bytes(8)), e.ShortMessage),
            (ground.open, ((1, 8), bytes(65543)), e.LongMessage), (ground.open, ((1, 8), bytes(9)), e.TooMany),
            (ground.open, ((1, 65536), bytes(9)), e.Range), (ground.part, ((1, 8), 1), e.NotOpen),
            (ground.part, (NAME, 4), e.NoSuchPart), (ground.part, (NAME, 0), e.NoSuchPart),
            (ground.part, (NAME, 65536), e.Range), (ground.parts, (NAME, [1, 4]), e.NoSuchPart),
            (ground.parts, ((1, 9),), e.NotOpen), (ground.finish, ((1, 8),), e.NotOpen),
            (ground.retire, (Direction.UP, NAME), e.StillOpen), (ground.tick, (), e.ClockEnd),
        ]
        for call, words, fault in rows:
            want(f"{call.__name__} {words!r:.40}", raised(call, *words), fault)
        ground.part(NAME, 2)
        want("a packet", [len(it) for it in ground.outgoing()], [25])
        want("sent", raised(ground.sent), e.Nothing)
        want("a part's types", raised(ground.plain, 13, 9, b"", source=1), e.PartRequest)
        want("a long request", raised(ground.plain, 6, 5, bytes(19), source=1), e.LongMessage)
        ground.plain(6, 5, bytes(18), source=1)
        want("the longest", [len(it) for it in ground.outgoing()], [8 + 23])
        want("flags", raised(ground.plain, 6, 5, b"", source=1, flags=16), e.Range)
        want("at the spacecraft", raised(craft.plain, 6, 5, b"", source=1), e.Range)
        nothing = (ground.released(), ground.expire(), ground.first(), ground.read(), ground.execute(), ground.memory(1))
        want("nothing", nothing, (None, None, None, False, None, None))
        want("released", craft.feed(load).length, len(load))
        want("not read", raised(craft.execute), e.NotRead)
        want("read", (craft.read(), craft.read()), (True, False))
        want("executed", craft.execute().kind, f.AppliedKind.CARRIED_OUT)
        craft.feed(load)
        want("unsent", (craft.read(), raised(craft.execute)), (True, e.Unsent))
        # A loop that is left keeps its packet; one that goes on lets it go.
        for packet in craft.outgoing():
            break
        want("it comes again", craft.first(), packet)
        want("served", len(list(craft.serve())), 4)
        want("the memory", craft.memory(1), b"1" + bytes(15))
    codec_faults(want)


def codec_faults(want) -> None:
    """The same of the codecs."""
    f, e = forgesilver, faults
    tc = f.Telecommand(100, 0, f.Acknowledge.NONE, 6, 5, 1)
    rows = [
        (f.read_packet, (b"",), e.Short), (f.read_packet, (b"\xff" * 9,), e.Version), (f.packet_length, (b"",), e.More),
        (f.read_packet, (bytes.fromhex("07ffc000000000"),), e.Idle), (f.read_telemetry, (f.write_telecommand(tc),), e.WrongType),
        (f.write_packet, (f.Packet(f.PacketKind.TC, 2047, 0, b""),), e.Range),
        (f.write_packet, (f.Packet(f.PacketKind.TC, 1, 0, bytes(65535)),), e.TooLong),
        (f.write_packet, (f.Packet(2, 1, 0, b""),), e.Range), (f.part_count, (9, 3), e.Range),
        (f.read_part, (f.PartKind.LAST, b"123", 8), e.ShortPart), (f.read_part, (f.PartKind.LAST, bytes(5), 8), e.ZeroNumber),
        (f.write_part, (f.Part(f.PartKind.FIRST, 1, 2, bytes(8)), 8), e.KindNumber), (f.read_abort, (b"12",), e.AbortBody),
        (f.write_part, (f.Part(f.PartKind.FIRST, 1, 1, bytes(7)), 8), e.PartLength), (f.read_report, (5, bytes(4)), e.NoReport),
        (f.write_report, (f.VerificationReport(f.ReportKind.NOT_STARTED, 1, 99),), e.Range),
        (f.Load(1, []).body, (), e.BadArea), (f.Load(1, [f.Loaded(0, b"")]).body, (), e.BadArea),
        (f.Load(1, [f.Loaded(0, bytes(65520))]).body, (), e.LongLoad), (f.Load(256, [f.Loaded(0, b"1")]).body, (), e.Range),
        (f.Dump(1, [f.Area(0, 65536)]).body, (), e.Range), (f.Check(1, [f.Area(0, 1)] * 256).body, (), e.BadArea),
        (f.Load(1, [f.Loaded(0, bytes(32760))] * 2).body, (), e.LongLoad), (f.write_load, (1, 1 << 32, b"1"), e.Range),
        (f.read_dump, (b"\1\0",), e.NoReport), (f.read_dump, (bytes.fromhex("010100000010000200001d0e"),), e.Checksum),
        (f.read_check, (b"\1\1" + bytes(7),), e.NoReport), (f.read_data_report, (f.Telemetry(100, 0, 6, 7, 1),), e.NoReport),
        (f.packets_of, (b"\0",), e.More), (f.packets_of, (f.write_telecommand(tc) + b"\xff",), e.Version),
    ]
    for call, words, fault in rows:
        want(f"{call.__qualname__} {words!r:.60}", raised(call, *words), fault)
    whole = f.write_telecommand(tc)
    front = f.write_telecommand(dataclasses.replace(tc, body=b"1234")) + whole
    damaged = front + whole[:4] + b"\xff" + whole[5:] + whole
    cut = "the packet at octet 30 isn't whole: the stream is cut, or a length is damaged"
    for octets, fault, text in (
        (front + whole[:-1], e.More, cut), (front + whole[:4], e.More, cut), (damaged, e.More, cut),
        (front + b"\xff" * 9, e.Version, "no packet begins at octet 30"),
    ):
        for form in (octets, io.BytesIO(octets), io.BufferedReader(io.BytesIO(octets), 9)):
            packets = f.packets_of(form)
            want("the first packets", bytes(next(packets)) + bytes(next(packets)), front)
            try:
                want("what follows", next(packets), text)
            except fault as error:
                want("what follows", str(error), f"{fault.number}: {text}")
    want("sound packets", b"".join(f.sound_packets_of(io.BytesIO(damaged))), front + whole)
    tm = f.Telemetry(100, 0, 6, 5, 1)
    limits = {"apid": 2046, "count": 16383, "flags": 15, "status": 15, "time": (1 << 32) - 1}
    limits.update({it: 255 for it in ("service", "subtype")})
    limits.update({it: 65535 for it in ("source", "destination", "counter")})
    for write, it in ((f.write_telecommand, tc), (f.write_telemetry, tm), (f.write_packet, f.Packet(1, 0, 0, b""))):
        for field in limits.keys() & vars(it).keys():
            most = limits[field]
            want(f"the greatest {field}", type(write(dataclasses.replace(it, **{field: most}))), bytes)
            for wrong in (-1, most + 1, 1 << 16, 1 << 32, 1 << 70):
                if wrong not in range(most + 1):
                    want(f"{field} {wrong}", raised(write, dataclasses.replace(it, **{field: wrong})), e.Range)
            for wrong in (None, 1.0, "1"):
                want(f"{field} {wrong!r}", raised(write, dataclasses.replace(it, **{field: wrong})), TypeError)
    want("longest", len(f.write_packet(f.Packet(f.PacketKind.TC, 1, 0, bytes(65534)))), f.LONGEST_PACKET)
    error = e.ShortPart()
    want("a text", (str(error), error.number, isinstance(error, ValueError)), ("20: The body of a part has fewer than 4 octets", 20, True))
    want("no memory", issubclass(e.Allocation, MemoryError), True)


def all_of(want) -> None:
    """All of them."""
    for cases in (closed, threads, interrupts, copies, wrong_types, each_fault):
        cases(want)
