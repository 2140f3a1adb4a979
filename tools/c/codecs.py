"""Calls the codecs of lpt.h by ctypes, on packets that were written by hand and on random octets.

What each call has to answer is worked out by the model of bench/, which shares nothing with the
library.

    codecs.py LIBRARY     a shared library of the archive; it prints 'N passed, M failed' last
"""

import ctypes
import pathlib
import random
import sys

sys.dont_write_bytecode = True
TOP = pathlib.Path(__file__).resolve().parent.parent.parent
sys.path.insert(0, str(TOP / "bench"))

from model.packets import (  # noqa: E402: it stands there
    Fault,
    Packet,
    checksum,
    number_of,
    read_headers,
    read_packet,
    write_command,
    write_packet,
)
from model.memories import load_body  # noqa: E402: so does this
from model.parts import part_count, read_part  # noqa: E402: and this

TURNS = 10_000
LONGEST = 65542
IDLE, RANGE, ROOM, MORE, NO_REPORT = 101, 102, 103, 104, 105
BEFORE = 0xEE

# A first part, a last part, a report of an abortion, an answer to a dump, a report of acceptance.
# They were written by hand, and their checksums computed elsewhere.
VECTORS = [
    bytes.fromhex(octets)
    for octets in (
        "1864c0000012200d090001000700010001020304050607f40d",
        "1864c002000e200d0b00010007000310111213139b",
        "0864c000000f200d1000000001000000130007014e97",
        "0864c00000182006060000000100000000010100000010000200001d0fe744",
        "0864c0000010200101000000010000000018" + "64c000b2b1",
    )
]
CHECKSUMS = {
    "": 0xFFFF,
    "00": 0xE1F0,
    "0000": 0x1D0F,
    "000000": 0xCC9C,
    "00000000": 0x84C0,
    "abcdef01": 0x04A2,
    "1456f89a0001": 0x7FD5,
}


def structure(**fields):
    """A structure of C with these fields."""
    return type("Structure", (ctypes.Structure,), {"_fields_": list(fields.items())})


U8, U16, U32, SIZE = ctypes.c_uint8, ctypes.c_uint16, ctypes.c_uint32, ctypes.c_size_t
LptPacket = structure(kind=U32, apid=U16, count=U16, at=SIZE, len=SIZE)
LptTcHead = structure(apid=U16, count=U16, flags=U8, service=U8, subtype=U8, source=U16)
LptTc = structure(head=LptTcHead, at=SIZE, len=SIZE)
LptTmHead = structure(
    apid=U16, count=U16, status=U8, service=U8, subtype=U8, counter=U16, destination=U16, time=U32
)
LptTm = structure(head=LptTmHead, at=SIZE, len=SIZE)
LptPart = structure(id=U16, number=U16, kind=U32, at=SIZE, len=SIZE)
LptAbort = structure(id=U16, reason=U16)
LptDumped = structure(memory=U8, areas=U8, address=U32, at=SIZE, len=SIZE)
LptReport = structure(request=U32, failed=U16, code=U16)


def values(made):
    """The fields of a structure."""
    found = [getattr(made, name) for name, _ in made._fields_]
    return tuple(values(it) if isinstance(it, ctypes.Structure) else it for it in found)


def given(words):
    """Words as they are passed: octets and arrays as a pointer and a length, structures by a pointer."""
    for word in words:
        if isinstance(word, bytes):
            yield from (ctypes.c_char_p(word), SIZE(len(word)))
        elif isinstance(word, ctypes.Array):
            yield from (word, SIZE(len(word)))
        else:
            yield U32(word) if isinstance(word, int) else ctypes.byref(word)


class Calls:
    """The library's calls, as Python likes them, and the count of cases."""

    def __init__(self, path):
        self.library = ctypes.CDLL(path)
        self.library.lpt_crc16.restype = self.library.lpt_crc16_more.restype = U16
        self.passed = self.failed = 0

    def wants(self, case, got, wanted):
        """Counts a case. The first failures are told."""
        if got == wanted:
            self.passed += 1
            return
        self.failed += 1
        if self.failed <= 10:
            print(f"failed: {case}: {got!r:.300}\n  in place of {wanted!r:.300}")

    def call(self, name, *words):
        """A call of these words."""
        return getattr(self.library, name)(*given(words))

    def read(self, name, kind, *words):
        """What a reader answers, and what it tells, if that is anything."""
        out = kind()
        code = self.call(name, *words, out)
        return (code, values(out)) if code == 0 else (code, values(out) == values(kind()))

    def write(self, name, *words, room=LONGEST):
        """What a writer answers, what is in the buffer then, and the length that it tells."""
        out, needed = (U8 * room)(*[BEFORE] * room), SIZE(0)
        code = getattr(self.library, name)(*given(words), out, SIZE(room), ctypes.byref(needed))
        return code, bytes(out), needed.value


def fault_of(read, *words):
    """What a reader of the model gives: what it read, or the number of the fault."""
    try:
        return 0, read(*words)
    except Fault as fault:
        return int(str(fault).split()[0]), None


def seen(octets):
    """What the library has to say of octets as a packet."""
    code, packet = fault_of(read_packet, octets)
    if code == 0 and packet is None:
        return IDLE, None
    return code, packet


def told_packet(octets):
    """The same, as lpt_read_packet tells it."""
    code, packet = seen(octets)
    if code:
        return code, True
    return 0, (int(packet.is_command), packet.apid, packet.count, 6, len(packet.data))


def told_message(octets, is_command):
    """What lpt_read_tc or lpt_read_tm has to tell."""
    code, packet = seen(octets)
    if code:
        return code, True
    if packet.is_command != is_command:
        return 12, True
    code, it = fault_of(read_headers, packet)
    if code:
        return code, True
    head = (packet.apid, packet.count, it.nibble, it.service, it.subtype)
    head += (it.peer,) if is_command else (it.counter, it.peer, it.time)
    return 0, (head, 11 if is_command else 17, len(it.body))


def told_length(octets):
    """What lpt_packet_length has to tell."""
    if octets and octets[0] >> 5:
        return 2, 0
    if len(octets) < 6:
        return MORE, 0
    return (IDLE if number_of(octets[:2]) % 2048 == 2047 else 0), 7 + number_of(octets[4:6])


def begins(octets, in_step):
    """Whether a packet begins with these octets. In step an idle one counts, and one with a right checksum that is
    a segment (4), or has no secondary header (5)."""
    frame = octets[: 7 + number_of(octets[4:6])] if len(octets) > 5 else octets
    code, _ = seen(frame)
    is_sound = code in (4, 5) and len(frame) > 7 and frame[-2:] == checksum(frame[:-2])
    return code == 0 or in_step and (code == IDLE or is_sound)


def may_begin(octets):
    """Whether a packet that isn't idle may begin with these octets and others behind them."""
    first = number_of(octets[:2]) if len(octets) > 1 else number_of(octets[:1]) << 8 | 0x0800
    return (
        not first >> 13 and first & 0x0800 != 0 and (len(octets) < 2 or first % 2048 < 2047)
        and (len(octets) < 4 or octets[2] >> 6 == 3) and (len(octets) < 6 or any(octets[4:6]))
    )


def is_framed(octets):
    """Whether as many octets are there as the header says."""
    return len(octets) > 5 and len(octets) >= 7 + number_of(octets[4:6])


def ends_in_packet(octets):
    """Whether a packet stands behind some of these octets, and ends where they end."""
    ends = (octets[at:] for at in range(1, len(octets) - 5))
    return any(7 + number_of(end[4:6]) == len(end) and begins(end, False) for end in ends)


def told_piece(octets, in_step, is_end):
    """What lpt_find_piece has to tell: a kind and a size, or that more is wanted."""
    size = 7 + number_of(octets[4:6]) if len(octets) > 5 else len(octets)
    behind = octets[size:]
    if octets and begins(octets, in_step):
        return 0, 1, size
    if is_framed(octets):
        waits = in_step and may_begin(behind) and not is_framed(behind)
    else:
        waits = in_step or may_begin(octets)
    if not octets or waits and not is_end:
        return MORE, 0, 0
    leads = is_framed(octets) and (not behind or begins(behind, False))
    is_passed = in_step and leads and not ends_in_packet(octets[:size])
    return (0, 2, size) if is_passed else (0, 3, 1)


class Turns:
    """Cases of each kind, by random numbers that are the same each time."""

    def __init__(self, calls):
        self.calls, self.random = calls, random.Random(37)

    def octets(self, most):
        """Random octets, short ones more often."""
        size = self.random.choice([0, 1, 3, 4, 5, 8, self.random.randrange(most)])
        return self.random.randbytes(size)

    def packet(self):
        """A packet, idle or not, or something near one."""
        apid = self.random.choice([0, 100, 2046, 2047, self.random.randrange(2048)])
        count, data = self.random.randrange(16384), self.octets(60)
        if self.random.random() < 0.7 and data:
            data = bytes([0x20 | data[0] % 16]) + data[1:]
        octets = bytearray(write_packet(Packet(self.random.random() < 0.5, apid, count, data)))
        how = self.random.randrange(6)
        if how == 1:
            del octets[self.random.randrange(len(octets)) :]
        elif how == 2:
            octets += self.octets(9)
        elif how == 3:
            octets[self.random.randrange(len(octets))] ^= 1 << self.random.randrange(8)
        elif how == 4:
            # Other flags, sealed again.
            octets[self.random.choice([0, 2])] ^= self.random.choice([0x08, 0x40, 0x80])
            octets[-2:] = checksum(octets[:-2])
        return bytes(octets)

    def reading(self, octets):
        """All readers on the same octets."""
        calls, name = self.calls, octets.hex()
        calls.wants(name, calls.call("lpt_crc16", octets), number_of(checksum(octets)))
        cut = self.random.randrange(len(octets) + 1)
        front = number_of(checksum(octets[:cut]))
        more = calls.call("lpt_crc16_more", front, octets[cut:])
        calls.wants(name, more, number_of(checksum(octets)))
        calls.wants(name, calls.read("lpt_read_packet", LptPacket, octets), told_packet(octets))
        calls.wants(name, calls.read("lpt_read_tc", LptTc, octets), told_message(octets, True))
        calls.wants(name, calls.read("lpt_read_tm", LptTm, octets), told_message(octets, False))
        length = SIZE(0)
        code = calls.call("lpt_packet_length", octets, length)
        calls.wants(name, (code, length.value), told_length(octets))

    def piece(self, octets, in_step, is_end):
        """The piece in front, which the library has to tell as well."""
        kind, size = U32(0), SIZE(0)
        code = self.calls.call("lpt_find_piece", octets, in_step, is_end, kind, size)
        got, wanted = (code, kind.value, size.value), told_piece(octets, in_step, is_end)
        self.calls.wants(f"piece {octets.hex()} {in_step} {is_end}", got, wanted)
        return wanted

    def stream(self):
        """A stream of packets, whole or damaged, cut into pieces all at once and as it comes."""
        stream = b"".join(self.packet() for _ in range(self.random.randrange(1, 6)))
        at, in_step, came, pieces = 0, 1, 0, []
        while at < len(stream):
            _, kind, size = self.piece(stream[at:], in_step, 1)
            code, *found = self.piece(stream[at:came], in_step, int(came == len(stream)))
            while code == MORE and came < len(stream):
                came = min(came + self.random.randrange(1, 30), len(stream))
                code, *found = self.piece(stream[at:came], in_step, int(came == len(stream)))
            self.calls.wants("the same piece", (code, *found), (0, kind, size))
            pieces.append(stream[at : at + size])
            at, in_step = at + size, int(kind != 3)
        self.calls.wants("all of it", b"".join(pieces), stream)
        self.strays(stream[self.random.randrange(len(stream) + 1) :])

    def strays(self, octets):
        """So many octets of none are in front as pieces are found, one behind the other, out of step."""
        for is_end in (0, 1):
            strays = 0
            while told_piece(octets[strays:], 0, is_end)[:2] == (0, 3):
                strays += 1
            room = (ctypes.c_uint16 * self.random.choice([0, 1, 2, 9]))()
            got = self.calls.call("lpt_count_strays", octets, is_end, room)
            self.calls.wants(f"strays {octets.hex()} {is_end}", got, strays)

    def memories(self):
        """Loads, and reports of dumps, whole or damaged."""
        r, calls = self.random, self.calls
        memory = r.randrange(256)
        areas = [(r.randrange(1 << 32), r.randbytes(r.randrange(1, 40))) for _ in range(3)]
        address, octets = areas[0]
        text, room = load_body(memory, areas[:1]), len(octets) + r.choice([0, 9, 10, 300])
        got = calls.write("lpt_write_load", memory, address, octets, room=room)
        self.wants_text("write_load", got, text)
        body, at = bytearray(load_body(memory, areas)), 2
        wrong = r.choice([None, None, *range(len(areas))])
        for number, (address, octets) in enumerate(areas):
            wanted = 0, (memory, len(areas), address, at + 6, len(octets))
            if wrong == number:
                body[at + 6] ^= 1 << r.randrange(8)
                wanted = 6, True
            got = calls.read("lpt_read_dump", LptDumped, bytes(body), number)
            calls.wants("read_dump", got, wanted)
            at += 8 + len(octets)
        other = r.choice([bytes(body[: r.randrange(len(body))]), bytes(body) + b"1"])
        calls.wants("no dump", calls.read("lpt_read_dump", LptDumped, other, 0), (NO_REPORT, True))
        got = calls.read("lpt_read_dump", LptDumped, bytes(body), len(areas))
        calls.wants("no area", got, (RANGE, True))

    def wants_text(self, case, got, text):
        """What a writer left and told, where this is what it writes."""
        code, out, needed = got
        fits = len(text) <= len(out)
        left = text + out[len(text) :] if fits else out
        is_kept = set(left[len(text) if fits else 0 :]) <= {BEFORE}
        wanted = (0 if fits else ROOM, len(text), left, True)
        self.calls.wants(case, (code, needed, out, is_kept), wanted)

    def writing(self):
        """All writers, each into a buffer that is maybe too short."""
        r, calls = self.random, self.calls
        apid, count, body = r.randrange(2047), r.randrange(16384), self.octets(80)
        room = r.choice([0, len(body), len(body) + 8, len(body) + 13, 300])
        is_command = r.random() < 0.5
        text = write_packet(Packet(is_command, apid, count, body))
        got = calls.write("lpt_write_packet", int(is_command), apid, count, body, room=room)
        self.wants_text("write_packet", got, text)
        flags, service, subtype, source = r.randrange(16), r.randrange(256), r.randrange(256), 513
        head = LptTcHead(apid, count, flags, service, subtype, source)
        text = write_command(apid, count, flags, service, subtype, source, body)
        self.wants_text("write_tc", calls.write("lpt_write_tc", head, body, room=room), text)
        request = U32(0)
        code = calls.call("lpt_request_id", head, request)
        calls.wants("request_id", (code, request.value), (0, number_of(text[:4])))
        counter, time = r.randrange(65536), r.randrange(1 << 32)
        head = LptTmHead(apid, count, flags, service, subtype, counter, source, time)
        data = bytes([0x20, service, subtype])
        data += b"".join(n.to_bytes(2, "big") for n in (counter, source)) + time.to_bytes(4, "big")
        text = write_packet(Packet(False, apid, count, data + body))
        self.wants_text("write_tm", calls.write("lpt_write_tm", head, body, room=room), text)

    def splitting(self):
        """A message, cut into parts, each of which is read again."""
        r, calls = self.random, self.calls
        size = r.choice([4, 8, 64, 1024])
        message, name = r.randbytes(size + 1 + r.randrange(3 * size)), r.randrange(65536)
        parts = part_count(message, size)
        calls.wants("part_count", calls.call("lpt_part_count", len(message), size), parts)
        k, kind = r.randrange(1, parts + 1), U32(0)
        octets = message[(k - 1) * size : k * size]
        wanted = 1 if k == 1 else 3 if k == parts else 2
        text = name.to_bytes(2, "big") + k.to_bytes(2, "big") + octets
        room = r.choice([0, len(text) - 1, len(text), len(text) + 3])
        got = calls.write("lpt_slice_part", message, size, name, k, kind, room=room)
        self.wants_text("slice_part", got, text)
        calls.wants("its kind", kind.value, wanted)
        got = calls.write("lpt_write_part", wanted, name, k, octets, size, room=room)
        self.wants_text("write_part", got, text)
        self.part(wanted, text, size)
        other = r.choice([text, text[:3], text[:4], text[:-1], text + b"\0"])
        self.part(r.randrange(5), other, size)

    def part(self, kind, body, size):
        """A body, read as a part."""
        calls = self.calls
        got = calls.read("lpt_read_part", LptPart, kind, body, size)
        if kind not in (1, 2, 3):
            calls.wants("no kind", got, (RANGE, True))
            return
        # Of the model's headers its reader of parts looks at these alone.
        packet = Packet(True, 100, 0, bytes([0x20, 13, 8 + kind, 0, 1]) + body)
        part = read_part(read_headers(packet), size)
        if part is None:
            calls.wants(f"no part: {body.hex()}", got[0] in (20, 21, 22, 23) and got[1], True)
        else:
            wanted = part.name.identifier, part.number, part.place + 1, 4, len(part.octets)
            calls.wants(f"a part: {body.hex()}", got, (0, wanted))

    def bodies(self):
        """Abortion reports and verification reports."""
        r, calls = self.random, self.calls
        name, reason = r.randrange(65536), r.randrange(6)
        body = name.to_bytes(2, "big") + bytes([reason])
        is_reason = reason in (1, 2, 3)
        got = calls.write("lpt_write_abort", name, reason, room=r.randrange(6))
        if is_reason:
            self.wants_text("write_abort", got, body)
        else:
            calls.wants("no reason", (got[0], set(got[1]) <= {BEFORE}), (RANGE, True))
        wanted = (0, (name, reason)) if is_reason else (24, True)
        calls.wants("read_abort", calls.read("lpt_read_abort", LptAbort, body), wanted)
        subtype, request, code = r.randrange(1, 9), r.randrange(1 << 32), r.randrange(10)
        text = request.to_bytes(4, "big") + (code.to_bytes(2, "big") if subtype in (2, 4) else b"")
        is_known = code in range(1, 9) if subtype in (2, 4) else subtype in (1, 3, 7) and code == 0
        got = calls.write("lpt_write_report", subtype, request, code, room=r.randrange(9))
        if is_known:
            self.wants_text("write_report", got, text)
        else:
            calls.wants("no report to write", (got[0], set(got[1]) <= {BEFORE}), (RANGE, True))
        is_read = subtype in (1, 2, 3, 4, 7)
        wanted = (request, int(subtype in (2, 4)), code if subtype in (2, 4) else 0)
        got = calls.read("lpt_read_report", LptReport, subtype, text)
        calls.wants("read_report", got, (0, wanted) if is_read else (NO_REPORT, True))


def main(path):
    """All cases."""
    calls = Calls(path)
    turns = Turns(calls)
    for octets, wanted in CHECKSUMS.items():
        calls.wants(octets, calls.call("lpt_crc16", bytes.fromhex(octets)), wanted)
    for octets in VECTORS:
        calls.wants(octets.hex(), calls.read("lpt_read_packet", LptPacket, octets)[0], 0)
        turns.reading(octets)
    for _ in range(TURNS):
        turns.reading(turns.packet())
    for _ in range(TURNS // 10):
        turns.writing()
        turns.splitting()
        turns.bodies()
        turns.stream()
        turns.memories()
    print(f"{calls.passed} passed, {calls.failed} failed")
    return calls.failed != 0


if __name__ == "__main__":
    sys.exit(main(sys.argv[1]))
