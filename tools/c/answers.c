/* What the codecs answer to random and damaged octets, as one line of hexadecimal for each 100,000
   cases: two processors' libraries that print the same have answered the same, field by field.

       answers CASES */
#include "lpt.h"

#include <stdio.h>
#include <stdlib.h>
#include <string.h>

enum { ROOM = 2200, LINE = 100000 };

static uint64_t state = 0x9e3779b97f4a7c15u;
static uint64_t hash = 0xcbf29ce484222325u;

/* The next random number: xorshift64. */
static uint64_t next(void)
{
    state ^= state << 13;
    state ^= state >> 7;
    state ^= state << 17;
    return state;
}

static uint32_t below(uint32_t bound)
{
    return (uint32_t)(next() % bound);
}

/* Takes a number into the hash: FNV-1a over its octets, the lowest first. */
static void note(uint64_t value)
{
    int at;
    for (at = 0; at < 8; at++) {
        hash ^= (value >> (8 * at)) & 0xff;
        hash *= 0x100000001b3u;
    }
}

static void note_octets(const uint8_t *octets, size_t len)
{
    size_t at;
    for (at = 0; at < len; at++)
        note(octets[at]);
}

static void fill(uint8_t *octets, size_t len)
{
    size_t at;
    for (at = 0; at < len; at++)
        octets[at] = (uint8_t)next();
}

/* Every reader, on these octets as a packet, and as a body. */
static void read_all(const uint8_t *octets, size_t len)
{
    LptPacket packet = {0, 0, 0, 0, 0};
    LptTc tc = {{0, 0, 0, 0, 0, 0}, 0, 0};
    LptTm tm = {{0, 0, 0, 0, 0, 0, 0, 0}, 0, 0};
    LptPart part = {0, 0, 0, 0, 0};
    LptAbort aborted = {0, 0};
    LptReport report = {0, 0, 0};
    LptDumped dumped = {0, 0, 0, 0, 0};
    LptChecked checked = {0, 0, 0, 0, 0};
    size_t length = 0, size = 0;
    uint32_t kind = 0;
    uint16_t room[3] = {0, 0, 0};
    /* One random number a statement: the order of a call's arguments is the compiler's. */
    uint32_t part_size = below(1100), subtype = below(12), number = below(4), of_part = below(5);
    uint32_t in_step = below(3), is_end = below(3);

    note(lpt_crc16(octets, len));
    note(lpt_crc16_more(lpt_crc16(octets, len / 3), octets + len / 3, len - len / 3));
    note(lpt_packet_length(octets, len, &length));
    note(lpt_find_piece(octets, len, in_step, is_end, &kind, &size));
    note(length + 31 * size + 1009 * kind);
    note(lpt_count_strays(octets, len, is_end, room, below(4)));
    note(lpt_read_packet(octets, len, &packet));
    note(packet.kind + 7 * (uint64_t)packet.apid + 65537 * (uint64_t)packet.count);
    note(packet.at + 131 * packet.len);
    note(lpt_read_tc(octets, len, &tc));
    note(tc.head.apid + 65537 * (uint64_t)tc.head.count);
    note(tc.head.flags + 256 * (uint64_t)tc.head.service + 65536 * (uint64_t)tc.head.subtype);
    note(tc.head.source + 131 * (tc.at + 257 * tc.len));
    note(lpt_read_tm(octets, len, &tm));
    note(tm.head.apid + 65537 * (uint64_t)tm.head.count);
    note(tm.head.status + 256 * (uint64_t)tm.head.service + 65536 * (uint64_t)tm.head.subtype);
    note(tm.head.counter + 65536 * (uint64_t)tm.head.destination);
    note(tm.head.time + 131 * (tm.at + 257 * tm.len));
    note(lpt_read_part(of_part, octets, len, part_size, &part));
    note(part.id + 65536 * (uint64_t)part.number + 131 * (part.kind + 5 * (part.at + 257 * part.len)));
    note(lpt_read_abort(octets, len, &aborted));
    note(aborted.id + 65536 * (uint64_t)aborted.reason);
    note(lpt_read_report((uint8_t)subtype, octets, len, &report));
    note(report.request + 131 * (uint64_t)report.failed + 65537 * (uint64_t)report.code);
    note(lpt_read_dump(octets, len, number, &dumped));
    note(dumped.memory + 256 * (uint64_t)dumped.areas + 65536 * (uint64_t)dumped.address);
    note(dumped.at + 257 * dumped.len);
    note(lpt_read_check(octets, len, number, &checked));
    note(checked.memory + 256 * (uint64_t)checked.areas + 65536 * (uint64_t)checked.address);
    note(checked.len + 65536 * (uint64_t)checked.checksum);
}

/* Octets of one writer, with random fields, mostly in their ranges; how many. */
static size_t written(uint8_t *out, size_t room)
{
    uint8_t body[512];
    size_t len = below(sizeof body), needed = 0, wide = below(8) ? room : below(64);
    uint32_t kind = 0, which = below(9), small = below(5), part_size = below(600);
    uint16_t id = (uint16_t)next(), number = (uint16_t)below(20), ranges_len = (uint16_t)below(4);
    LptTcHead tc = {0, 0, 0, 0, 0, 0};
    LptTmHead tm = {0, 0, 0, 0, 0, 0, 0, 0};
    LptRange ranges[3] = {{0, 1}, {0, 1}, {0, 1}};
    size_t at;
    uint32_t fault;

    fill(body, sizeof body);
    tm.apid = tc.apid = (uint16_t)below(2100);
    tm.count = tc.count = (uint16_t)below(16500);
    tm.status = tc.flags = (uint8_t)below(18);
    tm.service = tc.service = (uint8_t)next();
    tm.subtype = tc.subtype = (uint8_t)next();
    tm.counter = tc.source = id;
    tm.destination = (uint16_t)next();
    tm.time = (uint32_t)next();
    for (at = 0; at < 3; at++) {
        ranges[at].address = (uint32_t)next();
        ranges[at].len = (uint16_t)below(300);
    }
    if (which == 0)
        fault = lpt_write_packet(small, tc.apid, tc.count, body, len, out, wide, &needed);
    else if (which == 1)
        fault = lpt_write_tc(&tc, body, len, out, wide, &needed);
    else if (which == 2)
        fault = lpt_write_tm(&tm, body, len, out, wide, &needed);
    else if (which == 3)
        fault = lpt_slice_part(body, len, part_size, id, number, &kind, out, wide, &needed);
    else if (which == 4)
        fault = lpt_write_part(small, id, number, body, len, part_size, out, wide, &needed);
    else if (which == 5)
        fault = lpt_write_abort(id, (uint16_t)small, out, wide, &needed);
    else if (which == 6)
        fault = lpt_write_report((uint8_t)number, tm.time, (uint16_t)small, out, wide, &needed);
    else if (which == 7)
        fault = lpt_write_load((uint8_t)id, tm.time, body, len, out, wide, &needed);
    else if (number & 1)
        fault = lpt_write_check((uint8_t)id, ranges, ranges_len, out, wide, &needed);
    else
        fault = lpt_write_dump((uint8_t)id, ranges, ranges_len, out, wide, &needed);
    note(fault + 1009 * (uint64_t)kind);
    note(needed);
    note_octets(out, 64);
    return fault == LPT_DONE ? needed : 0;
}

int main(int argc, char **argv)
{
    static uint8_t octets[ROOM];
    long cases = argc > 1 ? atol(argv[1]) : LINE, at;
    for (at = 1; at <= cases; at++) {
        size_t len = below(4) ? written(octets, sizeof octets) : 0;
        if (len == 0) { /* random octets, short ones too */
            len = below(below(4) ? 40 : 600);
            fill(octets, len);
        } else if (below(2)) { /* damage: an octet, or the end */
            uint32_t place = below((uint32_t)len);
            octets[place] ^= (uint8_t)(1 + below(255));
            len -= below(8) ? 0 : below((uint32_t)len);
        }
        note(len);
        read_all(octets, len);
        if (at % LINE == 0 || at == cases)
            printf("%016llx\n", (unsigned long long)hash);
    }
    return 0;
}
