/*
 * Calls each codec of lpt.h from C: with octets that were written by hand, with each fault once,
 * and with buffers that are too short, and looks at each octet of the buffer afterwards.
 *
 * It prints how many cases passed and failed. tests/c compiles it as C11 and as C++, and with
 * sanitizers.
 */
#include "lpt.h"

#include <stdio.h>
#include <stdlib.h>
#include <string.h>

static unsigned passed, failed;

static void look(int is_right, int line, const char *what) {
    if (is_right) {
        passed++;
        return;
    }
    failed++;
    printf("codecs.c:%d: %s\n", line, what);
}

#define EXPECT(what) look((what), __LINE__, #what)

/* What stands in a buffer before a call. */
#define BEFORE 0xee

/* A buffer of the heap with exactly this size, so that a sanitizer sees each octet too much. */
static uint8_t *buffer(size_t len) {
    uint8_t *made = (uint8_t *)malloc(len + (len == 0));
    if (made == NULL) {
        abort();
    }
    memset(made, BEFORE, len);
    return made;
}

/* Whether a buffer holds these octets, and behind them what was there. */
static int holds(const uint8_t *out, size_t len, const void *octets, size_t octets_len) {
    size_t k;
    if (len < octets_len || (octets_len > 0 && memcmp(out, octets, octets_len) != 0)) {
        return 0;
    }
    for (k = octets_len; k < len; k++) {
        if (out[k] != BEFORE) {
            return 0;
        }
    }
    return 1;
}

/* Calls a writer, CALL with out, out_len and needed, on buffers of each interesting size. TEXT
   is what it has to write. */
#define WRITES(CALL, TEXT, TEXT_LEN)                                                               \
    do {                                                                                           \
        size_t sizes[4], at, text_len = (TEXT_LEN);                                                \
        sizes[0] = 0;                                                                              \
        sizes[1] = text_len - 1;                                                                   \
        sizes[2] = text_len;                                                                       \
        sizes[3] = text_len + 5;                                                                   \
        for (at = 0; at < 4; at++) {                                                               \
            size_t out_len = sizes[at], needed = 99999;                                            \
            uint8_t *out = buffer(out_len);                                                        \
            uint32_t said = (CALL);                                                                \
            int fits = out_len >= text_len;                                                        \
            EXPECT(said == (uint32_t)(fits ? LPT_DONE : LPT_E_ROOM));                              \
            EXPECT(needed == text_len);                                                            \
            EXPECT(holds(out, out_len, (TEXT), fits ? text_len : 0));                              \
            free(out);                                                                             \
        }                                                                                          \
    } while (0)

/* Calls what builds a TEXT in place, CALL with out, out_len and needed, around LEN octets of it that
   stand in the buffer already, from AT on, on buffers that have room and one that has none. */
#define BUILDS(CALL, AT, LEN, TEXT, TEXT_LEN)                                                      \
    do {                                                                                           \
        size_t out_len, text_len = (TEXT_LEN);                                                     \
        for (out_len = text_len - 1; out_len <= text_len + 5; out_len += 2) {                      \
            size_t needed = 99999;                                                                 \
            uint8_t *out = buffer(out_len), *was = buffer(out_len);                                \
            size_t room = out_len - (AT), len = (LEN);                                             \
            uint32_t said;                                                                         \
            memcpy(out + (AT), (TEXT) + (AT), room < len ? room : len);                            \
            memcpy(was, out, out_len);                                                             \
            memcpy(was, (TEXT), out_len < text_len ? 0 : text_len);                                \
            said = (CALL);                                                                         \
            EXPECT(said == (uint32_t)(out_len < text_len ? LPT_E_ROOM : LPT_DONE));                \
            EXPECT(needed == text_len);                                                            \
            EXPECT(memcmp(out, was, out_len) == 0);                                                \
            free(out);                                                                             \
            free(was);                                                                             \
        }                                                                                          \
    } while (0)

/* Calls a writer that has to refuse. */
#define REFUSES(CALL, FAULT)                                                                       \
    do {                                                                                           \
        size_t out_len = 70000, needed = 99999;                                                    \
        uint8_t *out = buffer(out_len);                                                            \
        uint32_t said = (CALL);                                                                    \
        EXPECT(said == (uint32_t)(FAULT));                                                         \
        EXPECT(needed == 99999);                                                                   \
        EXPECT(holds(out, out_len, NULL, 0));                                                      \
        free(out);                                                                                 \
    } while (0)

/* The first and the last part of a message, a report of an abortion, an answer to a dump, and a
   report of acceptance: written by hand, their checksums computed elsewhere. */
static const uint8_t FIRST[] = {0x18, 0x64, 0xc0, 0x00, 0x00, 0x12, 0x20, 0x0d, 0x09,
                                0x00, 0x01, 0x00, 0x07, 0x00, 0x01, 0x00, 0x01, 0x02,
                                0x03, 0x04, 0x05, 0x06, 0x07, 0xf4, 0x0d};
static const uint8_t LAST[] = {0x18, 0x64, 0xc0, 0x02, 0x00, 0x0e, 0x20, 0x0d, 0x0b, 0x00, 0x01,
                               0x00, 0x07, 0x00, 0x03, 0x10, 0x11, 0x12, 0x13, 0x13, 0x9b};
static const uint8_t ABORTED[] = {0x08, 0x64, 0xc0, 0x00, 0x00, 0x0f, 0x20, 0x0d, 0x10, 0x00, 0x00,
                                  0x00, 0x01, 0x00, 0x00, 0x00, 0x13, 0x00, 0x07, 0x01, 0x4e, 0x97};
static const uint8_t DUMPED[] = {0x08, 0x64, 0xc0, 0x00, 0x00, 0x18, 0x20, 0x06, 0x06, 0x00, 0x00,
                                 0x00, 0x01, 0x00, 0x00, 0x00, 0x00, 0x01, 0x01, 0x00, 0x00, 0x00,
                                 0x10, 0x00, 0x02, 0x00, 0x00, 0x1d, 0x0f, 0xe7, 0x44};
static const uint8_t ACCEPTED[] = {0x08, 0x64, 0xc0, 0x00, 0x00, 0x10, 0x20, 0x01,
                                   0x01, 0x00, 0x00, 0x00, 0x01, 0x00, 0x00, 0x00,
                                   0x00, 0x18, 0x64, 0xc0, 0x00, 0xb2, 0xb1};
static const uint8_t IDLE[] = {0x07, 0xff, 0xc0, 0x00, 0x00, 0x00, 0x00};

/* A copy on the heap, of exactly that size. */
static uint8_t *copied(const uint8_t *octets, size_t len) {
    uint8_t *made = buffer(len);
    memcpy(made, octets, len);
    return made;
}

static void checksums(void) {
    static const uint8_t digits[] = {'1', '2', '3', '4', '5', '6', '7', '8', '9'};
    static const uint8_t area[] = {0xab, 0xcd, 0xef, 0x01};
    static const uint8_t six[] = {0x14, 0x56, 0xf8, 0x9a, 0x00, 0x01};
    static const uint8_t noughts[4] = {0};
    EXPECT(lpt_crc16(digits, sizeof digits) == 0x29b1);
    EXPECT(lpt_crc16(area, sizeof area) == 0x04a2);
    EXPECT(lpt_crc16(six, sizeof six) == 0x7fd5);
    EXPECT(lpt_crc16(noughts, 0) == 0xffff && lpt_crc16(noughts, 1) == 0xe1f0);
    EXPECT(lpt_crc16(noughts, 2) == 0x1d0f && lpt_crc16(noughts, 3) == 0xcc9c);
    EXPECT(lpt_crc16(noughts, 4) == 0x84c0);
    EXPECT(lpt_crc16_more(0xffff, digits, sizeof digits) == 0x29b1);
    EXPECT(lpt_crc16_more(lpt_crc16(digits, 4), digits + 4, sizeof digits - 4) == 0x29b1);
    EXPECT(lpt_crc16_more(0x1d0f, noughts + 2, 2) == 0x84c0);
    EXPECT(lpt_crc16_more(0x1d0f, noughts, 1) == 0xcc9c);
}

static void lengths(void) {
    static const uint8_t other[] = {0x20};
    size_t len, length;
    for (len = 0; len <= sizeof FIRST; len++) {
        length = 99999;
        EXPECT(lpt_packet_length(FIRST, len, &length) ==
               (uint32_t)(len < 6 ? LPT_E_MORE : LPT_DONE));
        EXPECT(length == (len < 6 ? 99999 : sizeof FIRST));
    }
    length = 99999;
    EXPECT(lpt_packet_length(IDLE, 6, &length) == LPT_E_IDLE && length == sizeof IDLE);
    EXPECT(lpt_packet_length(other, 1, &length) == LPT_E_VERSION && length == sizeof IDLE);
}

static uint16_t ROOM[LPT_STRAY_ROOM];

/* The piece in front of octets has to be of this kind and size; nothing is said where it is 0. */
static void is_piece(int line, const uint8_t *octets, size_t len, uint32_t in_step, uint32_t is_end,
                     uint32_t kind, size_t size) {
    uint8_t *front = copied(octets, len);
    uint32_t got = 9;
    size_t has = 99999;
    uint32_t said = lpt_find_piece(front, len, in_step, is_end, &got, &has);
    look(said == (uint32_t)(kind == 0 ? LPT_E_MORE : LPT_DONE), line, "lpt_find_piece answers so");
    look(got == (kind == 0 ? 9 : kind) && has == (kind == 0 ? 99999 : size), line,
         "lpt_find_piece tells this kind and size");
    if (!in_step) {
        size_t strays = lpt_count_strays(front, len, is_end, ROOM, LPT_STRAY_ROOM);
        look((strays > 0) == (kind == LPT_PIECE_STRAY), line, "lpt_count_strays agrees");
    }
    free(front);
}

#define PIECE(OCTETS, LEN, IN_STEP, IS_END, KIND, SIZE)                                            \
    is_piece(__LINE__, OCTETS, LEN, IN_STEP, IS_END, KIND, SIZE)

static void pieces(void) {
    uint8_t stream[sizeof FIRST + sizeof LAST];
    const size_t first = sizeof FIRST;
    size_t len;
    memcpy(stream, FIRST, first);
    memcpy(stream + first, LAST, sizeof LAST);
    PIECE(FIRST, 0, 1, 0, 0, 0);
    PIECE(FIRST, 0, 1, 1, 0, 0);
    for (len = 1; len < first; len++) {
        PIECE(FIRST, len, 1, 0, 0, 0);
        PIECE(FIRST, len, 0, 0, 0, 0);
        PIECE(FIRST, len, 1, 1, LPT_PIECE_STRAY, 1);
    }
    PIECE(stream, sizeof stream, 1, 0, LPT_PIECE_WHOLE, first);
    PIECE(FIRST, first, 0, 7, LPT_PIECE_WHOLE, first);
    PIECE(IDLE, sizeof IDLE, 1, 0, LPT_PIECE_WHOLE, sizeof IDLE);
    PIECE(IDLE, sizeof IDLE, 0, 0, LPT_PIECE_STRAY, 1);
    /* A damaged packet is passed over in step, where one stands behind it, or nothing. */
    stream[first - 1] ^= 1;
    PIECE(stream, sizeof stream, 1, 0, LPT_PIECE_DAMAGED, first);
    PIECE(stream, sizeof stream, 0, 0, LPT_PIECE_STRAY, 1);
    PIECE(stream, sizeof stream - 1, 1, 0, 0, 0);
    PIECE(stream, sizeof stream - 1, 1, 1, LPT_PIECE_STRAY, 1);
    PIECE(stream, first, 1, 0, 0, 0);
    PIECE(stream, first, 1, 1, LPT_PIECE_DAMAGED, first);
    /* Out of step a damaged packet's octets are of none, up to the packet behind it. */
    EXPECT(lpt_count_strays(stream, sizeof stream, 0, ROOM, LPT_STRAY_ROOM) == first);
    EXPECT(lpt_count_strays(stream, sizeof stream, 0, ROOM, 0) == first);
    EXPECT(lpt_count_strays(stream, sizeof stream, 0, NULL, 0) == first);
    EXPECT(lpt_count_strays(stream + first, sizeof LAST, 1, ROOM, LPT_STRAY_ROOM) == 0);
    EXPECT(lpt_count_strays(stream, first, 1, ROOM, 1) == first);
    stream[first] = 0x38;
    PIECE(stream, sizeof stream, 1, 0, LPT_PIECE_STRAY, 1);
}

/* Reads octets of which some are changed: each pair in `changes` is a place and what stands
   there. */
static uint32_t read_changed(const uint8_t *octets, size_t len, size_t place, uint8_t octet) {
    uint8_t *other = copied(octets, len);
    LptPacket packet = {7, 7, 7, 7, 7};
    uint32_t said;
    other[place] = octet;
    said = lpt_read_packet(other, len, &packet);
    EXPECT(said == LPT_DONE || (packet.kind == 7 && packet.apid == 7 && packet.count == 7));
    EXPECT(said == LPT_DONE || (packet.at == 7 && packet.len == 7));
    free(other);
    return said;
}

static void packets(void) {
    static const uint8_t field[] = {1, 2, 3, 4};
    static const uint8_t whole[] = {0x18, 42, 0xc0, 7, 0, 5, 1, 2, 3, 4, 0x4b, 0xc1};
    uint8_t *long_field = buffer(65535), *longest = buffer(65542);
    LptPacket packet = {7, 7, 7, 7, 7};
    size_t needed = 0;

    EXPECT(lpt_read_packet(FIRST, sizeof FIRST, &packet) == LPT_DONE);
    EXPECT(packet.kind == LPT_PACKET_TC && packet.apid == 100 && packet.count == 0);
    EXPECT(packet.at == 6 && packet.len == sizeof FIRST - 8);
    EXPECT(lpt_read_packet(ABORTED, sizeof ABORTED, &packet) == LPT_DONE &&
           packet.kind == LPT_PACKET_TM);
    EXPECT(read_changed(IDLE, sizeof IDLE, 0, 0x07) == LPT_E_IDLE);
    EXPECT(read_changed(FIRST, 3, 0, 0x18) == LPT_E_SHORT);
    EXPECT(read_changed(FIRST, sizeof FIRST, 0, 0x38) == LPT_E_VERSION);
    EXPECT(read_changed(FIRST, sizeof FIRST - 1, 0, 0x18) == LPT_E_LENGTH);
    EXPECT(read_changed(FIRST, sizeof FIRST, 2, 0x40) == LPT_E_SEGMENTED);
    EXPECT(read_changed(FIRST, sizeof FIRST, 0, 0x10) == LPT_E_NO_SECONDARY);
    EXPECT(read_changed(FIRST, sizeof FIRST, sizeof FIRST - 1, 0x0c) == LPT_E_CHECKSUM);

    WRITES(lpt_write_packet(LPT_PACKET_TC, 42, 7, field, 4, out, out_len, &needed), whole,
           sizeof whole);
    WRITES(
        lpt_write_packet(LPT_PACKET_TC, 100, 0, FIRST + 6, sizeof FIRST - 8, out, out_len, &needed),
        FIRST, sizeof FIRST);
    REFUSES(lpt_write_packet(2, 42, 7, field, 4, out, out_len, &needed), LPT_E_RANGE);
    REFUSES(lpt_write_packet(LPT_PACKET_TM, 2047, 7, field, 4, out, out_len, &needed), LPT_E_RANGE);
    REFUSES(lpt_write_packet(LPT_PACKET_TM, 42, 16384, field, 4, out, out_len, &needed),
            LPT_E_RANGE);
    REFUSES(lpt_write_packet(LPT_PACKET_TM, 42, 7, long_field, 65535, out, out_len, &needed),
            LPT_E_TOO_LONG);

    EXPECT(lpt_write_packet(LPT_PACKET_TM, 42, 7, long_field, 65534, longest, 65542, &needed) ==
           LPT_DONE);
    EXPECT(needed == LPT_LONGEST_PACKET && lpt_read_packet(longest, needed, &packet) == LPT_DONE);
    EXPECT(packet.len == 65534 && memcmp(longest + packet.at, long_field, packet.len) == 0);
    EXPECT(lpt_write_packet(LPT_PACKET_TM, 42, 7, field, 0, longest, 65542, &needed) == LPT_DONE &&
           needed == 8);
    EXPECT(lpt_read_packet(longest, 8, &packet) == LPT_DONE && packet.len == 0);
    free(long_field);
    free(longest);
}

/* A packet of this type whose data field is these octets, read as a telecommand or as telemetry. */
static uint32_t read_field(uint32_t kind, const uint8_t *field, size_t len, int as_command) {
    uint8_t room[64];
    size_t needed = 0;
    LptTc tc;
    LptTm tm;
    memset(&tc, 0, sizeof tc);
    memset(&tm, 0, sizeof tm);
    EXPECT(lpt_write_packet(kind, 42, 7, field, len, room, sizeof room, &needed) == LPT_DONE);
    return as_command ? lpt_read_tc(room, needed, &tc) : lpt_read_tm(room, needed, &tm);
}

static void commands(void) {
    LptTcHead head = {100, 0, 0, 13, 9, 1};
    LptTc tc;
    uint32_t id = 0;
    uint8_t *long_body = buffer(65530);
    static const uint8_t other_version[] = {0x10, 0, 0, 0, 0};
    memset(&tc, 0, sizeof tc);
    EXPECT(lpt_read_tc(FIRST, sizeof FIRST, &tc) == LPT_DONE);
    EXPECT(tc.head.apid == 100 && tc.head.count == 0 && tc.head.flags == 0 &&
           tc.head.service == 13);
    EXPECT(tc.head.subtype == 9 && tc.head.source == 1 && tc.at == 11 &&
           tc.len == sizeof FIRST - 13);
    tc.len = 7;
    EXPECT(lpt_read_tc(ABORTED, sizeof ABORTED, &tc) == LPT_E_WRONG_TYPE && tc.len == 7);
    EXPECT(lpt_read_tc(IDLE, sizeof IDLE, &tc) == LPT_E_IDLE && tc.len == 7);
    EXPECT(lpt_read_tc(FIRST, 5, &tc) == LPT_E_SHORT && tc.len == 7);
    EXPECT(read_field(LPT_PACKET_TC, other_version, 4, 1) == LPT_E_SHORT_HEADER);
    EXPECT(read_field(LPT_PACKET_TC, other_version, 5, 1) == LPT_E_PUS_VERSION);

    WRITES(lpt_write_tc(&head, FIRST + 11, sizeof FIRST - 13, out, out_len, &needed), FIRST,
           sizeof FIRST);
    EXPECT(lpt_request_id(&head, &id) == LPT_DONE && id == 0x1864c000);
    head.subtype = 11;
    head.count = 2;
    WRITES(lpt_write_tc(&head, LAST + 11, sizeof LAST - 13, out, out_len, &needed), LAST,
           sizeof LAST);
    EXPECT(lpt_request_id(&head, &id) == LPT_DONE && id == 0x1864c002);
    REFUSES(lpt_write_tc(&head, long_body, 65530, out, out_len, &needed), LPT_E_TOO_LONG);
    head.flags = 16;
    REFUSES(lpt_write_tc(&head, FIRST, 4, out, out_len, &needed), LPT_E_RANGE);
    head.flags = 15;
    head.count = 16384;
    REFUSES(lpt_write_tc(&head, FIRST, 4, out, out_len, &needed), LPT_E_RANGE);
    EXPECT(lpt_request_id(&head, &id) == LPT_E_RANGE && id == 0x1864c002);
    head.count = 16383;
    head.apid = 2047;
    REFUSES(lpt_write_tc(&head, FIRST, 4, out, out_len, &needed), LPT_E_RANGE);
    free(long_body);
}

static void telemetry(void) {
    LptTmHead head = {100, 0, 5, 13, 16, 0, 1, 19};
    LptTm tm;
    uint8_t *long_body = buffer(65524);
    static const uint8_t other_version[11] = {0x30};
    memset(&tm, 0, sizeof tm);
    EXPECT(lpt_read_tm(ABORTED, sizeof ABORTED, &tm) == LPT_DONE);
    EXPECT(tm.head.apid == 100 && tm.head.count == 0 && tm.head.status == 0 &&
           tm.head.service == 13);
    EXPECT(tm.head.subtype == 16 && tm.head.counter == 0 && tm.head.destination == 1);
    EXPECT(tm.head.time == 19 && tm.at == 17 && tm.len == 3);
    EXPECT(lpt_read_tm(DUMPED, sizeof DUMPED, &tm) == LPT_DONE && tm.len == 12);
    EXPECT(lpt_read_tm(FIRST, sizeof FIRST, &tm) == LPT_E_WRONG_TYPE && tm.len == 12);
    EXPECT(lpt_read_tm(IDLE, sizeof IDLE, &tm) == LPT_E_IDLE && tm.len == 12);
    EXPECT(read_field(LPT_PACKET_TM, other_version, 10, 0) == LPT_E_SHORT_HEADER);
    EXPECT(read_field(LPT_PACKET_TM, other_version, 11, 0) == LPT_E_PUS_VERSION);

    /* The status is written as 0. */
    WRITES(lpt_write_tm(&head, ABORTED + 17, 3, out, out_len, &needed), ABORTED, sizeof ABORTED);
    REFUSES(lpt_write_tm(&head, long_body, 65524, out, out_len, &needed), LPT_E_TOO_LONG);
    head.status = 16;
    REFUSES(lpt_write_tm(&head, FIRST, 4, out, out_len, &needed), LPT_E_RANGE);
    head.status = 15;
    head.count = 16384;
    REFUSES(lpt_write_tm(&head, FIRST, 4, out, out_len, &needed), LPT_E_RANGE);
    head.count = 16383;
    head.apid = 2047;
    REFUSES(lpt_write_tm(&head, FIRST, 4, out, out_len, &needed), LPT_E_RANGE);
    free(long_body);
}

static void parts(void) {
    static const uint8_t zero[] = {0, 7, 0, 0, 1};
    uint8_t message[20], *long_message = buffer(65543);
    LptPart part = {7, 7, 7, 7, 7};
    uint32_t kind = 9;
    size_t k, needed = 0;
    for (k = 0; k < sizeof message; k++) {
        message[k] = (uint8_t)k;
    }
    EXPECT(lpt_part_kind(LPT_PACKET_TC, 13, 9) == LPT_PART_FIRST);
    EXPECT(lpt_part_kind(LPT_PACKET_TC, 13, 10) == LPT_PART_INTERMEDIATE);
    EXPECT(lpt_part_kind(LPT_PACKET_TC, 13, 11) == LPT_PART_LAST);
    EXPECT(lpt_part_kind(LPT_PACKET_TM, 13, 1) == LPT_PART_FIRST);
    EXPECT(lpt_part_kind(LPT_PACKET_TM, 13, 2) == LPT_PART_INTERMEDIATE);
    EXPECT(lpt_part_kind(LPT_PACKET_TM, 13, 3) == LPT_PART_LAST);
    EXPECT(lpt_part_kind(LPT_PACKET_TC, 13, 1) == LPT_PART_NONE &&
           lpt_part_kind(LPT_PACKET_TM, 13, 9) == LPT_PART_NONE &&
           lpt_part_kind(LPT_PACKET_TC, 6, 9) == LPT_PART_NONE &&
           lpt_part_kind(LPT_PACKET_TM, 13, 16) == LPT_PART_NONE &&
           lpt_part_kind(2, 13, 9) == LPT_PART_NONE);
    EXPECT(lpt_part_count(20, 8) == 3 && lpt_part_count(16, 8) == 2 && lpt_part_count(9, 8) == 2);
    EXPECT(lpt_part_count(65542, 4) == 16386 && lpt_part_count(65542, 1024) == 65);
    EXPECT(lpt_part_count(20, 3) == 0 && lpt_part_count(20, 1025) == 0 &&
           lpt_part_count(0, 8) == 0 && lpt_part_count(65543, 8) == 0);

    WRITES(lpt_slice_part(message, 20, 8, 7, 1, &kind, out, out_len, &needed), FIRST + 11, 12);
    EXPECT(kind == LPT_PART_FIRST);
    WRITES(lpt_slice_part(message, 20, 8, 7, 3, &kind, out, out_len, &needed), LAST + 11, 8);
    EXPECT(kind == LPT_PART_LAST);
    EXPECT(lpt_slice_part(message, 20, 8, 7, 2, &kind, long_message, 12, &needed) == LPT_DONE);
    EXPECT(kind == LPT_PART_INTERMEDIATE && needed == 12 &&
           memcmp(long_message + 4, message + 8, 8) == 0);
    kind = 9;
    REFUSES(lpt_slice_part(message, 20, 3, 7, 1, &kind, out, out_len, &needed), LPT_E_RANGE);
    REFUSES(lpt_slice_part(message, 20, 1025, 7, 1, &kind, out, out_len, &needed), LPT_E_RANGE);
    REFUSES(lpt_slice_part(message, 8, 8, 7, 1, &kind, out, out_len, &needed), LPT_E_SHORT_MESSAGE);
    REFUSES(lpt_slice_part(long_message, 65543, 8, 7, 1, &kind, out, out_len, &needed),
            LPT_E_LONG_MESSAGE);
    REFUSES(lpt_slice_part(message, 20, 8, 7, 0, &kind, out, out_len, &needed), LPT_E_NO_SUCH_PART);
    REFUSES(lpt_slice_part(message, 20, 8, 7, 4, &kind, out, out_len, &needed), LPT_E_NO_SUCH_PART);
    EXPECT(kind == 9);

    EXPECT(lpt_read_part(LPT_PART_FIRST, FIRST + 11, 12, 8, &part) == LPT_DONE);
    EXPECT(part.id == 7 && part.number == 1 && part.kind == LPT_PART_FIRST && part.at == 4 &&
           part.len == 8);
    EXPECT(lpt_read_part(LPT_PART_LAST, LAST + 11, 8, 8, &part) == LPT_DONE);
    EXPECT(part.id == 7 && part.number == 3 && part.kind == LPT_PART_LAST && part.len == 4);
    part.len = 7;
    EXPECT(lpt_read_part(0, FIRST + 11, 12, 8, &part) == LPT_E_RANGE && part.len == 7);
    EXPECT(lpt_read_part(4, FIRST + 11, 12, 8, &part) == LPT_E_RANGE && part.len == 7);
    EXPECT(lpt_read_part(LPT_PART_FIRST, FIRST + 11, 12, 3, &part) == LPT_E_RANGE && part.len == 7);
    EXPECT(lpt_read_part(LPT_PART_FIRST, FIRST + 11, 3, 8, &part) == LPT_E_SHORT_PART &&
           part.len == 7);
    EXPECT(lpt_read_part(LPT_PART_LAST, zero, 5, 8, &part) == LPT_E_ZERO_NUMBER && part.len == 7);
    EXPECT(lpt_read_part(LPT_PART_FIRST, LAST + 11, 8, 8, &part) == LPT_E_KIND_NUMBER &&
           part.len == 7);
    EXPECT(lpt_read_part(LPT_PART_FIRST, FIRST + 11, 11, 8, &part) == LPT_E_PART_LENGTH &&
           part.len == 7);

    WRITES(lpt_write_part(LPT_PART_FIRST, 7, 1, message, 8, 8, out, out_len, &needed), FIRST + 11,
           12);
    WRITES(lpt_write_part(LPT_PART_LAST, 7, 3, message + 16, 4, 8, out, out_len, &needed),
           LAST + 11, 8);
    REFUSES(lpt_write_part(0, 7, 1, message, 8, 8, out, out_len, &needed), LPT_E_RANGE);
    REFUSES(lpt_write_part(LPT_PART_FIRST, 7, 1, message, 8, 2000, out, out_len, &needed),
            LPT_E_RANGE);
    REFUSES(lpt_write_part(LPT_PART_LAST, 7, 0, message, 8, 8, out, out_len, &needed),
            LPT_E_ZERO_NUMBER);
    REFUSES(lpt_write_part(LPT_PART_FIRST, 7, 2, message, 8, 8, out, out_len, &needed),
            LPT_E_KIND_NUMBER);
    REFUSES(lpt_write_part(LPT_PART_LAST, 7, 1, message, 8, 8, out, out_len, &needed),
            LPT_E_KIND_NUMBER);
    REFUSES(lpt_write_part(LPT_PART_FIRST, 7, 1, message, 7, 8, out, out_len, &needed),
            LPT_E_PART_LENGTH);
    REFUSES(lpt_write_part(LPT_PART_LAST, 7, 2, message, 0, 8, out, out_len, &needed),
            LPT_E_PART_LENGTH);
    REFUSES(lpt_write_part(LPT_PART_LAST, 7, 65535, message, 8, 8, out, out_len, &needed),
            LPT_E_PART_LENGTH);
    free(long_message);
}

/* What stands in the buffer already, where it is to stand. */
static void in_place(void) {
    LptTcHead tc = {100, 0, 0, 13, 9, 1};
    LptTmHead tm = {100, 0, 5, 13, 16, 0, 1, 19};
    uint8_t packet[sizeof FIRST];
    size_t needed = 9;
    BUILDS(lpt_build_packet(LPT_PACKET_TC, 100, 0, sizeof FIRST - 8, out, out_len, &needed), 6,
           sizeof FIRST - 8, FIRST, sizeof FIRST);
    BUILDS(lpt_build_tc(&tc, sizeof FIRST - 13, out, out_len, &needed), 11, sizeof FIRST - 13,
           FIRST, sizeof FIRST);
    BUILDS(lpt_build_tm(&tm, 3, out, out_len, &needed), 17, 3, ABORTED, sizeof ABORTED);
    BUILDS(lpt_build_part(LPT_PART_FIRST, 7, 1, 8, 8, out, out_len, &needed), 4, 8, FIRST + 11, 12);

    memcpy(packet + 15, FIRST + 15, 8);
    EXPECT(lpt_build_part(LPT_PART_FIRST, 7, 1, 8, 8, packet + 11, 12, &needed) == LPT_DONE);
    EXPECT(lpt_build_tc(&tc, needed, packet, sizeof packet, &needed) == LPT_DONE);
    EXPECT(needed == sizeof FIRST && memcmp(packet, FIRST, sizeof FIRST) == 0);
    EXPECT(lpt_build_tc(&tc, 65530, packet, sizeof packet, &needed) == LPT_E_TOO_LONG);
    EXPECT(lpt_build_tm(&tm, (size_t)-1, packet, sizeof packet, &needed) == LPT_E_TOO_LONG);
    EXPECT(lpt_build_packet(LPT_PACKET_TM, 100, 0, 65535, NULL, 0, &needed) == LPT_E_TOO_LONG);
    EXPECT(lpt_build_packet(2, 100, 0, 9, packet, sizeof packet, &needed) == LPT_E_RANGE);
    EXPECT(lpt_build_part(LPT_PART_LAST, 7, 3, 9, 8, packet, sizeof packet, &needed) ==
           LPT_E_PART_LENGTH);
    EXPECT(needed == sizeof FIRST && memcmp(packet, FIRST, sizeof FIRST) == 0);
    EXPECT(lpt_build_tc(&tc, 65529, packet, sizeof packet, &needed) == LPT_E_ROOM);
    EXPECT(needed == 65542 && memcmp(packet, FIRST, sizeof FIRST) == 0);
}

static void aborts(void) {
    LptAbort aborted = {9, 9};
    static const uint8_t other[] = {0, 7, 4};
    EXPECT(lpt_read_abort(ABORTED + 17, 3, &aborted) == LPT_DONE && aborted.id == 7 &&
           aborted.reason == 1);
    EXPECT(lpt_read_abort(ABORTED + 17, 2, &aborted) == LPT_E_ABORT_BODY && aborted.id == 7);
    EXPECT(lpt_read_abort(ABORTED + 17, 4, &aborted) == LPT_E_ABORT_BODY && aborted.id == 7);
    EXPECT(lpt_read_abort(other, 3, &aborted) == LPT_E_ABORT_BODY && aborted.reason == 1);
    WRITES(lpt_write_abort(7, 1, out, out_len, &needed), ABORTED + 17, 3);
    REFUSES(lpt_write_abort(7, 0, out, out_len, &needed), LPT_E_RANGE);
    REFUSES(lpt_write_abort(7, 4, out, out_len, &needed), LPT_E_RANGE);
}

static void reports(void) {
    LptReport report = {9, 9, 9};
    static const uint8_t refused[] = {0x18, 0x64, 0xc0, 0x00, 0x00, 0x05};
    EXPECT(lpt_read_report(1, ACCEPTED + 17, 4, &report) == LPT_DONE);
    EXPECT(report.request == 0x1864c000 && report.failed == 0 && report.code == 0);
    EXPECT(lpt_read_report(4, refused, 6, &report) == LPT_DONE);
    EXPECT(report.request == 0x1864c000 && report.failed == 1 && report.code == 5);
    EXPECT(lpt_read_report(4, refused, 4, &report) == LPT_E_NO_REPORT && report.code == 5);
    EXPECT(lpt_read_report(1, refused, 6, &report) == LPT_E_NO_REPORT && report.code == 5);
    EXPECT(lpt_read_report(5, refused, 4, &report) == LPT_E_NO_REPORT && report.code == 5);
    WRITES(lpt_write_report(1, 0x1864c000, 0, out, out_len, &needed), ACCEPTED + 17, 4);
    WRITES(lpt_write_report(4, 0x1864c000, 5, out, out_len, &needed), refused, 6);
    REFUSES(lpt_write_report(1, 0x1864c000, 5, out, out_len, &needed), LPT_E_RANGE);
    REFUSES(lpt_write_report(2, 0x1864c000, 0, out, out_len, &needed), LPT_E_RANGE);
    REFUSES(lpt_write_report(4, 0x1864c000, 9, out, out_len, &needed), LPT_E_RANGE);
    REFUSES(lpt_write_report(8, 0x1864c000, 0, out, out_len, &needed), LPT_E_RANGE);
}

/* The most places, and one more. */
static LptRange places[256];

static void requests(void) {
    static const LptRange two[] = {{0x01020304, 0x0506}, {0, 65535}};
    static const LptRange empty[] = {{1, 2}, {3, 0}};
    static const uint8_t body[] = {9, 2, 1, 2, 3, 4, 5, 6, 0, 0, 0, 0, 0xff, 0xff};
    static const uint8_t told[] = {9, 2, 0, 0, 0, 0, 0, 1, 1, 1, 1, 2, 3, 4, 5, 6, 7, 8};
    static const uint8_t dump[] = {9,    2,    0, 0, 0, 0x10, 0, 2, 0,    0,   0x1d,
                                   0x0f, 0xff, 0, 0, 0, 0,    1, 0, 0xe1, 0xf1};
    static uint8_t most[2 + 6 * 255];
    LptDumped dumped = {7, 7, 7, 7, 7};
    uint8_t *long_load = buffer(65520);
    LptChecked area = {0, 0, 0, 0, 0};
    size_t k;
    most[0] = 7;
    most[1] = 255;
    for (k = 0; k < 256; k++) {
        places[k].address = (uint32_t)k;
        places[k].len = 1;
    }
    for (k = 0; k < 255; k++) {
        most[2 + 6 * k + 3] = (uint8_t)k;
        most[2 + 6 * k + 5] = 1;
    }
    /* A load's body is that of the report which answers a dump. */
    WRITES(lpt_write_load(1, 16, dump + 8, 2, out, out_len, &needed), DUMPED + 17, 12);
    REFUSES(lpt_write_load(1, 16, dump, 0, out, out_len, &needed), LPT_E_BAD_AREA);
    REFUSES(lpt_write_load(1, 16, long_load, 65520, out, out_len, &needed), LPT_E_LONG_LOAD);
    k = 0;
    EXPECT(lpt_write_load(1, 16, long_load, 65519, long_load, 0, &k) == LPT_E_ROOM && k == 65529);
    free(long_load);
    EXPECT(lpt_read_dump(dump, 21, 0, &dumped) == LPT_DONE && dumped.memory == 9);
    EXPECT(dumped.areas == 2 && dumped.address == 16 && dumped.at == 8 && dumped.len == 2);
    EXPECT(lpt_read_dump(dump, 21, 1, &dumped) == LPT_E_CHECKSUM && dumped.at == 8);
    EXPECT(lpt_read_dump(dump, 21, 2, &dumped) == LPT_E_RANGE && dumped.at == 8);
    EXPECT(lpt_read_dump(dump, 20, 0, &dumped) == LPT_E_NO_REPORT && dumped.at == 8);
    EXPECT(lpt_read_dump(dump, 12, 0, &dumped) == LPT_E_NO_REPORT);
    EXPECT(lpt_read_dump(dump, 1, 0, &dumped) == LPT_E_NO_REPORT);
    EXPECT(lpt_read_dump(told + 2, 2, 0, &dumped) == LPT_E_NO_REPORT && dumped.at == 8);
    EXPECT(lpt_read_dump(DUMPED + 17, 12, 0, &dumped) == LPT_DONE && dumped.memory == 1);
    EXPECT(dumped.areas == 1 && lpt_read_dump(DUMPED + 17, 13, 0, &dumped) == LPT_E_NO_REPORT);
    WRITES(lpt_write_dump(9, two, 2, out, out_len, &needed), body, sizeof body);
    WRITES(lpt_write_check(9, two, 2, out, out_len, &needed), body, sizeof body);
    WRITES(lpt_write_dump(7, places, 255, out, out_len, &needed), most, sizeof most);
    REFUSES(lpt_write_dump(7, places, 256, out, out_len, &needed), LPT_E_BAD_AREA);
    REFUSES(lpt_write_dump(7, places, 0, out, out_len, &needed), LPT_E_BAD_AREA);
    REFUSES(lpt_write_check(7, empty, 2, out, out_len, &needed), LPT_E_BAD_AREA);
    EXPECT(lpt_read_check(told, 18, 1, &area) == LPT_DONE && area.memory == 9 && area.areas == 2);
    EXPECT(area.address == 0x01020304 && area.len == 0x0506 && area.checksum == 0x0708);
    EXPECT(lpt_read_check(told, 18, 0, &area) == LPT_DONE && area.address == 0 && area.len == 1);
    EXPECT(lpt_read_check(told, 18, 2, &area) == LPT_E_RANGE && area.len == 1);
    EXPECT(lpt_read_check(told, 17, 1, &area) == LPT_E_NO_REPORT && area.len == 1);
    EXPECT(lpt_read_check(told, 1, 0, &area) == LPT_E_NO_REPORT);
    EXPECT(lpt_read_check(told + 2, 2, 0, &area) == LPT_E_NO_REPORT);
}

int main(void) {
    checksums();
    lengths();
    pieces();
    packets();
    commands();
    telemetry();
    parts();
    in_place();
    aborts();
    reports();
    requests();
    printf("%u passed, %u failed\n", passed, failed);
    return failed != 0;
}
