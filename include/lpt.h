/*
 * Space packets (CCSDS 133.0-B), PUS headers, large packet transfer, request verification and raw
 * memory management (ECSS-E-ST-70-41C, services 13, 1 and 6), read from and written to the caller's
 * buffers.
 *
 * No call allocates memory. A call that can fail returns LPT_DONE, or the number of the first thing
 * that is wrong. Its comment lists these numbers in the order in which it tests them. If it doesn't
 * return LPT_DONE, it has written through pointers only what its comment says. docs/FORMATS.md has
 * the layouts and the faults, docs/C.md what the caller promises:
 *
 *   - a length is the true number of items at its pointer, and memory that a call reads is
 *     initialised. Memory that a call only writes, as `out` and `needed`, may be uninitialised;
 *   - a pointer is null only if its length is 0, and is aligned for its type;
 *   - memory that a call writes (a pointer without const) overlaps no other argument, and while the
 *     call runs nothing else writes to memory that it reads or writes. For octets that are already
 *     in their place there are the calls lpt_build_..
 *
 * Calls may run at once, on any threads, and in interrupts or signal handlers, if none writes to
 * memory that another reads or writes.
 */
#ifndef LPT_H
#define LPT_H

#include <stddef.h>
#include <stdint.h>

#ifdef __cplusplus
extern "C" {
#endif

/* ---- the version ---- */

/* The header's version: 1,000,000 for the major number, 1,000 for the minor one, 1 for the
   patch. */
#define LPT_VERSION_STRING "0.1.0"
#define LPT_VERSION_NUMBER 1000

/* Marks a result that the caller must use. */
#if defined(__GNUC__)
#define LPT_MUST_USE __attribute__((warn_unused_result))
#else
#define LPT_MUST_USE
#endif

/* The header doesn't compile if the compiler lays a structure out in another way. */
#define LPT_LAYOUT(structure, octets, alignment)                                                   \
    struct lpt_aligned_##structure {                                                               \
        char before;                                                                               \
        structure it;                                                                              \
    };                                                                                             \
    LPT_HOLDS(structure##_size, sizeof(structure) == (octets));                                    \
    LPT_HOLDS(structure##_alignment, offsetof(struct lpt_aligned_##structure, it) == (alignment))
#define LPT_FIELD(structure, field, at)                                                            \
    LPT_HOLDS(structure##_##field, offsetof(structure, field) == (at))
#define LPT_HOLDS(name, condition) typedef char lpt_holds_##name[(condition) ? 1 : -1]

#if !defined(__LP64__) || !(defined(__x86_64__) || defined(__AARCH64EL__))
#error "The libraries are for x86-64 and aarch64, little endian, with 64-bit pointers"
#endif

/* The archive's version, as LPT_VERSION_NUMBER is the header's. */
uint32_t lpt_version(void);

/* ---- what calls return ---- */

/* What a call returns, as a uint32_t: that it is done, or a fault. docs/FORMATS.md has the faults
   below 100, and those of states. All others are of the libraries alone. */
enum LptFault {
    LPT_DONE = 0,

    /* Octets that are no packet, in the order in which they are tested. */
    LPT_E_SHORT = 1,        /* they are fewer than 7 */
    LPT_E_VERSION = 2,      /* they don't begin with packet version 000 */
    LPT_E_LENGTH = 3,       /* they aren't as many as the header says */
    LPT_E_SEGMENTED = 4,    /* the sequence flags aren't 11 */
    LPT_E_NO_SECONDARY = 5, /* the secondary header flag is 0 */
    LPT_E_CHECKSUM = 6,     /* they are fewer than 8, or the last two aren't the checksum of those
                               before */

    /* A packet that isn't a message of the kind that is read; tested in the order 12, 13, 11. */
    LPT_E_PUS_VERSION = 11,  /* the PUS version isn't 2 */
    LPT_E_WRONG_TYPE = 12,   /* it is telemetry, and not a telecommand, or the other way round */
    LPT_E_SHORT_HEADER = 13, /* the data field is shorter than the secondary header */

    /* The packet to be written would have more than 65,542 octets. */
    LPT_E_TOO_LONG = 14,

    /* A body that is no part, in the order in which they are tested. */
    LPT_E_SHORT_PART = 20,  /* it has fewer than 4 octets */
    LPT_E_ZERO_NUMBER = 21, /* the part's number is 0 */
    LPT_E_KIND_NUMBER = 22, /* a first part's number isn't 1, or another part's number is 1 */
    LPT_E_PART_LENGTH = 23, /* the part is too short or too long, or ends after octet 65,542 */

    /* A body that is no abortion report. */
    LPT_E_ABORT_BODY = 24,

    /* Of an end: the memories aren't as lpt_end_new or lpt_end_new_sized says. */
    LPT_E_MEMORIES = 25,

    /* Of a load: its packet would have more than 65,542 octets. */
    LPT_E_LONG_LOAD = 27,
    /* Of a request to a memory: it has no area, more than 255, or one without octets. Of a job: it
       has no place, one without octets, or one with octets behind the last address; or it loads,
       and two of its places share an address. */
    LPT_E_BAD_AREA = 28,

    /* Of an end: the transaction's name isn't free. */
    LPT_E_IN_USE = 41,
    /* The message isn't longer than a part. */
    LPT_E_SHORT_MESSAGE = 42,
    /* The message has more than 65,542 octets, or a plain request is longer than the link takes. */
    LPT_E_LONG_MESSAGE = 43,
    /* Of an end: as many messages are open as its configuration allows. */
    LPT_E_TOO_MANY = 44,
    /* Of an end: no message of this name is open, or no reception of it. */
    LPT_E_NOT_OPEN = 45,
    /* The message has no part of that number. */
    LPT_E_NO_SUCH_PART = 46,

    /* Of an end. */
    LPT_E_NOTHING_DUE = 50, /* no reception is due */
    LPT_E_NO_JOB = 51,      /* there is no request to read or to execute */
    LPT_E_NOT_READ = 52,    /* the oldest request wasn't read */
    LPT_E_STILL_OPEN = 55,  /* the transaction is open */
    LPT_E_CLOCK_END = 56,   /* the clock would pass its greatest value */

    /* Of an end or a pass: an allocation was refused. */
    LPT_E_ALLOCATION = 58,
    /* Of an end: a plain request has the service type and message subtype of a part. */
    LPT_E_PART_REQUEST = 60,

    /* The first value of an end's configuration that is out of its range. */
    LPT_E_CONFIG_APID = 71,
    LPT_E_CONFIG_PART_SIZE = 72,
    LPT_E_CONFIG_TIMEOUT = 73,
    LPT_E_CONFIG_RECEPTIONS = 74,
    LPT_E_CONFIG_OUTGOING = 75,

    /* The octets are an idle packet. */
    LPT_E_IDLE = 101,
    /* A number is out of the range that the call's comment gives. */
    LPT_E_RANGE = 102,
    /* The buffer is too short. It is as it was, and `needed` says how many octets it must have. */
    LPT_E_ROOM = 103,
    /* The result depends on octets to come: more of the stream is needed. */
    LPT_E_MORE = 104,
    /* The body isn't the report that it is read as. */
    LPT_E_NO_REPORT = 105,
    /* Of an end or a pass: its content is lost, because a memory function was left by
       longjmp or by an exception. In Python: it was closed. */
    LPT_E_EMPTY = 106,
    /* Of an end: its count of released requests, or of restarts, has its greatest value,
       2^64 - 1. */
    LPT_E_NO_NUMBER = 108,
    /* Of an end or a pass: there is nothing to copy, to send or to return. */
    LPT_E_NOTHING = 109,
    /* Of an end: packets that wait must be sent first. */
    LPT_E_UNSENT = 110,

    /* Octets that are no state of this end, in the order in which they are tested. */
    LPT_E_STATE_SHORT = 111,    /* they are fewer than 45 */
    LPT_E_STATE_TAG = 112,      /* they don't begin with a state's tag */
    LPT_E_STATE_VERSION = 113,  /* they are of another version of states */
    LPT_E_STATE_LENGTH = 114,   /* they aren't as many as they say */
    LPT_E_STATE_SIDE = 115,     /* they are a state of the other side */
    LPT_E_STATE_CONFIG = 116,   /* they have another APID, part size or mode */
    LPT_E_STATE_CHECKSUM = 117, /* their checksum is wrong */
    LPT_E_STATE_ORDER = 118,    /* their names are out of order */

    /* Of an end: the call is for an end that has its memories itself, and this end's are with the
       caller; or the other way round. */
    LPT_E_ELSEWHERE = 119,
    /* Of an end: the caller passed more or fewer octets than the request reads. */
    LPT_E_READ_LENGTH = 120,
    /* A job takes more requests than a pass may have, 16,384. */
    LPT_E_LONG_JOB = 121,
    /* Of an end: the clock, or the tick at which a reception last got a part, would go below 0. */
    LPT_E_CLOCK_START = 125,
    /* Of an end: the oldest request was read already. */
    LPT_E_ALREADY_READ = 126
};

/* Returns the name of what a call returned, for example "too long" for LPT_E_TOO_LONG; "unknown"
   for another number. */
static inline const char *lpt_fault_name(uint32_t fault) {
    switch (fault) {
    case LPT_DONE:
        return "done";
    case LPT_E_SHORT:
        return "short";
    case LPT_E_VERSION:
        return "version";
    case LPT_E_LENGTH:
        return "length";
    case LPT_E_SEGMENTED:
        return "segmented";
    case LPT_E_NO_SECONDARY:
        return "no secondary";
    case LPT_E_CHECKSUM:
        return "checksum";
    case LPT_E_PUS_VERSION:
        return "pus version";
    case LPT_E_WRONG_TYPE:
        return "wrong type";
    case LPT_E_SHORT_HEADER:
        return "short header";
    case LPT_E_TOO_LONG:
        return "too long";
    case LPT_E_SHORT_PART:
        return "short part";
    case LPT_E_ZERO_NUMBER:
        return "zero number";
    case LPT_E_KIND_NUMBER:
        return "kind number";
    case LPT_E_PART_LENGTH:
        return "part length";
    case LPT_E_ABORT_BODY:
        return "abort body";
    case LPT_E_MEMORIES:
        return "memories";
    case LPT_E_LONG_LOAD:
        return "long load";
    case LPT_E_BAD_AREA:
        return "bad area";
    case LPT_E_IN_USE:
        return "in use";
    case LPT_E_SHORT_MESSAGE:
        return "short message";
    case LPT_E_LONG_MESSAGE:
        return "long message";
    case LPT_E_TOO_MANY:
        return "too many";
    case LPT_E_NOT_OPEN:
        return "not open";
    case LPT_E_NO_SUCH_PART:
        return "no such part";
    case LPT_E_NOTHING_DUE:
        return "nothing due";
    case LPT_E_NO_JOB:
        return "no job";
    case LPT_E_NOT_READ:
        return "not read";
    case LPT_E_STILL_OPEN:
        return "still open";
    case LPT_E_CLOCK_END:
        return "clock end";
    case LPT_E_ALLOCATION:
        return "allocation";
    case LPT_E_PART_REQUEST:
        return "part request";
    case LPT_E_CONFIG_APID:
        return "config apid";
    case LPT_E_CONFIG_PART_SIZE:
        return "config part size";
    case LPT_E_CONFIG_TIMEOUT:
        return "config timeout";
    case LPT_E_CONFIG_RECEPTIONS:
        return "config receptions";
    case LPT_E_CONFIG_OUTGOING:
        return "config outgoing";
    case LPT_E_IDLE:
        return "idle";
    case LPT_E_RANGE:
        return "range";
    case LPT_E_ROOM:
        return "room";
    case LPT_E_MORE:
        return "more";
    case LPT_E_NO_REPORT:
        return "no report";
    case LPT_E_EMPTY:
        return "empty";
    case LPT_E_NO_NUMBER:
        return "no number";
    case LPT_E_NOTHING:
        return "nothing";
    case LPT_E_UNSENT:
        return "unsent";
    case LPT_E_STATE_SHORT:
        return "state short";
    case LPT_E_STATE_TAG:
        return "state tag";
    case LPT_E_STATE_VERSION:
        return "state version";
    case LPT_E_STATE_LENGTH:
        return "state length";
    case LPT_E_STATE_SIDE:
        return "state side";
    case LPT_E_STATE_CONFIG:
        return "state config";
    case LPT_E_STATE_CHECKSUM:
        return "state checksum";
    case LPT_E_STATE_ORDER:
        return "state order";
    case LPT_E_ELSEWHERE:
        return "elsewhere";
    case LPT_E_READ_LENGTH:
        return "read length";
    case LPT_E_LONG_JOB:
        return "long job";
    case LPT_E_CLOCK_START:
        return "clock start";
    case LPT_E_ALREADY_READ:
        return "already read";
    default:
        return "unknown";
    }
}

/* ---- kinds ---- */

/* The kinds of packets. */
enum LptPacketKind { LPT_PACKET_TM = 0, LPT_PACKET_TC = 1 };

/* The kinds of parts, and what carries no part. */
enum LptPartKind {
    LPT_PART_NONE = 0,
    LPT_PART_FIRST = 1,
    LPT_PART_INTERMEDIATE = 2,
    LPT_PART_LAST = 3
};

/* The piece at the front of a stream. `in_step` is that of lpt_find_piece. */
enum LptPieceKind {
    /* A packet. In step three others are WHOLE too: an idle packet, and, with a right checksum, a
       packet that has no secondary header or that is a segment. For these lpt_read_packet returns
       LPT_E_IDLE, LPT_E_NO_SECONDARY or LPT_E_SEGMENTED. */
    LPT_PIECE_WHOLE = 1,
    /* Only in step: octets that are no packet, as many as their header says. After them the stream
       ends, or a packet follows that is WHOLE out of step. No such packet ends where they end. */
    LPT_PIECE_DAMAGED = 2,
    /* An octet with which no WHOLE or DAMAGED piece begins. */
    LPT_PIECE_STRAY = 3
};

/* Why a reception was aborted. */
enum LptReason {
    LPT_REASON_EXPIRED = 1,       /* it expired, or was given up */
    LPT_REASON_DISCONTINUITY = 2, /* in strict mode: a part came that is neither the next one nor
                                     one that was kept, for example part 2 before part 1 */
    LPT_REASON_CONFLICT = 3       /* a part contradicts another */
};

/* The name of an LptReason, for example "expired" of LPT_REASON_EXPIRED; "unknown" for another
   number. */
static inline const char *lpt_reason_name(uint32_t reason) {
    switch (reason) {
    case LPT_REASON_EXPIRED:
        return "expired";
    case LPT_REASON_DISCONTINUITY:
        return "discontinuity";
    case LPT_REASON_CONFLICT:
        return "conflict";
    default:
        return "unknown";
    }
}

/* The failure codes of reports. The first two say why a request wasn't accepted, the others why its
   execution didn't start. */
enum LptFailure {
    LPT_FAILURE_UNKNOWN_TYPE = 1,   /* its service or subtype is unknown */
    LPT_FAILURE_BODY = 2,           /* its body is malformed */
    LPT_FAILURE_UNKNOWN_MEMORY = 3, /* the memory doesn't exist */
    LPT_FAILURE_OUT_OF_RANGE = 4,   /* an area ends past the memory's end */
    LPT_FAILURE_CHECKSUM = 5,       /* an area of a load has a wrong checksum */
    LPT_FAILURE_REPLY_TOO_LONG = 6, /* the report would have more than 65,542 octets */
    LPT_FAILURE_NO_IDENTIFIER = 7,  /* the report goes in parts, and no name for it is free */
    LPT_FAILURE_TOO_MANY_OPEN = 8   /* it goes in parts, and too many messages are open */
};

/* The name of a failure code; "unknown" for any other code, which a report may have. */
static inline const char *lpt_failure_name(uint32_t failure) {
    switch (failure) {
    case LPT_FAILURE_UNKNOWN_TYPE:
        return "unknown type";
    case LPT_FAILURE_BODY:
        return "body";
    case LPT_FAILURE_UNKNOWN_MEMORY:
        return "unknown memory";
    case LPT_FAILURE_OUT_OF_RANGE:
        return "out of range";
    case LPT_FAILURE_CHECKSUM:
        return "checksum";
    case LPT_FAILURE_REPLY_TOO_LONG:
        return "reply too long";
    case LPT_FAILURE_NO_IDENTIFIER:
        return "no identifier";
    case LPT_FAILURE_TOO_MANY_OPEN:
        return "too many open";
    default:
        return "unknown";
    }
}

/* Sizes of buffers. */
enum {
    LPT_LONGEST_PACKET = 65542, /* the length of the longest packet, and of the longest message that
                                   is sent in parts */
    LPT_LOOKAHEAD = 131084,     /* so many octets of a stream are enough for lpt_find_piece */
    LPT_STRAY_ROOM = 2049       /* with so many numbers in `room` lpt_count_strays is quick */
};

/* ---- packets ---- */

/* Returns the packet error control (the checksum) of these octets. */
LPT_MUST_USE
uint16_t lpt_crc16(const uint8_t *octets, size_t octets_len);

/* The same for octets that come in pieces: `crc` is the result for the pieces before this one, or
   0xffff for the first. */
LPT_MUST_USE
uint16_t lpt_crc16_more(uint16_t crc, const uint8_t *octets, size_t octets_len);

/*
 * Returns the length of the packet at the front of a stream, from its first six octets. LPT_DONE
 * for a packet, LPT_E_IDLE for an idle one, which may be skipped; for both *length is written, 7 to
 * 65,542. LPT_E_VERSION if no packet begins with these octets; otherwise LPT_E_MORE if they are
 * fewer than six.
 */
LPT_MUST_USE
uint32_t lpt_packet_length(const uint8_t *octets, size_t octets_len, size_t *length);

/*
 * Finds the piece at the front of a stream that may be damaged. `in_step` is 1 if the octets begin
 * the stream, or come right after a packet or a damaged one. It is 0 after a stray octet. `is_end`
 * is 1 if nothing comes after the octets, and 0 if that isn't known. Any number but 0 is taken as
 * 1.
 *
 * LPT_DONE, and the piece's *kind (LPT_PIECE_WHOLE, LPT_PIECE_DAMAGED or LPT_PIECE_STRAY) and
 * *size (in octets, at least 1) are written: later octets won't change them. LPT_E_MORE if there
 * are no octets, or the piece depends on octets to come: never with LPT_LOOKAHEAD octets or more,
 * nor with `is_end` and at least one.
 */
LPT_MUST_USE
uint32_t lpt_find_piece(const uint8_t *octets, size_t octets_len, uint32_t in_step, uint32_t is_end,
                        uint32_t *kind, size_t *size);

/*
 * Counts stray octets. The octets come right after a stray one, and the result is how many more
 * follow at once: so many times in a row lpt_find_piece with `in_step` 0 would report
 * LPT_PIECE_STRAY. A call counts at most LPT_LONGEST_PACKET, and returns 0 if lpt_find_piece would
 * report something else. It is quicker than lpt_find_piece if headers among these octets announce
 * long packets, because it uses `room` for its calculations. With LPT_STRAY_ROOM numbers there,
 * each octet takes a bounded time. With fewer, or none, the result is the same. `room` needn't be
 * initialised, nor kept.
 */
LPT_MUST_USE
size_t lpt_count_strays(const uint8_t *octets, size_t octets_len, uint32_t is_end, uint16_t *room,
                        size_t room_len);

/* A packet that was read. Its data field is the len octets from octets[at] on. */
typedef struct LptPacket {
    uint32_t kind;  /* LPT_PACKET_TM or LPT_PACKET_TC */
    uint16_t apid;  /* 0 to 2046 */
    uint16_t count; /* the sequence count, 0 to 16,383 */
    size_t at;
    size_t len;
} LptPacket;

/* Reads octets as a packet: LPT_DONE, LPT_E_IDLE, or LPT_E_SHORT to LPT_E_CHECKSUM, the first that
   applies. *out is written at LPT_DONE. */
LPT_MUST_USE
uint32_t lpt_read_packet(const uint8_t *octets, size_t octets_len, LptPacket *out);

/*
 * Writes a packet to the front of a buffer, and leaves the rest of it as it was.
 * LPT_DONE; LPT_E_RANGE for a kind that is no LptPacketKind, an APID above 2046 or a count above
 * 16,383; LPT_E_TOO_LONG; LPT_E_ROOM. At LPT_DONE and LPT_E_ROOM *needed is the packet's length, 8
 * more than the field's.
 */
LPT_MUST_USE
uint32_t lpt_write_packet(uint32_t kind, uint16_t apid, uint16_t count, const uint8_t *field,
                          size_t field_len, uint8_t *out, size_t out_len, size_t *needed);

/*
 * Builds a packet in place: its data field, of field_len octets, is in the buffer already, from
 * out[6] on, and stays there. Returns what lpt_write_packet returns for those octets. If that isn't
 * LPT_DONE, the buffer stays as it was.
 */
LPT_MUST_USE
uint32_t lpt_build_packet(uint32_t kind, uint16_t apid, uint16_t count, size_t field_len,
                          uint8_t *out, size_t out_len, size_t *needed);

/* ---- telecommands and telemetry ---- */

/* What a telecommand's headers say. */
typedef struct LptTcHead {
    uint16_t apid;  /* 0 to 2046 */
    uint16_t count; /* 0 to 16,383 */
    uint8_t flags;  /* which reports are asked for, 0 to 15: the sum of 1 acceptance, 2 start, 4
                       progress, 8 completion */
    uint8_t service;
    uint8_t subtype;
    uint16_t source; /* the source ID */
} LptTcHead;

/* A telecommand that was read. Its body is the len octets from octets[at] on. */
typedef struct LptTc {
    LptTcHead head;
    size_t at;
    size_t len;
} LptTc;

/* Reads the octets of a whole packet as a telecommand. Returns what lpt_read_packet returns; or, if
   that is LPT_DONE, the first of LPT_E_WRONG_TYPE, LPT_E_SHORT_HEADER and LPT_E_PUS_VERSION that
   applies; otherwise LPT_DONE, and *out is written. */
LPT_MUST_USE
uint32_t lpt_read_tc(const uint8_t *octets, size_t octets_len, LptTc *out);

/*
 * Writes a telecommand's whole packet to the front of a buffer, and leaves the rest of it as it
 * was. LPT_DONE; LPT_E_RANGE for an APID above 2046, a count above 16,383 or flags above 15;
 * LPT_E_TOO_LONG; LPT_E_ROOM. At LPT_DONE and LPT_E_ROOM *needed is the packet's length, 13 more
 * than the body's.
 */
LPT_MUST_USE
uint32_t lpt_write_tc(const LptTcHead *head, const uint8_t *body, size_t body_len, uint8_t *out,
                      size_t out_len, size_t *needed);

/* Builds a telecommand's packet in place, as lpt_build_packet: its body, of body_len octets, is in
   the buffer already, from out[11] on. Returns what lpt_write_tc returns. */
LPT_MUST_USE
uint32_t lpt_build_tc(const LptTcHead *head, size_t body_len, uint8_t *out, size_t out_len,
                      size_t *needed);

/* Returns the request ID of a telecommand with this head: the first four octets of its packet.
   LPT_DONE, and *id is written; LPT_E_RANGE as lpt_write_tc. */
LPT_MUST_USE
uint32_t lpt_request_id(const LptTcHead *head, uint32_t *id);

/* What telemetry's headers say. */
typedef struct LptTmHead {
    uint16_t apid;  /* 0 to 2046 */
    uint16_t count; /* 0 to 16,383 */
    uint8_t status; /* the time reference status, 0 to 15 */
    uint8_t service;
    uint8_t subtype;
    uint16_t counter;     /* the message type counter */
    uint16_t destination; /* the destination ID */
    uint32_t time;        /* when the message was made, in ticks of the sender's clock */
} LptTmHead;

/* Telemetry that was read. Its body is the len octets from octets[at] on. */
typedef struct LptTm {
    LptTmHead head;
    size_t at;
    size_t len;
} LptTm;

/* Reads the octets of a whole packet as telemetry, as lpt_read_tc. */
LPT_MUST_USE
uint32_t lpt_read_tm(const uint8_t *octets, size_t octets_len, LptTm *out);

/*
 * Writes telemetry's whole packet to the front of a buffer, and leaves the rest of the buffer as it
 * was. The time reference status is written as 0, whatever the head says. LPT_DONE; LPT_E_RANGE for
 * an APID above 2046, a count above 16,383 or a status above 15; LPT_E_TOO_LONG; LPT_E_ROOM. At
 * LPT_DONE and LPT_E_ROOM *needed is the packet's length, 19 more than the body's.
 */
LPT_MUST_USE
uint32_t lpt_write_tm(const LptTmHead *head, const uint8_t *body, size_t body_len, uint8_t *out,
                      size_t out_len, size_t *needed);

/* Builds telemetry's packet in place, as lpt_build_packet: its body, of body_len octets, is in the
   buffer already, from out[17] on. Returns what lpt_write_tm returns. */
LPT_MUST_USE
uint32_t lpt_build_tm(const LptTmHead *head, size_t body_len, uint8_t *out, size_t out_len,
                      size_t *needed);

/* ---- parts of large messages ---- */

/* Returns which kind of part a packet carries: LPT_PART_FIRST, LPT_PART_INTERMEDIATE or
   LPT_PART_LAST. `packet_kind` is LPT_PACKET_TM or LPT_PACKET_TC; service and subtype are those of
   its message. The result is LPT_PART_NONE if such a packet carries no part, or if there is no such
   kind of packet. */
LPT_MUST_USE
uint32_t lpt_part_kind(uint32_t packet_kind, uint8_t service, uint8_t subtype);

/* Returns how many parts of this size a message has. The result is 1 if the message isn't longer
   than a part, although it isn't sent in parts then. It is 0 if the message is empty or has more
   than 65,542 octets, or if the size isn't 4 to 1,024. */
LPT_MUST_USE
uint32_t lpt_part_count(size_t message_len, uint32_t part_size);

/*
 * Writes the body that carries one part of a message, by the part's number from 1, to the front of
 * a buffer, and leaves the rest of it as it was. LPT_DONE; LPT_E_RANGE for a part size
 * that isn't 4 to 1,024 octets; LPT_E_SHORT_MESSAGE; LPT_E_LONG_MESSAGE; LPT_E_NO_SUCH_PART;
 * LPT_E_ROOM. At LPT_DONE and LPT_E_ROOM *needed is the body's length, and *kind the part's kind:
 * a telecommand that carries the part has the subtype 8 + *kind, and telemetry the subtype *kind.
 */
LPT_MUST_USE
uint32_t lpt_slice_part(const uint8_t *message, size_t message_len, uint32_t part_size, uint16_t id,
                        uint16_t number, uint32_t *kind, uint8_t *out, size_t out_len,
                        size_t *needed);

/* A part that was read. Its octets are the len octets from body[at] on. */
typedef struct LptPart {
    uint16_t id;     /* the transaction identifier */
    uint16_t number; /* from 1 */
    uint32_t kind;   /* LPT_PART_FIRST, LPT_PART_INTERMEDIATE or LPT_PART_LAST */
    size_t at;
    size_t len;
} LptPart;

/* Reads a message's body as a part of this kind: LPT_DONE; LPT_E_RANGE for a kind that isn't 1 to
   3, or a part size that isn't 4 to 1,024; or LPT_E_SHORT_PART to LPT_E_PART_LENGTH, the first that
   applies. *out is written at LPT_DONE. */
LPT_MUST_USE
uint32_t lpt_read_part(uint32_t kind, const uint8_t *body, size_t body_len, uint32_t part_size,
                       LptPart *out);

/*
 * Writes the body of a message that carries a part to the front of a buffer, and leaves the rest of
 * it as it was. LPT_DONE; LPT_E_RANGE for a kind that isn't 1 to 3, or a part size that isn't 4 to
 * 1,024; LPT_E_ZERO_NUMBER, LPT_E_KIND_NUMBER or LPT_E_PART_LENGTH, if there is no such part;
 * LPT_E_ROOM. At LPT_DONE and LPT_E_ROOM *needed is the body's length.
 */
LPT_MUST_USE
uint32_t lpt_write_part(uint32_t kind, uint16_t id, uint16_t number, const uint8_t *octets,
                        size_t octets_len, uint32_t part_size, uint8_t *out, size_t out_len,
                        size_t *needed);

/* Builds the body of a part in place, as lpt_build_packet: the part's octets are in the buffer
   already, from out[4] on. Returns what lpt_write_part returns. So a part at packet[15] becomes a
   body with packet + 11 as `out`, and then a telecommand's packet by lpt_build_tc. */
LPT_MUST_USE
uint32_t lpt_build_part(uint32_t kind, uint16_t id, uint16_t number, size_t octets_len,
                        uint32_t part_size, uint8_t *out, size_t out_len, size_t *needed);

/* What an abortion report says: which transaction was aborted, and why (an LptReason). */
typedef struct LptAbort {
    uint16_t id;
    uint16_t reason;
} LptAbort;

/* Reads a message's body as an abortion report: LPT_DONE, and *out is written; or
   LPT_E_ABORT_BODY. */
LPT_MUST_USE
uint32_t lpt_read_abort(const uint8_t *body, size_t body_len, LptAbort *out);

/* Writes the body of an abortion report to the front of a buffer, and leaves the rest of it as
   it was: LPT_DONE; LPT_E_RANGE for a reason that is no LptReason; LPT_E_ROOM. At LPT_DONE and
   LPT_E_ROOM *needed is 3. */
LPT_MUST_USE
uint32_t lpt_write_abort(uint16_t id, uint16_t reason, uint8_t *out, size_t out_len,
                         size_t *needed);

/* ---- verification reports ---- */

/* What a verification report says. */
typedef struct LptReport {
    uint32_t request; /* the request ID */
    uint16_t failed;  /* 1 if it is the report of a failure, otherwise 0 */
    uint16_t code;    /* the failure code of the report, any 16 bits; 0 for a success */
} LptReport;

/* Reads a message's body as the report of this subtype: 1, 3 or 7 of success, 2 or 4 of failure. It
   doesn't know the message's service: test first that this is 1.
   LPT_DONE, and *out is written; or LPT_E_NO_REPORT. */
LPT_MUST_USE
uint32_t lpt_read_report(uint8_t subtype, const uint8_t *body, size_t body_len, LptReport *out);

/*
 * Writes the body of the report of this subtype to the front of a buffer, and leaves the rest of it
 * as it was. Subtypes 1, 3 and 7 have code 0, and subtypes 2 and 4 a code of 1 to 8. LPT_DONE;
 * LPT_E_RANGE for another subtype, or for another code of this subtype; LPT_E_ROOM. At LPT_DONE and
 * LPT_E_ROOM *needed is the body's length: 4 of a success, 6 of a failure.
 */
LPT_MUST_USE
uint32_t lpt_write_report(uint8_t subtype, uint32_t request, uint16_t code, uint8_t *out,
                          size_t out_len, size_t *needed);

/* ---- requests to a memory, and what answers them: bodies of messages of service 6 ---- */

/*
 * Writes the body of a load of one area, subtype 2, to the front of a buffer, and leaves the rest
 * of it as it was. The load writes these octets into this memory, from this address on. Their
 * checksum is added.
 * LPT_DONE; LPT_E_BAD_AREA for no octets, LPT_E_LONG_LOAD for more than 65,519; LPT_E_ROOM. At
 * LPT_DONE and LPT_E_ROOM *needed is the body's length, 10 more than octets_len.
 */
LPT_MUST_USE
uint32_t lpt_write_load(uint8_t memory, uint32_t address, const uint8_t *octets, size_t octets_len,
                        uint8_t *out, size_t out_len, size_t *needed);

/* Octets of a memory, by their place. */
typedef struct LptRange {
    uint32_t address; /* of the first octet, from 0 */
    uint16_t len;     /* from 1 */
} LptRange;

/*
 * Writes the body of a dump, subtype 5, to the front of a buffer, and leaves the rest of it as it
 * was. The dump asks for the octets at these places of this memory, in this order. LPT_DONE;
 * LPT_E_BAD_AREA for no place, more than 255, or one without octets; LPT_E_ROOM. At LPT_DONE and
 * LPT_E_ROOM *needed is the body's length: 2, and 6 for each place.
 */
LPT_MUST_USE
uint32_t lpt_write_dump(uint8_t memory, const LptRange *ranges, size_t ranges_len, uint8_t *out,
                        size_t out_len, size_t *needed);

/* Writes the body of a check, subtype 9, as lpt_write_dump does that of a dump. A check asks for
   the checksums of the octets at these places. */
LPT_MUST_USE
uint32_t lpt_write_check(uint8_t memory, const LptRange *ranges, size_t ranges_len, uint8_t *out,
                         size_t out_len, size_t *needed);

/* An area of the report that answers a dump. Its octets are the len octets from body[at] on. */
typedef struct LptDumped {
    uint8_t memory;
    uint8_t areas; /* how many the report has */
    uint32_t address;
    size_t at;
    size_t len;
} LptDumped;

/* Reads one area of a message's body as the report of a dump, subtype 6, by its number from 0:
   LPT_DONE, and *out is written; LPT_E_NO_REPORT; LPT_E_RANGE if it has no such area;
   LPT_E_CHECKSUM if the area's checksum isn't that of its octets. */
LPT_MUST_USE
uint32_t lpt_read_dump(const uint8_t *body, size_t body_len, size_t number, LptDumped *out);

/* An area of the report that answers a check. */
typedef struct LptChecked {
    uint8_t memory;
    uint8_t areas; /* how many the report has */
    uint32_t address;
    uint16_t len;
    uint16_t checksum;
} LptChecked;

/* Reads one area of a message's body as the report of a check, subtype 10, by its number from 0:
   LPT_DONE, and *out is written; LPT_E_NO_REPORT; LPT_E_RANGE if it has no such area. */
LPT_MUST_USE
uint32_t lpt_read_check(const uint8_t *body, size_t body_len, size_t number, LptChecked *out);

/* ---- the structures as the library has them: size, alignment, offsets ---- */

LPT_LAYOUT(LptPacket, 24, 8);
LPT_FIELD(LptPacket, kind, 0);
LPT_FIELD(LptPacket, apid, 4);
LPT_FIELD(LptPacket, count, 6);
LPT_FIELD(LptPacket, at, 8);
LPT_FIELD(LptPacket, len, 16);

LPT_LAYOUT(LptTcHead, 10, 2);
LPT_FIELD(LptTcHead, apid, 0);
LPT_FIELD(LptTcHead, count, 2);
LPT_FIELD(LptTcHead, flags, 4);
LPT_FIELD(LptTcHead, service, 5);
LPT_FIELD(LptTcHead, subtype, 6);
LPT_FIELD(LptTcHead, source, 8);

LPT_LAYOUT(LptTc, 32, 8);
LPT_FIELD(LptTc, head, 0);
LPT_FIELD(LptTc, at, 16);
LPT_FIELD(LptTc, len, 24);

LPT_LAYOUT(LptTmHead, 16, 4);
LPT_FIELD(LptTmHead, apid, 0);
LPT_FIELD(LptTmHead, count, 2);
LPT_FIELD(LptTmHead, status, 4);
LPT_FIELD(LptTmHead, service, 5);
LPT_FIELD(LptTmHead, subtype, 6);
LPT_FIELD(LptTmHead, counter, 8);
LPT_FIELD(LptTmHead, destination, 10);
LPT_FIELD(LptTmHead, time, 12);

LPT_LAYOUT(LptTm, 32, 8);
LPT_FIELD(LptTm, head, 0);
LPT_FIELD(LptTm, at, 16);
LPT_FIELD(LptTm, len, 24);

LPT_LAYOUT(LptPart, 24, 8);
LPT_FIELD(LptPart, id, 0);
LPT_FIELD(LptPart, number, 2);
LPT_FIELD(LptPart, kind, 4);
LPT_FIELD(LptPart, at, 8);
LPT_FIELD(LptPart, len, 16);

LPT_LAYOUT(LptAbort, 4, 2);
LPT_FIELD(LptAbort, id, 0);
LPT_FIELD(LptAbort, reason, 2);

LPT_LAYOUT(LptReport, 8, 4);
LPT_FIELD(LptReport, request, 0);
LPT_FIELD(LptReport, failed, 4);
LPT_FIELD(LptReport, code, 6);

LPT_LAYOUT(LptRange, 8, 4);
LPT_FIELD(LptRange, address, 0);
LPT_FIELD(LptRange, len, 4);

LPT_LAYOUT(LptDumped, 24, 8);
LPT_FIELD(LptDumped, memory, 0);
LPT_FIELD(LptDumped, areas, 1);
LPT_FIELD(LptDumped, address, 4);
LPT_FIELD(LptDumped, at, 8);
LPT_FIELD(LptDumped, len, 16);

LPT_LAYOUT(LptChecked, 12, 4);
LPT_FIELD(LptChecked, memory, 0);
LPT_FIELD(LptChecked, areas, 1);
LPT_FIELD(LptChecked, address, 4);
LPT_FIELD(LptChecked, len, 8);
LPT_FIELD(LptChecked, checksum, 10);

#ifdef __cplusplus
}
#endif

#endif
