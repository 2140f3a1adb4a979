/*
 * One end of a link for large packet transfer (ECSS-E-ST-70-41C, service 13): ground's or the
 * spacecraft's. An end sends messages in parts, joins the parts that come, gives up receptions that
 * take too long, and knows which names are in use.
 *
 * A program holds an end by its address, an LptEnd *. lpt_end_new, lpt_end_resume and their like
 * return one, and lpt_end_free frees it. A copy of the address names the same end; what it points
 * to belongs to the library.
 *
 * Each call returns LPT_DONE, or the number of the first thing that is wrong. Its comment lists
 * these numbers in the order in which it tests them, and LPT_E_ALLOCATION (out of memory) last. If
 * a call doesn't return LPT_DONE, the end is as it was, and the call has written nothing through a
 * pointer but what its comment says. include/lpt.h explains the numbers. The comments leave out
 * LPT_E_EMPTY, which is returned only after a memory function was left by longjmp or an exception.
 *
 * docs/C.md explains what the caller promises:
 *
 *   - what include/lpt.h says about lengths, pointers and overlaps;
 *   - the address of an end was returned by a call, and lpt_end_free hasn't freed it;
 *   - only one call at a time uses an end, and none is made in an interrupt or a signal handler.
 *     Another thread may use an end if a lock, or the start or end of a thread, comes in between.
 *     Calls on different ends may run at once only if the three memory functions may;
 *   - each part or plain request that is handed to lpt_end_packet was made by the other end. If
 *     ground has no end on this link, a pass of lpt_ground.h or of `lpt ground` may have made it.
 *     So nobody forges such packets, no damage passes the checksum, and no octets within a packet
 *     are taken for a packet on the link;
 *   - each part that is handed to lpt_end_packet was made after this end last freed its name;
 *   - the rules at lpt_end_new, lpt_end_packet and lpt_end_retire, for the two ends of a link;
 *   - a program that has the memories itself reads them as lpt_end_access says, before
 *     lpt_end_execute_given. It makes each write that it is told, whole, before that call, or after
 *     it and before it executes another request. It restarts its end only if it has written nothing
 *     ahead of that call, or has put it back;
 *   - the program has the three memory functions, LptTried rattle_alloc(..) and so on, and they do
 *     what their comments say.
 */
#ifndef LPT_END_H
#define LPT_END_H

#include "lpt.h"

#include <stdbool.h>

#ifdef __cplusplus
extern "C" {
#endif

/* The sides. */
enum LptSide { LPT_SIDE_GROUND = 0, LPT_SIDE_SPACECRAFT = 1 };

/* The directions. Up is from ground to the spacecraft. */
enum LptDirection { LPT_DIRECTION_UP = 0, LPT_DIRECTION_DOWN = 1 };

/* In which order an end takes parts: in any order, or strictly in the order of their numbers. */
enum LptMode { LPT_MODE_ANY = 0, LPT_MODE_STRICT = 1 };

/* ---- an end ---- */

/* An end. */
typedef struct LptEnd LptEnd;

/*
 * What is fixed about an end. Both ends of a link have the same APID, part size and mode, because
 * they make and join packets by these. The other values are an end's own. An end that is restored
 * from a state may have another timeout and other limits than before. It must have the same APID,
 * part size and mode; otherwise lpt_end_resume returns LPT_E_STATE_CONFIG.
 */
typedef struct LptConfig {
    uint16_t apid;       /* of all packets, 0 to 2046 */
    uint32_t part_size;  /* in octets, 4 to 1024 */
    uint32_t timeout;    /* of a reception, in ticks, 1 to 65,535 */
    uint32_t receptions; /* how many may be open, 1 to 64 */
    uint32_t outgoing;   /* how many messages may be open for sending, 1 to 64 */
    uint32_t clock;      /* its first value, in ticks */
    uint32_t mode;       /* LPT_MODE_ANY or LPT_MODE_STRICT */
} LptConfig;

/* The name of a transaction within its direction. A transaction is the transfer of one message:
   an open message at its sender, a reception at its receiver. Parts with the same identifier and
   different sources belong to different transactions. */
typedef struct LptName {
    uint16_t source; /* the source ID of telecommands up, the destination ID of telemetry down */
    uint16_t id;     /* the identifier in the parts */
} LptName;

/* A memory of a new end. Its initial octets are content[at] to content[at + len - 1]. */
typedef struct LptMemory {
    uint8_t id; /* its identifier */
    size_t at;
    size_t len; /* 1 to 1,048,576 */
} LptMemory;

/*
 * Makes an end. A spacecraft's end has these memories, and copies their initial octets from the
 * content. Ground's end has no memories, and the call looks at neither the list nor the content.
 * A new end is no restart of an old one, because it doesn't know which names were used. So if an
 * end was lost and is made anew, make the other end anew too, and let no older packet come.
 * LPT_DONE, and *end is its address; LPT_E_RANGE for another side or mode; LPT_E_CONFIG_APID to
 * LPT_E_CONFIG_OUTGOING; LPT_E_MEMORIES if the spacecraft's memories aren't 1 to 16 with distinct
 * identifiers, of 1 to 1,048,576 octets each, all within the content; LPT_E_ALLOCATION.
 */
LPT_MUST_USE
uint32_t lpt_end_new(LptEnd **end, uint32_t side, const LptConfig *config,
                     const LptMemory *memories, size_t memories_len, const uint8_t *content,
                     size_t content_len);

/* Frees an end with all its memory. Its address may not be used any more. NULL does nothing. */
void lpt_end_free(LptEnd *end);

/* ---- receiving ---- */

/* What became of a packet. Behind the colon stand the fields of LptOutcome that are used: `name` is
   the packet's transaction, and `first` and `second` are numbers. */
enum LptOutcomeKind {
    LPT_OUTCOME_KEPT = 1,           /* a part: name; first is its number */
    LPT_OUTCOME_AGAIN = 2,          /* a part that was kept before: name; first is its number */
    LPT_OUTCOME_RELEASED = 3,       /* the last missing part, so the message is released: name;
                                       first is the message's length */
    LPT_OUTCOME_PLAIN_RELEASED = 4, /* a telecommand that is no part: first is its length */
    LPT_OUTCOME_REPORT_NOTED = 5,   /* telemetry that is no part: first is its service type, second
                                       its message subtype */
    LPT_OUTCOME_ABORT_NOTED = 6,    /* the report of an abortion: name; first is the LptReason */
    LPT_OUTCOME_BROKEN = 7,         /* a part that aborted its reception, or in strict mode a part
                                       that came first and isn't part 1. Either closes the name:
                                       name; first is the LptReason */
    LPT_OUTCOME_IGNORED = 8         /* a packet that changed nothing (but the message that was
                                       released last can't be copied any more): first is the
                                       LptWhy */
};

/* The name of an outcome's kind, for example "kept" of LPT_OUTCOME_KEPT; "unknown" for another
   number. */
static inline const char *lpt_outcome_name(uint32_t outcome) {
    switch (outcome) {
    case LPT_OUTCOME_KEPT:
        return "kept";
    case LPT_OUTCOME_AGAIN:
        return "again";
    case LPT_OUTCOME_RELEASED:
        return "released";
    case LPT_OUTCOME_PLAIN_RELEASED:
        return "plain released";
    case LPT_OUTCOME_REPORT_NOTED:
        return "report noted";
    case LPT_OUTCOME_ABORT_NOTED:
        return "abort noted";
    case LPT_OUTCOME_BROKEN:
        return "broken";
    case LPT_OUTCOME_IGNORED:
        return "ignored";
    default:
        return "unknown";
    }
}

/* Why an end ignored a packet. */
enum LptWhy {
    LPT_WHY_UNREADABLE = 1,   /* not read as a packet (also a sound one without a secondary header,
                                 or a segment, of any APID), or of the wrong kind: the spacecraft
                                 takes telecommands, ground telemetry */
    LPT_WHY_IDLE = 2,         /* an idle packet */
    LPT_WHY_FOREIGN_APID = 3, /* another APID */
    LPT_WHY_BAD_PART = 4,     /* a part, or a report of an abortion, whose body can't be read */
    LPT_WHY_CLOSED = 5,       /* its transaction has ended */
    LPT_WHY_NO_ROOM = 6       /* as many receptions are open as may be */
};

/* The name of an LptWhy; "unknown" for another number. */
static inline const char *lpt_why_name(uint32_t why) {
    switch (why) {
    case LPT_WHY_UNREADABLE:
        return "unreadable";
    case LPT_WHY_IDLE:
        return "idle";
    case LPT_WHY_FOREIGN_APID:
        return "foreign apid";
    case LPT_WHY_BAD_PART:
        return "bad part";
    case LPT_WHY_CLOSED:
        return "closed";
    case LPT_WHY_NO_ROOM:
        return "no room";
    default:
        return "unknown";
    }
}

/* What became of a packet. A field that its kind doesn't use is 0. */
typedef struct LptOutcome {
    uint32_t kind;
    LptName name;
    uint32_t first;
    uint32_t second;
} LptOutcome;

/*
 * Takes a packet that came, and returns what became of it. If the packet released a message, this
 * can be copied until the next packet is taken. If a spacecraft's end aborts a reception, a report
 * of that waits to be sent.
 * The layer below must know where packets begin and end. Don't search damaged octets for the next
 * packet: a message may contain packets, and the end would take one of those as if it had been
 * sent.
 * LPT_DONE, and *outcome is written; LPT_E_NO_NUMBER; LPT_E_ALLOCATION.
 */
LPT_MUST_USE
uint32_t lpt_end_packet(LptEnd *end, const uint8_t *octets, size_t octets_len, LptOutcome *outcome);

/*
 * Copies the message that the last packet released to the front of a buffer, and leaves the rest of
 * the buffer as it was. LPT_DONE; LPT_E_NOTHING if it released none; LPT_E_ROOM. At LPT_DONE and
 * LPT_E_ROOM *needed is the message's length, at most 65,542.
 */
LPT_MUST_USE
uint32_t lpt_end_released(LptEnd *end, uint8_t *out, size_t out_len, size_t *needed);

/*
 * Gives up a reception to which no part came for as long as the timeout. If several are due, it is
 * the one that has waited longest. If several have waited as long, it is the one with the least
 * source, and of one source the one with the least identifier. At a spacecraft's end, a report of
 * this waits to be sent.
 * LPT_DONE, and *name is its name; LPT_E_NOTHING_DUE; LPT_E_ALLOCATION.
 */
LPT_MUST_USE
uint32_t lpt_end_expire(LptEnd *end, LptName *name);

/*
 * Gives up the open reception of a name before it is due, for example if the sender was reset. At
 * a spacecraft's end, a report of this waits to be sent, with the reason of an expiry.
 * LPT_DONE; LPT_E_NOT_OPEN if no reception of the name is open; LPT_E_ALLOCATION.
 */
LPT_MUST_USE
uint32_t lpt_end_give_up(LptEnd *end, const LptName *name);

/* ---- sending ---- */

/*
 * Opens a message, so that it can be sent in parts under a free name. The end copies it.
 * LPT_DONE; LPT_E_IN_USE if the name isn't free; LPT_E_SHORT_MESSAGE if the message isn't longer
 * than a part (lpt_end_plain sends a request in one packet); LPT_E_LONG_MESSAGE; LPT_E_TOO_MANY;
 * LPT_E_ALLOCATION.
 */
LPT_MUST_USE
uint32_t lpt_end_open(LptEnd *end, const LptName *name, const uint8_t *message, size_t message_len);

/* Makes the packet of a part of an open message, by the part's number from 1, and queues it behind
   the packets that wait to be sent.
   LPT_DONE; LPT_E_NOT_OPEN; LPT_E_NO_SUCH_PART; LPT_E_ALLOCATION. */
LPT_MUST_USE
uint32_t lpt_end_part(LptEnd *end, const LptName *name, uint16_t number);

/*
 * Makes the packet of a plain request with this source, these acknowledgement flags, service type,
 * message subtype and body, and queues it behind the packets that wait to be sent. Only ground
 * makes requests. Reports on the request go to its source. The spacecraft executes the request as
 * often as the packet is delivered.
 * LPT_DONE; LPT_E_RANGE for flags above 15, and at the spacecraft; LPT_E_PART_REQUEST;
 * LPT_E_LONG_MESSAGE if the packet would be longer than part_size + 23 octets;
 * LPT_E_ALLOCATION.
 */
LPT_MUST_USE
uint32_t lpt_end_plain(LptEnd *end, uint16_t source, uint8_t flags, uint8_t service,
                       uint8_t subtype, const uint8_t *body, size_t body_len);

/* Closes an open message, and frees its memory. LPT_DONE; LPT_E_NOT_OPEN. */
LPT_MUST_USE
uint32_t lpt_end_finish(LptEnd *end, const LptName *name);

/*
 * Copies the next packet to be sent to the front of a buffer, and leaves the rest of the buffer as
 * it was. LPT_DONE; LPT_E_NOTHING if none waits; LPT_E_ROOM. At LPT_DONE and LPT_E_ROOM *needed is
 * the packet's length, at most part_size + 23. The packet stays the next one until lpt_end_sent.
 */
LPT_MUST_USE
uint32_t lpt_end_outgoing(LptEnd *end, uint8_t *out, size_t out_len, size_t *needed);

/* Drops the next packet to be sent, because it was sent. LPT_DONE; LPT_E_NOTHING if none waits. */
LPT_MUST_USE
uint32_t lpt_end_sent(LptEnd *end);

/* ---- the requests that the spacecraft released ---- */

/* What became of a request. */
enum LptAppliedKind {
    LPT_APPLIED_CARRIED_OUT = 1,
    LPT_APPLIED_OPENED = 2, /* carried out; its report is the open message `name`, sent in parts */
    LPT_APPLIED_SILENT = 3, /* nothing was done: the request is no telecommand of the APID */
    LPT_APPLIED_REFUSED = 4 /* it failed, and changed nothing: `value` is the LptFailure */
};

/* The name of an LptAppliedKind, for example "carried out" of LPT_APPLIED_CARRIED_OUT; "unknown"
   for another number. */
static inline const char *lpt_applied_name(uint32_t applied) {
    switch (applied) {
    case LPT_APPLIED_CARRIED_OUT:
        return "carried out";
    case LPT_APPLIED_OPENED:
        return "opened";
    case LPT_APPLIED_SILENT:
        return "silent";
    case LPT_APPLIED_REFUSED:
        return "refused";
    default:
        return "unknown";
    }
}

/* What became of a request. A field that its kind doesn't use is 0. */
typedef struct LptApplied {
    uint32_t kind;
    LptName name;
    uint32_t value;
} LptApplied;

/* Reads the oldest released request that wasn't read yet: finds out what it asks, so that
   lpt_end_execute can execute it. LPT_DONE; LPT_E_NO_JOB if there is none, as always on ground;
   LPT_E_ALLOCATION. */
LPT_MUST_USE
uint32_t lpt_end_read(LptEnd *end);

/*
 * Returns the service type and message subtype of the oldest released request that wasn't read yet,
 * so that a program sees whether it is for memory management (service 6) or for a service of its
 * own. LPT_DONE, and *service and *subtype are written; LPT_E_NO_JOB, as always on ground;
 * LPT_E_NOTHING if the request is no telecommand of the end's APID.
 */
LPT_MUST_USE
uint32_t lpt_end_asked(LptEnd *end, uint8_t *service, uint8_t *subtype);

/* An area of a memory. */
typedef struct LptArea {
    uint8_t memory;   /* its identifier */
    uint32_t address; /* of the area's first octet */
    size_t len;
} LptArea;

/*
 * Returns where a load will write: the area with this number, from 0, of the oldest released
 * request that wasn't read yet. If lpt_end_execute carries the load out (applied->kind is
 * LPT_APPLIED_CARRIED_OUT), it writes its areas exactly there, in their order. Otherwise it writes
 * none.
 * LPT_DONE, and *area is written; LPT_E_NO_JOB, as always on ground; LPT_E_NOTHING if the request
 * is no load, has no such area, or the area's checksum is wrong.
 */
LPT_MUST_USE
uint32_t lpt_end_asked_area(LptEnd *end, size_t number, LptArea *area);

/*
 * Drops the oldest request of all, if it wasn't read yet, in place of lpt_end_read. The request is
 * never executed, and there is no report of this. lpt_end_drop_read drops one that was read.
 * LPT_DONE; LPT_E_ALREADY_READ; LPT_E_NO_JOB, as always on ground; LPT_E_ALLOCATION.
 */
LPT_MUST_USE
uint32_t lpt_end_drop(LptEnd *end);

/*
 * Executes the oldest request, which must have been read: does what it asks of a memory, and
 * returns what became of it. Its reports wait to be sent. A report that is too long for a packet is
 * opened as a message.
 * LPT_DONE, and *applied is written; LPT_E_ELSEWHERE if the caller has the memories; LPT_E_NO_JOB,
 * as always on ground; LPT_E_NOT_READ; LPT_E_UNSENT while a packet waits to be sent;
 * LPT_E_ALLOCATION.
 */
LPT_MUST_USE
uint32_t lpt_end_execute(LptEnd *end, LptApplied *applied);

/*
 * Copies a memory to the front of a buffer, and leaves the rest of the buffer as it was. LPT_DONE;
 * LPT_E_ELSEWHERE if the caller has the memories; LPT_E_NOTHING if the end has no such memory;
 * LPT_E_ROOM. At LPT_DONE and LPT_E_ROOM *needed is the memory's length.
 */
LPT_MUST_USE
uint32_t lpt_end_memory(LptEnd *end, uint8_t id, uint8_t *out, size_t out_len, size_t *needed);

/* Fills a buffer with the octets of a memory from an address on. LPT_DONE; LPT_E_ELSEWHERE if the
   caller has the memories; LPT_E_NOTHING if the end has no such memory; LPT_E_RANGE if the memory
   has fewer octets from there on. */
LPT_MUST_USE
uint32_t lpt_end_memory_range(LptEnd *end, uint8_t id, uint32_t address, uint8_t *out,
                              size_t out_len);

/* ---- memories that the caller has itself ---- */

/* A memory that the caller has: its identifier and its size. */
typedef struct LptSize {
    uint8_t id;
    size_t len; /* 1 to 4,294,967,295 */
} LptSize;

/*
 * Makes a spacecraft's end, in place of lpt_end_new, if the caller has the memories: the end knows
 * their identifiers and sizes, but none of their octets. lpt_end_execute_given executes its
 * requests. Everything else is as with lpt_end_new.
 * LPT_DONE, and *end is its address; LPT_E_RANGE for another mode; LPT_E_CONFIG_APID to
 * LPT_E_CONFIG_OUTGOING; LPT_E_MEMORIES if they aren't 1 to 16 with distinct identifiers, of 1 to
 * 4,294,967,295 octets each; LPT_E_ALLOCATION.
 */
LPT_MUST_USE
uint32_t lpt_end_new_sized(LptEnd **end, const LptConfig *config, const LptSize *sizes,
                           size_t sizes_len);

/*
 * Restores from its state an end that lpt_end_new_sized made, as lpt_end_resume restores others.
 * LPT_DONE, and *end is its address; LPT_E_RANGE for another mode; LPT_E_CONFIG_APID to
 * LPT_E_CONFIG_OUTGOING; LPT_E_MEMORIES as with lpt_end_new_sized; then what lpt_end_resume returns
 * for a wrong state; LPT_E_ALLOCATION.
 */
LPT_MUST_USE
uint32_t lpt_end_resume_sized(LptEnd **end, const LptConfig *config, const uint8_t *state,
                              size_t state_len, const LptSize *sizes, size_t sizes_len);

/* Octets of a memory that a request writes or reads. */
typedef struct LptAccess {
    uint8_t memory;   /* its identifier */
    uint8_t write;    /* 1 if the request writes them, 0 if it reads them */
    uint32_t address; /* of the first octet */
    size_t len;       /* 1 to 65,535 */
} LptAccess;

/*
 * Returns one access that the oldest request, which must have been read, makes to a memory, by the
 * access's number from 0. A load writes its areas, and a dump or a check reads its areas, in the
 * order of the request. Each access lies within its memory. A request that is refused with a
 * code from 1 to 6 makes none; one with 7 or 8 still makes its reads, since only the execution finds
 * that out.
 * LPT_DONE, and *access is written; LPT_E_NO_JOB, as always on ground; LPT_E_NOT_READ;
 * LPT_E_NOTHING if it has no access of this number.
 */
LPT_MUST_USE
uint32_t lpt_end_access(LptEnd *end, size_t number, LptAccess *access);

/*
 * Copies the octets that an access of the oldest request writes. The request must have been read.
 * The octets go to the front of a buffer, and the rest of it stays as it was. LPT_DONE;
 * LPT_E_NO_JOB, as always on ground; LPT_E_NOT_READ; LPT_E_NOTHING if the access writes nothing;
 * LPT_E_ROOM. At LPT_DONE and LPT_E_ROOM *needed is how many octets there are.
 */
LPT_MUST_USE
uint32_t lpt_end_access_octets(LptEnd *end, size_t number, uint8_t *out, size_t out_len,
                               size_t *needed);

/*
 * Executes the oldest request, which must have been read, if the caller has the memories, and
 * returns what became of it. The caller passes the octets that the request reads, in the order of
 * its accesses; if it reads nothing, pass a length of 0. What the request writes, the caller has
 * written before this call. Or it has copied that, and writes it before it executes another
 * request. docs/C.md says how either order survives a reset. The reports wait to be sent, as with
 * lpt_end_execute.
 * LPT_DONE, and *applied is written; LPT_E_ELSEWHERE if the end has the memories; LPT_E_NO_JOB, as
 * always on ground; LPT_E_NOT_READ; LPT_E_READ_LENGTH if the request reads more or fewer octets
 * than the caller passed; LPT_E_UNSENT; LPT_E_ALLOCATION.
 */
LPT_MUST_USE
uint32_t lpt_end_execute_given(LptEnd *end, const uint8_t *octets, size_t octets_len,
                               LptApplied *applied);

/*
 * Refuses the oldest request, which must have been read, in place of executing it. The request is
 * never executed. A report to its source that it failed waits to be sent, with the failure code of
 * this number (LptFailure, 1 to 8). If the message is no telecommand of the end's APID, there is no
 * report. *applied is as after an execution that failed with that code.
 * Use this call if the request reads more than the program can at once, or if its memory can't be
 * read or written. If some of the request was written, write the old octets back first.
 * LPT_DONE, and *applied is written; LPT_E_RANGE for another number; LPT_E_NO_JOB, as always on
 * ground; LPT_E_NOT_READ; LPT_E_UNSENT; LPT_E_ALLOCATION.
 */
LPT_MUST_USE
uint32_t lpt_end_refuse(LptEnd *end, uint16_t number, LptApplied *applied);

/*
 * Drops the oldest request, which must have been read, in place of executing it. The request is
 * never executed, and there is no report of this (lpt_end_refuse makes one). If some of the request
 * was written, write the old octets back first.
 * LPT_DONE; LPT_E_NO_JOB, as always on ground; LPT_E_NOT_READ.
 */
LPT_MUST_USE
uint32_t lpt_end_drop_read(LptEnd *end);

/* ---- the clock, names, and a restart ---- */

/* Advances the clock by one tick. LPT_DONE; LPT_E_CLOCK_END. */
LPT_MUST_USE
uint32_t lpt_end_tick(LptEnd *end);

/* Advances the clock by several ticks at once, as that many calls of lpt_end_tick would, but in the
   time of one. Nothing expires meanwhile, so call lpt_end_expire afterwards.
   LPT_DONE, also for 0 ticks; LPT_E_CLOCK_END if the clock would go past 4,294,967,295. */
LPT_MUST_USE
uint32_t lpt_end_tick_many(LptEnd *end, uint32_t ticks);

/* Sets the clock back by several ticks, so that it never reaches its end. Each reception's `due`
   goes back with it: each is due after as many ticks as before. Everything else stays.
   The clock may not go below 0, and neither may the tick at which an open reception last got a
   part. That tick is the reception's `due` (LptReception) less the timeout.
   LPT_DONE, also for 0 ticks; LPT_E_CLOCK_START if one of them would go below 0. */
LPT_MUST_USE
uint32_t lpt_end_rebase(LptEnd *end, uint32_t ticks);

/*
 * Frees the name of a transaction at this end. A name may be used again only when both ends have
 * freed it, in this order:
 *   1. The sender's message is closed: by lpt_end_finish, a restart, or the report of an abortion.
 *   2. No part of it can reach the receiver any more: none is on its way, and none waits to be sent
 *      at the sender.
 *   3. This call returns LPT_DONE at the receiver's end.
 *   4. It returns LPT_DONE at the sender's end.
 * The call checks only the names of its own end. It checks neither the other end nor packets that
 * wait to be sent. If the report that the old message was aborted comes late, it closes the next
 * message of that name at the sender.
 * LPT_DONE, also if the name is free already; LPT_E_RANGE for another direction; LPT_E_STILL_OPEN
 * if a message or a reception of this name is open in this direction.
 */
LPT_MUST_USE
uint32_t lpt_end_retire(LptEnd *end, uint32_t direction, const LptName *name);

/* The states of a name at an end: free; open, because a message or a reception uses it; closed,
   because it was used and not freed since. */
enum LptNameState { LPT_NAME_FREE = 0, LPT_NAME_OPEN = 1, LPT_NAME_CLOSED = 2 };

/*
 * Returns the state of a name at this end, and changes nothing. In the direction in which the end
 * sends, messages use names; in the other, receptions do. LPT_DONE, and *state is an LptNameState;
 * LPT_E_RANGE for another direction.
 */
LPT_MUST_USE
uint32_t lpt_end_name(LptEnd *end, uint32_t direction, const LptName *name, uint32_t *state);

/*
 * Returns the first closed name of a direction from this one on, and changes nothing. Names are
 * ordered by source, and then by identifier. To list all, begin with {0, 0}, and go on with the
 * name after the last one. LPT_DONE, and *name is it; LPT_E_RANGE for another direction;
 * LPT_E_NOTHING if no name is closed from there on. The more names are in use, the longer the call
 * takes: with 65,536 half a millisecond if they have one source, and 4 ms if each has its own.
 */
LPT_MUST_USE
uint32_t lpt_end_closed(LptEnd *end, uint32_t direction, const LptName *from, LptName *name);

/* What an end has to do, in numbers. */
typedef struct LptView {
    uint32_t clock;    /* in ticks */
    uint32_t due;      /* 1 if lpt_end_expire has a reception to give up, otherwise 0 */
    uint64_t next_due; /* the clock's value at which the first reception is due; 0 if no reception
                          is open */
    size_t outgoing;   /* packets that wait to be sent */
    size_t unread;     /* requests that weren't read yet */
    size_t requests;   /* requests that weren't executed yet, read or not */
} LptView;

/* Returns what the end has to do, and changes nothing: LPT_DONE, and *view is written. */
LPT_MUST_USE
uint32_t lpt_end_view(LptEnd *end, LptView *view);

/* ---- what is open, one by one; nothing changes ---- */

/* A reception that is open. */
typedef struct LptReception {
    LptName name;
    uint32_t kept; /* how many of its parts were kept */
    uint32_t last; /* the number of its last part, 0 if that hasn't come */
    uint64_t due;  /* the clock's value at which it is due, unless a part comes before */
} LptReception;

/* Returns an open reception by its number from 0; they are ordered by source and then by
   identifier.
   LPT_DONE, and *reception is written; LPT_E_NOTHING if no more are open. */
LPT_MUST_USE
uint32_t lpt_end_reception(LptEnd *end, size_t number, LptReception *reception);

/*
 * Returns the next missing part of an open reception: the least number, not below `from`, of a part
 * that wasn't kept. If the last part has come, only numbers before it count.
 * LPT_DONE, and *number is that part's; LPT_E_NOT_OPEN if no reception of the name is open;
 * LPT_E_NOTHING if no part is missing from there on.
 */
LPT_MUST_USE
uint32_t lpt_end_missing(LptEnd *end, const LptName *name, uint16_t from, uint16_t *number);

/* A message that is open for sending. */
typedef struct LptSender {
    LptName name;
    uint32_t parts; /* how many it has */
    size_t len;     /* how many octets it has */
} LptSender;

/* Returns a message that is open for sending, by its number from 0; they are ordered as receptions
   are. LPT_DONE, and *sender is written; LPT_E_NOTHING if no more are open. */
LPT_MUST_USE
uint32_t lpt_end_sender(LptEnd *end, size_t number, LptSender *sender);

/*
 * Restarts the end. It closes its open messages, whose names stay in use. It drops its open
 * receptions, whose names are free again, and the requests that weren't executed. It counts its
 * packets from 0. Other names, the clock and the memories stay as they are, and so do the message
 * that was released last and the packets that wait to be sent. If the caller has the memories, and
 * wrote something ahead of lpt_end_execute_given, it first puts that back.
 * LPT_DONE; LPT_E_NO_NUMBER.
 */
LPT_MUST_USE
uint32_t lpt_end_restart(LptEnd *end);

/* ---- what outlasts the program ---- */

/*
 * Copies the state of the end to the front of a buffer, and leaves the rest of the buffer as it
 * was. The state has the end's side, APID, part size and mode, the clock, and how often the end was
 * restarted. It has the names that are closed, and those of messages that are open for sending, but
 * not those of open receptions. It has no memories: lpt_end_memory copies them. docs/FORMATS.md has
 * the octets, and docs/C.md says when to save them. The call allocates nothing.
 * LPT_DONE; LPT_E_ROOM. At LPT_DONE and LPT_E_ROOM *needed is the state's length: 45, and 6 for
 * each run of names in it. A run has identifiers of one source and direction that follow one
 * another. There are at most as many runs as names, and at most 32,768 of a source and direction.
 */
LPT_MUST_USE
uint32_t lpt_end_state(LptEnd *end, uint8_t *out, size_t out_len, size_t *needed);

/*
 * Restores an end from a state, in place of lpt_end_new. The end is as the old one would be after
 * lpt_end_restart, with nothing released and nothing to be sent. Pass the memories of the old end,
 * in any order. The clock is the state's, and the configuration's is ignored; the timeout and the
 * limits are the configuration's.
 * LPT_DONE, and *end is its address; LPT_E_RANGE for another side or mode; LPT_E_CONFIG_APID to
 * LPT_E_CONFIG_OUTGOING; LPT_E_MEMORIES as with lpt_end_new; LPT_E_STATE_SHORT to
 * LPT_E_STATE_CHECKSUM, in that order; LPT_E_NO_NUMBER if the state's number of restarts is the
 * greatest; LPT_E_STATE_ORDER; LPT_E_ALLOCATION.
 */
LPT_MUST_USE
uint32_t lpt_end_resume(LptEnd **end, uint32_t side, const LptConfig *config, const uint8_t *state,
                        size_t state_len, const LptMemory *memories, size_t memories_len,
                        const uint8_t *content, size_t content_len);

/* ---- memory, which the caller's program provides ---- */

/* The answer to a request for octets: whether there are any, and where. `at` is never null. */
typedef struct LptTried {
    bool ok;
    void *at;
} LptTried;

/* Returns n octets that nothing else uses, at a multiple of 16, whatever `align` is; or `ok`
   false. */
LptTried rattle_alloc(size_t n, size_t align);

/* Makes this block n octets long, maybe at another place. Its first `kept` octets (or n, if that is
   less) stay as they were. If this fails, `ok` is false, and the block stays as it is. */
LptTried rattle_realloc(void *block, size_t kept, size_t n, size_t align);

/* Takes a block back. */
void rattle_dealloc(void *block);

/* ---- the structures as the library has them: size, alignment, offsets ---- */

LPT_LAYOUT(LptConfig, 28, 4);
LPT_FIELD(LptConfig, apid, 0);
LPT_FIELD(LptConfig, part_size, 4);
LPT_FIELD(LptConfig, timeout, 8);
LPT_FIELD(LptConfig, receptions, 12);
LPT_FIELD(LptConfig, outgoing, 16);
LPT_FIELD(LptConfig, clock, 20);
LPT_FIELD(LptConfig, mode, 24);

LPT_LAYOUT(LptName, 4, 2);
LPT_FIELD(LptName, source, 0);
LPT_FIELD(LptName, id, 2);

LPT_LAYOUT(LptMemory, 24, 8);
LPT_FIELD(LptMemory, id, 0);
LPT_FIELD(LptMemory, at, 8);
LPT_FIELD(LptMemory, len, 16);

LPT_LAYOUT(LptOutcome, 16, 4);
LPT_FIELD(LptOutcome, kind, 0);
LPT_FIELD(LptOutcome, name, 4);
LPT_FIELD(LptOutcome, first, 8);
LPT_FIELD(LptOutcome, second, 12);

LPT_LAYOUT(LptApplied, 12, 4);
LPT_FIELD(LptApplied, kind, 0);
LPT_FIELD(LptApplied, name, 4);
LPT_FIELD(LptApplied, value, 8);

LPT_LAYOUT(LptArea, 16, 8);
LPT_FIELD(LptArea, memory, 0);
LPT_FIELD(LptArea, address, 4);
LPT_FIELD(LptArea, len, 8);

LPT_LAYOUT(LptSize, 16, 8);
LPT_FIELD(LptSize, id, 0);
LPT_FIELD(LptSize, len, 8);

LPT_LAYOUT(LptAccess, 16, 8);
LPT_FIELD(LptAccess, memory, 0);
LPT_FIELD(LptAccess, write, 1);
LPT_FIELD(LptAccess, address, 4);
LPT_FIELD(LptAccess, len, 8);

LPT_LAYOUT(LptView, 40, 8);
LPT_FIELD(LptView, clock, 0);
LPT_FIELD(LptView, due, 4);
LPT_FIELD(LptView, next_due, 8);
LPT_FIELD(LptView, outgoing, 16);
LPT_FIELD(LptView, unread, 24);
LPT_FIELD(LptView, requests, 32);

LPT_LAYOUT(LptReception, 24, 8);
LPT_FIELD(LptReception, name, 0);
LPT_FIELD(LptReception, kept, 4);
LPT_FIELD(LptReception, last, 8);
LPT_FIELD(LptReception, due, 16);

LPT_LAYOUT(LptSender, 16, 8);
LPT_FIELD(LptSender, name, 0);
LPT_FIELD(LptSender, parts, 4);
LPT_FIELD(LptSender, len, 8);

LPT_LAYOUT(LptTried, 16, 8);
LPT_FIELD(LptTried, ok, 0);
LPT_FIELD(LptTried, at, 8);

#ifdef __cplusplus
}
#endif

#endif
