/*
 * Ground's passes for raw memory management (ECSS-E-ST-70-41C, service 6). A pass does a job of
 * loads, dumps or checks of a memory. Each request is one packet, and is sent again, in rounds,
 * until a report settles it. The comment of lpt_ground_packet says which reports do.
 *
 * A program holds a pass by its address, an LptGround *. lpt_ground_new returns one, and
 * lpt_ground_free frees it. In between the program asks by lpt_ground_next what to do, and does
 * that:
 *
 *   - LPT_STEP_SEND: copy the packet by lpt_ground_outgoing, send it, and call lpt_ground_sent,
 *     with no other call of the pass in between. Then call lpt_ground_packet for each packet that
 *     came, before you ask again;
 *   - LPT_STEP_LISTEN: wait for a packet, and hand it to lpt_ground_packet. If none comes for so
 *     long that none can be on its way any more, for example for a second, call lpt_ground_quiet.
 *     Then a new round begins. If you call it too early, packets are sent again for nothing, and it
 *     still counts as one of the waits that LptJob's `tries` limits. Nothing that is proved depends
 *     on when you call it;
 *   - any other step: the pass is at its end.
 *
 * Each call returns LPT_DONE, or the number of the first thing that is wrong. Its comment lists
 * these numbers in the order in which it tests them, and LPT_E_ALLOCATION (out of memory) last. If
 * a call doesn't return LPT_DONE, the pass is as it was, and the call has written nothing through a
 * pointer but what its comment says. As in include/lpt_end.h, the comments leave out LPT_E_EMPTY.
 * The caller promises what include/lpt_end.h says about addresses, threads and memory. docs/C.md
 * says what is proved about a pass that ends with LPT_STEP_COMPLETED, and what is assumed.
 */
#ifndef LPT_GROUND_H
#define LPT_GROUND_H

#include "lpt_end.h"

#ifdef __cplusplus
extern "C" {
#endif

/* ---- a pass ---- */

/* A pass. */
typedef struct LptGround LptGround;

/* What is asked of a memory: to take octets, to report them, or to report their checksums. */
enum LptJobKind { LPT_JOB_LOAD = 1, LPT_JOB_DUMP = 2, LPT_JOB_CHECK = 3 };

/* A job: what is asked, and in which packets. */
typedef struct LptJob {
    uint32_t kind;      /* an LptJobKind */
    uint8_t memory;     /* the memory's identifier */
    uint8_t flags;      /* acknowledgement flags of the requests. Loads need 8, so that completion
                           is reported. With 10 (8 and 2) a report of the start settles a load too.
                           Dumps and checks need none. Other flags up to 15 may be added */
    uint16_t apid;      /* of all packets, 0 to 2046 */
    uint16_t source;    /* the job's own: reports go to it. No other request may have had it, unless
                           this job continues one that was stopped */
    uint16_t count;     /* the first request's sequence count, 0 to 16,383 */
    uint32_t part_size; /* of the link, up to 1024. At least 4 for loads, 7 for dumps, and 6 for
                           checks, because a report must fit one packet. A request loads at most
                           part_size octets, dumps at most part_size - 6, or checks at most 4,000 */
    uint32_t tries;     /* at least 1: after so many waits in a row that settled nothing the pass
                           is given up */
} LptJob;

/* Octets of a memory. */
typedef struct LptPlace {
    uint32_t address; /* of the first */
    uint32_t len;     /* at least 1 */
} LptPlace;

/*
 * Makes the pass of a job of these places. The octets of a load are in `content`, place after
 * place, and are copied. Jobs of dumps and checks don't read `content`. Each place is cut into
 * requests of as many octets as LptJob says at part_size; the last one of a place has the rest.
 * Requests are numbered from 0 through all places.
 * LPT_DONE, and *pass is its address; LPT_E_RANGE for a number of the job that is out of its range,
 * and for flags of a load without 8; LPT_E_BAD_AREA if there is no place, or one has no octets or
 * has octets behind the last address; LPT_E_LONG_JOB for more than 16,384 requests; LPT_E_RANGE if
 * the content of a load isn't as long as its places together; LPT_E_BAD_AREA if two places of a
 * load share an address; LPT_E_ALLOCATION.
 */
LPT_MUST_USE
uint32_t lpt_ground_new(LptGround **pass, const LptJob *job, const LptPlace *places,
                        size_t places_len, const uint8_t *content, size_t content_len);

/* Frees a pass with all its memory. Its address may not be used any more. NULL does nothing. */
void lpt_ground_free(LptGround *pass);

/* ---- what it does next ---- */

/* What a pass does next. The steps from 3 on are ends. Even then a packet that settles a request
   may complete the pass. If it comes after LPT_STEP_GIVEN_UP, lpt_ground_quiet begins a new
   round. */
enum LptStep {
    LPT_STEP_SEND = 1,      /* a packet is to be sent */
    LPT_STEP_LISTEN = 2,    /* a packet is to be awaited */
    LPT_STEP_COMPLETED = 3, /* each request is settled, and none was reported as failed */
    LPT_STEP_FAILED = 4,    /* each request is settled, and some were reported as failed */
    LPT_STEP_GIVEN_UP = 5,  /* some requests are open, and as many waits in a row as `tries` says
                               settled nothing */
    LPT_STEP_CUT_OFF = 6    /* some requests are open, and lpt_ground_close was called */
};

/* The name of a step, for example "given up" of LPT_STEP_GIVEN_UP; "unknown" for another number. */
static inline const char *lpt_step_name(uint32_t step) {
    switch (step) {
    case LPT_STEP_SEND:
        return "send";
    case LPT_STEP_LISTEN:
        return "listen";
    case LPT_STEP_COMPLETED:
        return "completed";
    case LPT_STEP_FAILED:
        return "failed";
    case LPT_STEP_GIVEN_UP:
        return "given up";
    case LPT_STEP_CUT_OFF:
        return "cut off";
    default:
        return "unknown";
    }
}

/* Returns what the pass does next, and changes nothing: LPT_DONE, and *step is an LptStep. */
LPT_MUST_USE
uint32_t lpt_ground_next(LptGround *pass, uint32_t *step);

/*
 * Copies the packet that is to be sent next to the front of a buffer, and leaves the rest of the
 * buffer as it was. LPT_DONE; LPT_E_NOTHING if the next step isn't LPT_STEP_SEND; LPT_E_ROOM. At
 * LPT_DONE and LPT_E_ROOM *needed is the packet's length, at most part_size + 23. The packet
 * stays the next one until lpt_ground_sent, lpt_ground_quiet or lpt_ground_close, or until a packet
 * settles its request.
 */
LPT_MUST_USE
uint32_t lpt_ground_outgoing(LptGround *pass, uint8_t *out, size_t out_len, size_t *needed);

/* Notes that the packet that was to be sent next was sent. LPT_DONE; LPT_E_NOTHING if the next step
   isn't LPT_STEP_SEND. */
LPT_MUST_USE
uint32_t lpt_ground_sent(LptGround *pass);

/* ---- what it hears ---- */

/*
 * Takes a packet that came. Telemetry of the job's APID to the job's source settles an open request
 * if it is one of these:
 *   - a report that the request failed: TM[1,2], TM[1,4], TM[1,6] or TM[1,8];
 *   - for a load, a report that it completed, TM[1,7], or, if the flags have 2, that it started,
 *     TM[1,3];
 *   - for a dump or a check, a report with the octets or the checksum that were asked for.
 * Any other packet is ignored.
 * LPT_DONE; LPT_E_ALLOCATION.
 */
LPT_MUST_USE
uint32_t lpt_ground_packet(LptGround *pass, const uint8_t *octets, size_t octets_len);

/* Notes that no packet came while the program waited. Then a round begins, or the pass is given up
   (as `tries` says). The round sends all open requests, and all of them again until it has sent at
   least 8 packets: for 3 open requests these are 9 packets. Only the first round, with which the
   pass begins, sends each request just once. If the pass is at its end, no round begins, except
   after LPT_STEP_GIVEN_UP if a packet settled a request since the last call of lpt_ground_quiet. It
   returns LPT_DONE. */
LPT_MUST_USE
uint32_t lpt_ground_quiet(LptGround *pass);

/* Notes that no packet will come any more: the pass is at its end. It returns LPT_DONE. */
LPT_MUST_USE
uint32_t lpt_ground_close(LptGround *pass);

/* ---- what became of its requests; nothing changes ---- */

/* How many requests a pass has, and what became of them. */
typedef struct LptProgress {
    size_t requests;  /* all of them */
    size_t completed; /* loads reported as completed (or, if the flags have 2, as started), and
                         dumps and checks that were answered */
    size_t failed;    /* requests reported as failed */
    size_t left;      /* open ones, which no report has settled */
} LptProgress;

/* Returns how far the pass is: LPT_DONE, and *progress is written. */
LPT_MUST_USE
uint32_t lpt_ground_progress(LptGround *pass, LptProgress *progress);

/* What is known of a request. */
enum LptFateState { LPT_FATE_OPEN = 0, LPT_FATE_COMPLETED = 1, LPT_FATE_FAILED = 2 };

/* Stands for a failure code that a pass can't read in the report. */
enum LptCodeUnread { LPT_CODE_UNREAD = 65536 };

/* What became of a request. */
typedef struct LptFate {
    uint32_t state; /* an LptFateState */
    uint32_t code;  /* 0 if the request didn't fail; otherwise the report's failure code, an
                       LptFailure or another; LPT_CODE_UNREAD if the report has no code of 16 bits,
                       or is of progress (TM[1,6]) */
} LptFate;

/* Returns what became of a request, by its number from 0. LPT_DONE, and *fate is written;
   LPT_E_NOTHING if there is no such request. */
LPT_MUST_USE
uint32_t lpt_ground_fate(LptGround *pass, size_t number, LptFate *fate);

/*
 * Copies the packet that settled a request, by the request's number, to the front of a buffer, and
 * leaves the rest of the buffer as it was. A program may keep these packets. After a restart it
 * makes a new pass of the same job, with the same source and count, and hands them to it by
 * lpt_ground_packet: so the job continues where it was. It may also keep and hand over all packets
 * that came. A job of dumps or checks that continues may take late answers to what was asked before
 * the restart: a new job, with another source, doesn't. A request that failed has no packet here. If the report of its failure isn't handed
 * over, the new pass sends the request again.
 * LPT_DONE; LPT_E_NOTHING if there is no such request, or it is open or failed; LPT_E_ROOM. At
 * LPT_DONE and LPT_E_ROOM *needed is the packet's length.
 */
LPT_MUST_USE
uint32_t lpt_ground_report(LptGround *pass, size_t number, uint8_t *out, size_t out_len,
                           size_t *needed);

/*
 * Copies the octets of memory that a dump got, by the request's number, to the front of a buffer,
 * and leaves the rest of the buffer as it was. LPT_DONE; LPT_E_NOTHING if there is no such request,
 * or it is open or failed; LPT_E_ROOM. At LPT_DONE and LPT_E_ROOM *needed is how many octets there
 * are: 0 for a load or a check.
 */
LPT_MUST_USE
uint32_t lpt_ground_dumped(LptGround *pass, size_t number, uint8_t *out, size_t out_len,
                           size_t *needed);

/*
 * Returns whether the checksums that checks got are those of this content: the octets of the
 * places, one place behind the other, and nothing more. It returns LPT_DONE, and *agrees is 1 if
 * they are. It is 0 if they aren't, while a check is open, or if one failed. For a job of loads or
 * dumps the result says nothing.
 * A checksum has 16 bits, so about one differing area in 65,536 is taken for the same. And it is
 * the same linear CRC as that of packets: damage inside one loaded area that passed its packet's
 * checksum always passes a check of that area. Only a dump compares octets.
 */
LPT_MUST_USE
uint32_t lpt_ground_agrees(LptGround *pass, const uint8_t *content, size_t content_len,
                           uint32_t *agrees);

/* ---- the structures as the library has them: size, alignment, offsets ---- */

LPT_LAYOUT(LptJob, 20, 4);
LPT_FIELD(LptJob, kind, 0);
LPT_FIELD(LptJob, memory, 4);
LPT_FIELD(LptJob, flags, 5);
LPT_FIELD(LptJob, apid, 6);
LPT_FIELD(LptJob, source, 8);
LPT_FIELD(LptJob, count, 10);
LPT_FIELD(LptJob, part_size, 12);
LPT_FIELD(LptJob, tries, 16);

LPT_LAYOUT(LptPlace, 8, 4);
LPT_FIELD(LptPlace, address, 0);
LPT_FIELD(LptPlace, len, 4);

LPT_LAYOUT(LptProgress, 32, 8);
LPT_FIELD(LptProgress, requests, 0);
LPT_FIELD(LptProgress, completed, 8);
LPT_FIELD(LptProgress, failed, 16);
LPT_FIELD(LptProgress, left, 24);

LPT_LAYOUT(LptFate, 8, 4);
LPT_FIELD(LptFate, state, 0);
LPT_FIELD(LptFate, code, 4);

#ifdef __cplusplus
}
#endif

#endif
