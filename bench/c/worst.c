/*
 * Times each call of lpt.h and lpt_end.h at the worst input that is known, and prints a table of
 * comma-separated values: the call, its input, and its microseconds.
 *
 *     worst [ROUNDS]
 *
 * A script of calls is the same in each round. Of each call of the script the least time of all
 * rounds is taken, which leaves out what other programs do; of each function its longest call.
 */
#define _POSIX_C_SOURCE 199309L
#include "lpt_end.h"

#include <stdio.h>
#include <stdlib.h>
#include <string.h>
#include <time.h>

enum { APID = 100, LONG = 65542, MEMORY = 1048576, AREAS = 255, AREA = 65535 };
enum { RUNS = 32768, STATE = 45 + 12 * RUNS, STREAM = 131084, QUEUE = 49152 };
enum { FUNCTIONS = 100, CALLS = 400000 };

static uint8_t message[LONG], packet[LONG], body[LONG], out[70000], stream[STREAM];
static uint8_t content[16 * MEMORY], given[AREAS * AREA], state[STATE], check[2 + AREAS * 6];
static LptMemory memories[16];
static LptSize sizes[16];
static volatile uint64_t sink;

/* ---- functions and what their calls took ---- */

static const char *names[FUNCTIONS], *input_of[CALLS];
static double least[CALLS];
static int function_of[CALLS];
static int functions, round_number, is_wrong;
static size_t calls;
static struct timespec begun;

static void begin(void) { clock_gettime(CLOCK_PROCESS_CPUTIME_ID, &begun); }

/* What the call took that was begun, of the function of this name with this input. */
static void ended(const char *name, const char *input) {
    struct timespec end;
    double took;
    int at = 0;
    clock_gettime(CLOCK_PROCESS_CPUTIME_ID, &end);
    took = (double)(end.tv_sec - begun.tv_sec) * 1e6 + (double)(end.tv_nsec - begun.tv_nsec) * 1e-3;
    while (at < functions && strcmp(names[at], name) != 0) {
        at++;
    }
    if (at == functions) {
        names[functions++] = name;
    }
    if (calls == CALLS) {
        is_wrong = 1;
        return;
    }
    if (round_number == 0 || took < least[calls]) {
        least[calls] = took;
    }
    input_of[calls] = input;
    function_of[calls++] = at;
}

static void wants(int is_right, int line) {
    if (!is_right && !is_wrong) {
        printf("worst.c:%d: wrong\n", line);
    }
    is_wrong |= !is_right;
}

/* A call of this answer, timed; and one that isn't. */
#define TIMED(name, input, call, answer)                                                           \
    do {                                                                                           \
        uint64_t got;                                                                              \
        begin();                                                                                   \
        got = (uint64_t)(call);                                                                    \
        ended(#name, input);                                                                       \
        wants(got == (uint64_t)(answer), __LINE__);                                                \
    } while (0)
#define DONE(call) wants((call) == LPT_DONE, __LINE__)

/* ---- the codecs ---- */

static void codecs(void) {
    LptTcHead tc_head = {APID, 7, 9, 6, 2, 1};
    LptTmHead tm_head = {APID, 7, 0, 6, 6, 0, 1, 0};
    static LptRange ranges[AREAS];
    uint16_t room[LPT_STRAY_ROOM];
    size_t len = 0, size = 0, k;
    uint32_t kind = 0, id = 0;
    LptPacket read;
    LptTc tc;
    LptTm tm;
    LptPart part;
    LptAbort aborted;
    LptReport report;
    LptDumped dumped;
    LptChecked checked;
    TIMED(lpt_version, "", lpt_version(), LPT_VERSION_NUMBER);
    begin();
    sink += lpt_crc16(message, LONG);
    ended("lpt_crc16", "65542 octets");
    begin();
    sink += lpt_crc16_more(7, message, LONG);
    ended("lpt_crc16_more", "65542 octets");
    TIMED(lpt_packet_length, "",
          lpt_packet_length(message, 6, &len), lpt_packet_length(message, 6, &len));
    for (k = 0; k < STREAM; k++) { /* each third octet is the head of a packet of 65542 */
        stream[k] = (uint8_t)(k % 3 == 0 ? 0x0b : 0xff);
    }
    TIMED(lpt_find_piece, "a damaged packet of 65542 octets",
          lpt_find_piece(stream, STREAM, 0, 1, &kind, &size), LPT_DONE);
    begin();
    sink += lpt_count_strays(stream, STREAM, 1, room, LPT_STRAY_ROOM);
    ended("lpt_count_strays", "131084 octets; each third begins a header of 65542");

    DONE(lpt_write_packet(LPT_PACKET_TC, APID, 7, message, 65536 - 2, packet, LONG, &len));
    TIMED(lpt_read_packet, "65540 octets", lpt_read_packet(packet, len, &read), LPT_DONE);
    TIMED(lpt_write_packet, "65540 octets",
          lpt_write_packet(LPT_PACKET_TC, APID, 7, message, 65534, out, sizeof out, &len),
          LPT_DONE);
    TIMED(lpt_build_packet, "65540 octets",
          lpt_build_packet(LPT_PACKET_TC, APID, 7, 65534, out, sizeof out, &len), LPT_DONE);
    TIMED(lpt_write_tc, "65542 octets",
          lpt_write_tc(&tc_head, message, LONG - 13, packet, LONG, &len), LPT_DONE);
    TIMED(lpt_build_tc, "65542 octets",
          lpt_build_tc(&tc_head, LONG - 13, packet, LONG, &len), LPT_DONE);
    TIMED(lpt_read_tc, "65542 octets", lpt_read_tc(packet, LONG, &tc), LPT_DONE);
    TIMED(lpt_request_id, "", lpt_request_id(&tc_head, &id), LPT_DONE);
    TIMED(lpt_write_tm, "65542 octets",
          lpt_write_tm(&tm_head, message, LONG - 19, packet, LONG, &len), LPT_DONE);
    TIMED(lpt_build_tm, "65542 octets",
          lpt_build_tm(&tm_head, LONG - 19, packet, LONG, &len), LPT_DONE);
    TIMED(lpt_read_tm, "65542 octets", lpt_read_tm(packet, LONG, &tm), LPT_DONE);

    TIMED(lpt_part_kind, "", lpt_part_kind(LPT_PACKET_TC, 13, 9), LPT_PART_FIRST);
    TIMED(lpt_part_count, "", lpt_part_count(LONG, 4), 16386);
    TIMED(lpt_slice_part, "a part of 1024 octets",
          lpt_slice_part(message, LONG, 1024, 5, 3, &kind, body, sizeof body, &len), LPT_DONE);
    TIMED(lpt_read_part, "a part of 1024 octets",
          lpt_read_part(kind, body, len, 1024, &part), LPT_DONE);
    TIMED(lpt_write_part, "a part of 1024 octets",
          lpt_write_part(kind, 5, 3, message, 1024, 1024, body, sizeof body, &len), LPT_DONE);
    TIMED(lpt_build_part, "a part of 1024 octets",
          lpt_build_part(kind, 5, 3, 1024, 1024, body, sizeof body, &len), LPT_DONE);
    TIMED(lpt_write_abort, "", lpt_write_abort(5, 1, body, sizeof body, &len), LPT_DONE);
    TIMED(lpt_read_abort, "", lpt_read_abort(body, len, &aborted), LPT_DONE);
    TIMED(lpt_write_report, "", lpt_write_report(2, 7, 1, body, sizeof body, &len), LPT_DONE);
    TIMED(lpt_read_report, "", lpt_read_report(2, body, len, &report), LPT_DONE);

    for (k = 0; k < AREAS; k++) {
        ranges[k].address = (uint32_t)k;
        ranges[k].len = AREA;
    }
    TIMED(lpt_write_load, "65519 octets",
          lpt_write_load(1, 0, message, 65519, out, sizeof out, &len),
          LPT_DONE);
    TIMED(lpt_write_dump, "255 areas",
          lpt_write_dump(1, ranges, AREAS, out, sizeof out, &len), LPT_DONE);
    TIMED(lpt_write_check, "255 areas",
          lpt_write_check(1, ranges, AREAS, check, sizeof check, &len),
          LPT_DONE);
    out[0] = 1, out[1] = AREAS;
    for (k = 0; k < AREAS; k++) { /* 248 octets in each */
        uint16_t sum = lpt_crc16(message, 248);
        uint8_t *at = out + 2 + k * 256;
        memset(at, 0, 4);
        at[4] = 0, at[5] = 248;
        memcpy(at + 6, message, 248);
        at[254] = (uint8_t)(sum >> 8), at[255] = (uint8_t)sum;
    }
    TIMED(lpt_read_dump, "the last of 255 areas of 248 octets",
          lpt_read_dump(out, 2 + AREAS * 256, AREAS - 1, &dumped), LPT_DONE);
    memset(out, 0, 2 + AREAS * 8);
    out[0] = 1, out[1] = AREAS;
    TIMED(lpt_read_check, "the last of 255 areas",
          lpt_read_check(out, 2 + AREAS * 8, AREAS - 1, &checked),
          LPT_DONE);
}

/* ---- ends ---- */

/* The configuration with parts of this size. */
static LptConfig config_of(uint32_t part_size) {
    LptConfig c = {APID, 0, 10, 64, 64, 0, LPT_MODE_ANY};
    c.part_size = part_size;
    return c;
}

static LptName named(size_t source, size_t id) {
    LptName name;
    name.source = (uint16_t)source;
    name.id = (uint16_t)id;
    return name;
}

/* Carries all that waits at one end to the other. */
static void carry(LptEnd *from, LptEnd *to) {
    LptOutcome said = {0, {0, 0}, 0, 0};
    size_t len = 0;
    while (lpt_end_outgoing(from, out, sizeof out, &len) == LPT_DONE) {
        TIMED(lpt_end_packet, "a part; its place may grow",
              lpt_end_packet(to, out, len, &said), LPT_DONE);
        DONE(lpt_end_sent(from));
    }
}

/* A state of one side's end, of which every second name of a source was used, both ways. */
static size_t written_state(uint8_t side, const LptConfig *c) {
    LptEnd *end = NULL;
    size_t len = 0, k;
    uint16_t sum;
    DONE(lpt_end_new(&end, side, c, memories, 16, content, sizeof content));
    DONE(lpt_end_state(end, state, STATE, &len));
    lpt_end_free(end);
    state[27 + 6] = state[35 + 6] = (uint8_t)(RUNS >> 8);
    for (k = 0; k < 2 * RUNS; k++) {
        uint8_t *run = state + 43 + 6 * k;
        size_t id = k % RUNS * 2;
        run[0] = 0, run[1] = 1;
        run[2] = run[4] = (uint8_t)(id >> 8), run[3] = run[5] = (uint8_t)id;
    }
    sum = lpt_crc16(state, STATE - 2);
    state[STATE - 2] = (uint8_t)(sum >> 8), state[STATE - 1] = (uint8_t)sum;
    return STATE;
}

static void states(void) {
    LptConfig c = config_of(1024);
    LptEnd *end = NULL;
    LptName name = named(1, 65533), told;
    size_t len = 0, at = written_state(1, &c);
    uint32_t is = 9;
    TIMED(lpt_end_resume, "32768 runs of names each way; 16 memories of 1 MiB",
          lpt_end_resume(&end, 1, &c, state, at, memories, 16, content, sizeof content), LPT_DONE);
    TIMED(lpt_end_state, "32768 runs of names each way",
          lpt_end_state(end, given, sizeof given, &len),
          LPT_DONE);
    TIMED(lpt_end_closed, "the last of 32768 runs of names",
          lpt_end_closed(end, 0, &name, &told), LPT_DONE);
    TIMED(lpt_end_name, "", lpt_end_name(end, 0, &name, &is), LPT_DONE);
    TIMED(lpt_end_retire, "32768 names", lpt_end_retire(end, 0, &told), LPT_DONE);
    TIMED(lpt_end_restart, "32768 names", lpt_end_restart(end), LPT_DONE);
    begin();
    lpt_end_free(end);
    ended("lpt_end_free", "an end with all that it may hold");
    TIMED(lpt_end_resume_sized, "32768 runs of names each way; 16 memories",
          lpt_end_resume_sized(&end, &c, state, at, sizes, 16), LPT_DONE);
    lpt_end_free(end);
    TIMED(lpt_end_new, "16 memories of 1 MiB",
          lpt_end_new(&end, 1, &c, memories, 16, content, sizeof content), LPT_DONE);
    lpt_end_free(end);
    TIMED(lpt_end_new_sized, "16 memories", lpt_end_new_sized(&end, &c, sizes, 16), LPT_DONE);
    lpt_end_free(end);
}

/* 64 messages of 65,542 octets in parts of 4, all but one part of each. */
static void receptions(void) {
    LptConfig c = config_of(4);
    LptEnd *ground = NULL, *craft = NULL;
    LptReception open;
    LptSender sender;
    LptView view;
    LptName name;
    size_t k, id;
    uint16_t number = 0;
    size_t len = 0;
    DONE(lpt_end_new(&ground, 0, &c, memories, 0, content, 0));
    DONE(lpt_end_new(&craft, 1, &c, memories, 1, content, MEMORY));
    for (id = 0; id < 64; id++) {
        name = named(1, id);
        TIMED(lpt_end_open, "65542 octets",
              lpt_end_open(ground, &name, message, LONG), LPT_DONE);
        for (k = 1; k < (id == 63 ? 16386 : 2); k++) {
            TIMED(lpt_end_part, "a part; the queue of 16384 packets doubles",
                  lpt_end_part(ground, &name, (uint16_t)k), LPT_DONE);
        }
        TIMED(lpt_end_part, "a part; the queue of 16384 packets doubles",
              lpt_end_part(ground, &name, 16386), LPT_DONE);
        if (id < 63) {
            carry(ground, craft);
        }
    }
    TIMED(lpt_end_view, "16385 packets wait", lpt_end_view(ground, &view), LPT_DONE);
    while (lpt_end_outgoing(ground, out, sizeof out, &len) == LPT_DONE) {
        LptOutcome said = {0, {0, 0}, 0, 0};
        uint64_t is = lpt_end_packet(craft, out, len, &said);
        wants(is == LPT_DONE, __LINE__);
        TIMED(lpt_end_sent, "", lpt_end_sent(ground), LPT_DONE);
        if (said.kind == LPT_OUTCOME_RELEASED) {
            break;
        }
    }
    TIMED(lpt_end_released, "65542 octets",
          lpt_end_released(craft, out, sizeof out, &len), LPT_DONE);
    TIMED(lpt_end_view, "63 receptions", lpt_end_view(craft, &view), LPT_DONE);
    TIMED(lpt_end_reception, "the last of 63", lpt_end_reception(craft, 62, &open), LPT_DONE);
    TIMED(lpt_end_sender, "the last of 64", lpt_end_sender(ground, 63, &sender), LPT_DONE);
    name = named(1, 62);
    TIMED(lpt_end_missing, "the first missing of 16386 parts",
          lpt_end_missing(craft, &name, 1, &number),
          LPT_DONE);
    /* All of a reception but the last part before its end. */
    for (k = 2; k < 16385; k++) {
        DONE(lpt_end_part(ground, &name, (uint16_t)k));
    }
    carry(ground, craft);
    TIMED(lpt_end_missing, "the last missing of 16386 parts",
          lpt_end_missing(craft, &name, 1, &number),
          LPT_DONE);
    wants(number == 16385, __LINE__);
    DONE(lpt_end_part(ground, &name, 16385));
    carry(ground, craft);
    TIMED(lpt_end_finish, "65542 octets", lpt_end_finish(ground, &name), LPT_DONE);
    TIMED(lpt_end_tick, "", lpt_end_tick(craft), LPT_DONE);
    TIMED(lpt_end_tick_many, "4294967294 ticks", lpt_end_tick_many(craft, 4294967294u), LPT_DONE);
    TIMED(lpt_end_rebase, "62 receptions", lpt_end_rebase(craft, 0), LPT_DONE);
    name = named(1, 61);
    TIMED(lpt_end_give_up, "62 receptions of 65542 octets",
          lpt_end_give_up(craft, &name), LPT_DONE);
    for (id = 0; id < 61; id++) {
        TIMED(lpt_end_expire, "61 receptions of 65542 octets",
              lpt_end_expire(craft, &name), LPT_DONE);
    }
    begin();
    lpt_end_free(craft);
    ended("lpt_end_free", "an end with all that it may hold");
    lpt_end_free(ground);
}

/* Gives the spacecraft a request: in parts, unless it is short. */
static void ask(LptEnd *ground, LptEnd *craft, size_t id, uint8_t subtype, const uint8_t *octets,
                size_t len) {
    LptTcHead head = {APID, 7, 9, 6, 0, 1};
    LptName name = named(1, id);
    size_t made = 0, k, parts;
    if (len < 1000) {
        DONE(lpt_end_plain(ground, 1, 9, 6, subtype, octets, len));
        carry(ground, craft);
        return;
    }
    head.subtype = subtype;
    DONE(lpt_write_tc(&head, octets, len, packet, sizeof packet, &made));
    DONE(lpt_end_open(ground, &name, packet, made));
    parts = lpt_part_count(made, 1024);
    for (k = 1; k <= parts; k++) {
        DONE(lpt_end_part(ground, &name, (uint16_t)k));
    }
    carry(ground, craft);
    DONE(lpt_end_finish(ground, &name));
}

/* What the spacecraft has to send, sent. */
static void flush(LptEnd *craft) {
    size_t len = 0;
    for (;;) {
        uint32_t is;
        begin();
        is = lpt_end_outgoing(craft, out, sizeof out, &len);
        ended("lpt_end_outgoing", "1047 octets");
        if (is != LPT_DONE || lpt_end_sent(craft) != LPT_DONE) {
            break;
        }
    }
}

static void requests(int is_sized) {
    LptConfig c = config_of(1024);
    LptEnd *ground = NULL, *craft = NULL;
    LptApplied applied = {0, {0, 0}, 0};
    LptAccess access;
    LptArea area;
    static LptRange dump_ranges[3];
    uint8_t service = 0, subtype = 0;
    size_t len = 0, load, at;
    DONE(lpt_end_new(&ground, 0, &c, memories, 0, content, 0));
    DONE(is_sized ? lpt_end_new_sized(&craft, &c, sizes, 16)
                  : lpt_end_new(&craft, 1, &c, memories, 16, content, sizeof content));
    /* A load of 65,519 octets, which is dropped, and comes again, and one of 255 areas; the longest
       dump; the longest check. */
    DONE(lpt_write_load(1, 0, message, 65519, body, sizeof body, &load));
    ask(ground, craft, 5, 2, body, load);
    TIMED(lpt_end_drop, "a request of 65542 octets", lpt_end_drop(craft), LPT_DONE);
    ask(ground, craft, 1, 2, body, load);
    TIMED(lpt_end_asked, "65542 octets", lpt_end_asked(craft, &service, &subtype), LPT_DONE);
    TIMED(lpt_end_asked_area, "65519 octets", lpt_end_asked_area(craft, 0, &area), LPT_DONE);
    TIMED(lpt_end_read, "a load of 65519 octets", lpt_end_read(craft), LPT_DONE);
    body[0] = 1, body[1] = AREAS;
    for (at = 0; at < AREAS; at++) {
        uint16_t sum = lpt_crc16(message, 248);
        uint8_t *here = body + 2 + at * 256;
        memset(here, 0, 4);
        here[4] = 0, here[5] = 248;
        memcpy(here + 6, message, 248);
        here[254] = (uint8_t)(sum >> 8), here[255] = (uint8_t)sum;
    }
    ask(ground, craft, 2, 2, body, 2 + AREAS * 256);
    TIMED(lpt_end_asked_area, "the last of 255",
          lpt_end_asked_area(craft, AREAS - 1, &area), LPT_DONE);
    TIMED(lpt_end_read, "a load of 255 areas", lpt_end_read(craft), LPT_DONE);
    dump_ranges[0].address = 0, dump_ranges[0].len = 65513;
    DONE(lpt_write_dump(1, dump_ranges, 1, body, sizeof body, &len));
    ask(ground, craft, 3, 5, body, len);
    TIMED(lpt_end_read, "a dump", lpt_end_read(craft), LPT_DONE);
    ask(ground, craft, 4, 9, check, sizeof check);
    TIMED(lpt_end_read, "a check of 255 areas", lpt_end_read(craft), LPT_DONE);
    ask(ground, craft, 6, 9, check, sizeof check);
    TIMED(lpt_end_read, "a check of 255 areas", lpt_end_read(craft), LPT_DONE);
    flush(craft);
    if (is_sized) {
        TIMED(lpt_end_access_octets, "65519 octets",
              lpt_end_access_octets(craft, 0, out, sizeof out, &len),
              LPT_DONE);
        TIMED(lpt_end_execute_given, "a load",
              lpt_end_execute_given(craft, given, 0, &applied), LPT_DONE);
        flush(craft);
        TIMED(lpt_end_access, "the last of 255",
              lpt_end_access(craft, AREAS - 1, &access), LPT_DONE);
        TIMED(lpt_end_access_octets, "the last of 255",
              lpt_end_access_octets(craft, AREAS - 1, out, sizeof out, &len), LPT_DONE);
        TIMED(lpt_end_execute_given, "a load",
              lpt_end_execute_given(craft, given, 0, &applied), LPT_DONE);
        flush(craft);
        TIMED(lpt_end_execute_given, "a dump",
              lpt_end_execute_given(craft, given, 65513, &applied), LPT_DONE);
        flush(craft);
        TIMED(lpt_end_execute_given, "a check of 255 areas of 65535 octets",
              lpt_end_execute_given(craft, given, sizeof given, &applied), LPT_DONE);
        flush(craft);
        TIMED(lpt_end_drop_read, "", lpt_end_drop_read(craft), LPT_DONE);
        ask(ground, craft, 7, 9, check, sizeof check);
        TIMED(lpt_end_read, "a check of 255 areas", lpt_end_read(craft), LPT_DONE);
    } else {
        for (at = 0; at < 4; at++) {
            TIMED(lpt_end_execute, "a check of 255 areas of 65535 octets",
                  lpt_end_execute(craft, &applied),
                  LPT_DONE);
            flush(craft);
        }
        TIMED(lpt_end_memory, "1 MiB",
              lpt_end_memory(craft, 1, given, sizeof given, &len), LPT_DONE);
        TIMED(lpt_end_memory_range, "1 MiB",
              lpt_end_memory_range(craft, 1, 0, given, MEMORY), LPT_DONE);
    }
    TIMED(lpt_end_refuse, "a check of 255 areas",
          lpt_end_refuse(craft, LPT_FAILURE_REPLY_TOO_LONG, &applied), LPT_DONE);
    lpt_end_free(ground);
    lpt_end_free(craft);
}

/* Plain requests until many wait. */
static void queue(void) {
    LptConfig c = config_of(1024);
    LptEnd *ground = NULL;
    size_t k;
    DONE(lpt_end_new(&ground, 0, &c, memories, 0, content, 0));
    for (k = 0; k < QUEUE; k++) {
        TIMED(lpt_end_plain, "1034 octets; the queue of 32768 packets doubles",
              lpt_end_plain(ground, 1, 0, 6, 2, message, 1024 + 10), LPT_DONE);
    }
    begin();
    lpt_end_free(ground);
    ended("lpt_end_free", "49152 packets");
}

int main(int argc, char **argv) {
    int rounds = argc > 1 ? atoi(argv[1]) : 7, at;
    size_t k;
    for (k = 0; k < LONG; k++) {
        message[k] = (uint8_t)(k * 7 + (k >> 8));
    }
    for (k = 0; k < 16; k++) {
        memories[k].id = sizes[k].id = (uint8_t)(k + 1);
        memories[k].at = k * MEMORY;
        memories[k].len = sizes[k].len = MEMORY;
    }
    for (round_number = 0; round_number < (rounds < 1 ? 1 : rounds) && !is_wrong; round_number++) {
        calls = 0;
        codecs();
        states();
        receptions();
        requests(0);
        requests(1);
        queue();
    }
    printf("Call,Input,Microseconds\n");
    for (at = 0; at < functions; at++) {
        size_t longest = CALLS;
        for (k = 0; k < calls; k++) {
            if (function_of[k] == at && (longest == CALLS || least[k] > least[longest])) {
                longest = k;
            }
        }
        printf("%s,%s,%.1f\n", names[at], input_of[longest], least[longest]);
    }
    return is_wrong;
}
