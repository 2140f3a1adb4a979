/*
 * Calls each function of lpt_end.h from C: the first path, a lost part and its report, parts that
 * contradict, every outcome and every fault once, against octets that were written by hand.
 *
 * It prints how many cases passed and failed. tests/c compiles it as C11 and as C++, with
 * sanitizers, and over the heap and over a pool.
 */
#include "lpt_end.h"

#include <stdio.h>
#include <stdlib.h>
#include <string.h>
#include <time.h>

static unsigned passed, failed;

static void look(int is_right, int line, const char *what) {
    if (is_right) {
        passed++;
        return;
    }
    failed++;
    printf("ends.c:%d: %s\n", line, what);
}

#define EXPECT(what) look((what), __LINE__, #what)
#define DONE(call) EXPECT((call) == LPT_DONE)

/* The first and the last part of a message of 20 octets, 0 to 19, under the name 7, in parts of 8,
   and the report that its reception was given up at tick 19: written by hand, their checksums
   computed elsewhere. */
static const uint8_t FIRST[] = {0x18, 0x64, 0xc0, 0x00, 0x00, 0x12, 0x20, 0x0d, 0x09,
                                0x00, 0x01, 0x00, 0x07, 0x00, 0x01, 0x00, 0x01, 0x02,
                                0x03, 0x04, 0x05, 0x06, 0x07, 0xf4, 0x0d};
static const uint8_t LAST[] = {0x18, 0x64, 0xc0, 0x02, 0x00, 0x0e, 0x20, 0x0d, 0x0b, 0x00, 0x01,
                               0x00, 0x07, 0x00, 0x03, 0x10, 0x11, 0x12, 0x13, 0x13, 0x9b};
static const uint8_t ABORTED[] = {0x08, 0x64, 0xc0, 0x00, 0x00, 0x0f, 0x20, 0x0d, 0x10, 0x00, 0x00,
                                  0x00, 0x01, 0x00, 0x00, 0x00, 0x13, 0x00, 0x07, 0x01, 0x4e, 0x97};
/* The same of the name 7 of source 2: its first part, and the second report of a spacecraft. */
static const uint8_t FIRST_OF_OTHER[] = {0x18, 0x64, 0xc0, 0x01, 0x00, 0x12, 0x20, 0x0d, 0x09,
                                         0x00, 0x02, 0x00, 0x07, 0x00, 0x01, 0x00, 0x01, 0x02,
                                         0x03, 0x04, 0x05, 0x06, 0x07, 0x0e, 0x1b};
static const uint8_t OTHER_ABORTED[] = {0x08, 0x64, 0xc0, 0x01, 0x00, 0x0f, 0x20, 0x0d,
                                        0x10, 0x00, 0x01, 0x00, 0x02, 0x00, 0x00, 0x00,
                                        0x13, 0x00, 0x07, 0x01, 0xf9, 0x45};
static const uint8_t IDLE[] = {0x07, 0xff, 0xc0, 0x00, 0x00, 0x00, 0x00};

enum { P = 8, ROOM = 70000 };

/* Two transactions of one identifier and two sources; and what is told where there is none. */
static const LptName NAME = {1, 7}, OTHER = {2, 7}, NONE = {0, 0};

static const LptConfig CONFIG = {100, P, 19, 2, 2, 0, LPT_MODE_ANY};
static const uint8_t MEMORY[16] = {0};
static const LptMemory MEMORIES[] = {{1, 0, sizeof MEMORY}};

static uint8_t message[65542], packet[ROOM], got[ROOM];
static size_t packet_len;

/* Another name of source 1, until the next. */
static const LptName *named(uint16_t id) {
    static LptName name = {1, 0};
    name.id = id;
    return &name;
}

static int same(LptName a, const LptName *b) { return a.source == b->source && a.id == b->id; }

/* What a call told. */
static int told(LptOutcome said, uint32_t kind, const LptName *name, uint32_t first,
                uint32_t second) {
    return said.kind == kind && same(said.name, name) && said.first == first &&
           said.second == second;
}

static void make(LptEnd **end, uint32_t side, const LptConfig *config) {
    DONE(lpt_end_new(end, side, config, MEMORIES, 1, MEMORY, sizeof MEMORY));
}

/* Takes the packet that is to be sent first out of an end. */
static int take_packet(LptEnd *end) {
    packet_len = 0;
    return lpt_end_outgoing(end, packet, sizeof packet, &packet_len) == LPT_DONE &&
           lpt_end_sent(end) == LPT_DONE;
}

/* Whether an end tells that so much is to be done. */
static int has(LptEnd *end, uint32_t clock, uint32_t due, size_t outgoing, size_t unread,
               size_t requests) {
    LptView view = {9, 9, 9, 9, 9, 9};
    return lpt_end_view(end, &view) == LPT_DONE && view.clock == clock && view.due == due &&
           view.outgoing == outgoing && view.unread == unread && view.requests == requests;
}

/* The packet of a part. */
static int make_part(LptEnd *end, const LptName *name, uint16_t k) {
    return lpt_end_part(end, name, k) == LPT_DONE && take_packet(end);
}

static int packet_is(const uint8_t *octets, size_t len) {
    return packet_len == len && memcmp(packet, octets, len) == 0;
}

/* The packet of a part at one end, given to the other. */
static LptOutcome carry(LptEnd *from, LptEnd *to, const LptName *name, uint16_t k) {
    LptOutcome said = {0, NONE, 0, 0};
    EXPECT(make_part(from, name, k));
    DONE(lpt_end_packet(to, packet, packet_len, &said));
    return said;
}

/* What is made of octets. */
static LptOutcome taken(LptEnd *end, const uint8_t *octets, size_t len) {
    LptOutcome said = {0, NONE, 0, 0};
    DONE(lpt_end_packet(end, octets, len, &said));
    return said;
}

/* A telecommand at the spacecraft. */
static LptOutcome command(LptEnd *end, LptTcHead head, const uint8_t *body, size_t len) {
    DONE(lpt_write_tc(&head, body, len, packet, sizeof packet, &packet_len));
    return taken(end, packet, packet_len);
}

/* A message in three parts, and its name used again. */
static void first_path(void) {
    LptEnd *ground = NULL, *craft = NULL;
    size_t len = 99;
    uint32_t state = 9;
    make(&ground, LPT_SIDE_GROUND, &CONFIG);
    make(&craft, LPT_SIDE_SPACECRAFT, &CONFIG);
    DONE(lpt_end_open(ground, &NAME, message, 20));
    DONE(lpt_end_part(ground, &NAME, 1));
    EXPECT(lpt_end_outgoing(ground, packet, 24, &len) == LPT_E_ROOM && len == sizeof FIRST);
    EXPECT(take_packet(ground) && packet_is(FIRST, sizeof FIRST));
    EXPECT(told(taken(craft, packet, packet_len), LPT_OUTCOME_KEPT, &NAME, 1, 0));
    EXPECT(told(taken(craft, packet, packet_len), LPT_OUTCOME_AGAIN, &NAME, 1, 0));
    EXPECT(told(carry(ground, craft, &NAME, 2), LPT_OUTCOME_KEPT, &NAME, 2, 0));
    EXPECT(lpt_end_released(craft, got, sizeof got, &len) == LPT_E_NOTHING);
    EXPECT(told(carry(ground, craft, &NAME, 3), LPT_OUTCOME_RELEASED, &NAME, 20, 0));
    EXPECT(packet_is(LAST, sizeof LAST));
    len = 99;
    memset(got, 0xee, sizeof got);
    EXPECT(lpt_end_released(craft, got, 19, &len) == LPT_E_ROOM && len == 20 && got[0] == 0xee);
    DONE(lpt_end_released(craft, got, 21, &len));
    EXPECT(len == 20 && memcmp(got, message, 20) == 0 && got[20] == 0xee);
    EXPECT(told(taken(craft, packet, packet_len), LPT_OUTCOME_IGNORED, &NONE, LPT_WHY_CLOSED, 0));
    EXPECT(lpt_end_released(craft, got, sizeof got, &len) == LPT_E_NOTHING);
    EXPECT(lpt_end_outgoing(craft, got, sizeof got, &len) == LPT_E_NOTHING && len == 20);

    EXPECT(lpt_end_retire(ground, LPT_DIRECTION_UP, &NAME) == LPT_E_STILL_OPEN);
    EXPECT(lpt_end_name(ground, LPT_DIRECTION_UP, &NAME, &state) == LPT_DONE &&
           state == LPT_NAME_OPEN);
    DONE(lpt_end_finish(ground, &NAME));
    EXPECT(lpt_end_open(ground, &NAME, message, 20) == LPT_E_IN_USE);
    EXPECT(lpt_end_name(craft, LPT_DIRECTION_UP, &NAME, &state) == LPT_DONE &&
           state == LPT_NAME_CLOSED);
    EXPECT(lpt_end_name(ground, LPT_DIRECTION_DOWN, &NAME, &state) == LPT_DONE &&
           state == LPT_NAME_FREE);
    DONE(lpt_end_retire(ground, LPT_DIRECTION_UP, &NAME));
    DONE(lpt_end_retire(craft, LPT_DIRECTION_UP, &NAME));
    DONE(lpt_end_retire(craft, LPT_DIRECTION_DOWN, &NAME));
    DONE(lpt_end_open(ground, &NAME, message, 9));
    EXPECT(told(carry(ground, craft, &NAME, 2), LPT_OUTCOME_KEPT, &NAME, 2, 0));
    EXPECT(lpt_end_retire(craft, LPT_DIRECTION_UP, &NAME) == LPT_E_STILL_OPEN);
    EXPECT(told(carry(ground, craft, &NAME, 1), LPT_OUTCOME_RELEASED, &NAME, 9, 0));
    lpt_end_free(ground);
    lpt_end_free(craft);
}

/* A part that is lost: the reception is given up, and ground hears of it. */
static void lost_part(void) {
    LptEnd *ground = NULL, *craft = NULL;
    LptName name = NONE;
    unsigned tick;
    make(&ground, LPT_SIDE_GROUND, &CONFIG);
    make(&craft, LPT_SIDE_SPACECRAFT, &CONFIG);
    DONE(lpt_end_open(ground, &NAME, message, 20));
    EXPECT(told(carry(ground, craft, &NAME, 1), LPT_OUTCOME_KEPT, &NAME, 1, 0));
    EXPECT(told(carry(ground, craft, &NAME, 3), LPT_OUTCOME_KEPT, &NAME, 3, 0));
    for (tick = 0; tick < 19; tick++) {
        EXPECT(lpt_end_expire(craft, &name) == LPT_E_NOTHING_DUE && same(name, &NONE));
        EXPECT(has(craft, CONFIG.clock + tick, 0, 0, 0, 0));
        DONE(lpt_end_tick(craft));
    }
    EXPECT(has(craft, CONFIG.clock + 19, 1, 0, 0, 0));
    EXPECT(lpt_end_expire(craft, &name) == LPT_DONE && same(name, &NAME));
    EXPECT(has(craft, CONFIG.clock + 19, 0, 1, 0, 0));
    EXPECT(take_packet(craft) && packet_is(ABORTED, sizeof ABORTED));
    EXPECT(told(taken(ground, ABORTED, sizeof ABORTED), LPT_OUTCOME_ABORT_NOTED, &NAME, 1, 0));
    EXPECT(lpt_end_part(ground, &NAME, 2) == LPT_E_NOT_OPEN);
    EXPECT(lpt_end_finish(ground, &NAME) == LPT_E_NOT_OPEN);
    EXPECT(lpt_end_sent(craft) == LPT_E_NOTHING);
    lpt_end_free(ground);
    lpt_end_free(craft);
}

/* One identifier of two sources: two messages, of which each is sent, released, freed, opened again
   and given up by itself. */
static void two_sources(void) {
    LptEnd *ground = NULL, *craft = NULL;
    LptName name = NONE;
    size_t len = 0;
    make(&ground, LPT_SIDE_GROUND, &CONFIG);
    make(&craft, LPT_SIDE_SPACECRAFT, &CONFIG);
    DONE(lpt_end_open(ground, &NAME, message, 20));
    DONE(lpt_end_open(ground, &OTHER, message, 9));
    EXPECT(lpt_end_open(ground, &OTHER, message, 9) == LPT_E_IN_USE);
    EXPECT(told(carry(ground, craft, &NAME, 1), LPT_OUTCOME_KEPT, &NAME, 1, 0));
    EXPECT(told(carry(ground, craft, &OTHER, 1), LPT_OUTCOME_KEPT, &OTHER, 1, 0));
    EXPECT(packet_is(FIRST_OF_OTHER, sizeof FIRST_OF_OTHER));
    EXPECT(told(carry(ground, craft, &OTHER, 2), LPT_OUTCOME_RELEASED, &OTHER, 9, 0));
    DONE(lpt_end_released(craft, got, sizeof got, &len));
    EXPECT(len == 9 && memcmp(got, message, 9) == 0);
    EXPECT(told(carry(ground, craft, &OTHER, 2), LPT_OUTCOME_IGNORED, &NONE, LPT_WHY_CLOSED, 0));

    DONE(lpt_end_finish(ground, &OTHER));
    DONE(lpt_end_retire(ground, LPT_DIRECTION_UP, &OTHER));
    DONE(lpt_end_retire(craft, LPT_DIRECTION_UP, &OTHER));
    EXPECT(lpt_end_retire(ground, LPT_DIRECTION_UP, &NAME) == LPT_E_STILL_OPEN);
    EXPECT(lpt_end_retire(craft, LPT_DIRECTION_UP, &NAME) == LPT_E_STILL_OPEN);
    DONE(lpt_end_open(ground, &OTHER, message, 20));
    EXPECT(told(carry(ground, craft, &OTHER, 3), LPT_OUTCOME_KEPT, &OTHER, 3, 0));

    DONE(lpt_end_tick_many(craft, 18));
    EXPECT(lpt_end_expire(craft, &name) == LPT_E_NOTHING_DUE);
    DONE(lpt_end_tick_many(craft, 1));
    EXPECT(lpt_end_expire(craft, &name) == LPT_DONE && same(name, &NAME));
    EXPECT(lpt_end_expire(craft, &name) == LPT_DONE && same(name, &OTHER));
    EXPECT(take_packet(craft) && packet_is(ABORTED, sizeof ABORTED));
    EXPECT(take_packet(craft) && packet_is(OTHER_ABORTED, sizeof OTHER_ABORTED));
    EXPECT(told(taken(ground, packet, packet_len), LPT_OUTCOME_ABORT_NOTED, &OTHER, 1, 0));
    EXPECT(lpt_end_part(ground, &OTHER, 1) == LPT_E_NOT_OPEN);
    DONE(lpt_end_part(ground, &NAME, 2));
    lpt_end_free(ground);
    lpt_end_free(craft);
}

/* Parts that break their reception off, and two reports that wait to be sent. */
static void broken(void) {
    LptConfig strict = CONFIG;
    LptEnd *ground = NULL, *craft = NULL;
    LptEnd *twin = NULL, *other = NULL;
    static uint8_t another[20];
    make(&ground, LPT_SIDE_GROUND, &CONFIG);
    make(&craft, LPT_SIDE_SPACECRAFT, &CONFIG);
    make(&twin, LPT_SIDE_GROUND, &CONFIG);
    DONE(lpt_end_open(ground, &NAME, message, 20));
    DONE(lpt_end_open(ground, named(8), message, 20));
    DONE(lpt_end_open(twin, &NAME, another, 20));
    DONE(lpt_end_open(twin, named(8), another, 20));
    EXPECT(told(carry(ground, craft, &NAME, 1), LPT_OUTCOME_KEPT, &NAME, 1, 0));
    EXPECT(told(carry(ground, craft, named(8), 3), LPT_OUTCOME_KEPT, named(8), 3, 0));
    EXPECT(told(carry(twin, craft, &NAME, 1), LPT_OUTCOME_BROKEN, &NAME, 3, 0));
    EXPECT(told(carry(twin, craft, named(8), 3), LPT_OUTCOME_BROKEN, named(8), 3, 0));
    EXPECT(take_packet(craft));
    EXPECT(told(taken(ground, packet, packet_len), LPT_OUTCOME_ABORT_NOTED, &NAME, 3, 0));
    EXPECT(take_packet(craft));
    EXPECT(told(taken(ground, packet, packet_len), LPT_OUTCOME_ABORT_NOTED, named(8), 3, 0));
    EXPECT(!take_packet(craft));

    strict.mode = LPT_MODE_STRICT;
    make(&other, LPT_SIDE_SPACECRAFT, &strict);
    EXPECT(told(carry(twin, other, &NAME, 1), LPT_OUTCOME_KEPT, &NAME, 1, 0));
    EXPECT(told(carry(twin, other, &NAME, 3), LPT_OUTCOME_BROKEN, &NAME, 2, 0));
    lpt_end_free(ground);
    lpt_end_free(craft);
    lpt_end_free(twin);
    lpt_end_free(other);
}

/* What is neither a part nor an abortion, and what nothing is made of. */
static void other_packets(void) {
    LptTcHead head = {100, 0, 0, 6, 5, 1};
    LptTmHead report = {100, 0, 0, 1, 7, 0, 1, 0};
    LptEnd *ground = NULL, *craft = NULL;
    uint8_t body[12] = {0, 1, 0, 1, 1, 2, 3, 4, 5, 6, 7, 8};
    size_t len = 0;
    make(&ground, LPT_SIDE_GROUND, &CONFIG);
    make(&craft, LPT_SIDE_SPACECRAFT, &CONFIG);
    EXPECT(told(command(craft, head, body, 3), LPT_OUTCOME_PLAIN_RELEASED, &NONE, 16, 0));
    DONE(lpt_end_released(craft, got, sizeof got, &len));
    EXPECT(len == packet_len && memcmp(got, packet, len) == 0);
    EXPECT(told(taken(ground, packet, packet_len), LPT_OUTCOME_IGNORED, &NONE, LPT_WHY_UNREADABLE,
                0));
    DONE(lpt_write_tm(&report, body, 4, packet, sizeof packet, &packet_len));
    EXPECT(told(taken(ground, packet, packet_len), LPT_OUTCOME_REPORT_NOTED, &NONE, 1, 7));
    EXPECT(told(taken(craft, packet, 5), LPT_OUTCOME_IGNORED, &NONE, LPT_WHY_UNREADABLE, 0));
    EXPECT(told(taken(craft, packet, 0), LPT_OUTCOME_IGNORED, &NONE, LPT_WHY_UNREADABLE, 0));
    EXPECT(told(taken(craft, IDLE, sizeof IDLE), LPT_OUTCOME_IGNORED, &NONE, LPT_WHY_IDLE, 0));
    head.apid = 101;
    EXPECT(
        told(command(craft, head, body, 3), LPT_OUTCOME_IGNORED, &NONE, LPT_WHY_FOREIGN_APID, 0));
    head.apid = 100;
    head.service = 13;
    head.subtype = 9;
    EXPECT(told(command(craft, head, body, 11), LPT_OUTCOME_IGNORED, &NONE, LPT_WHY_BAD_PART, 0));
    EXPECT(told(command(craft, head, body, 12), LPT_OUTCOME_KEPT, named(1), 1, 0));
    body[1] = 2;
    EXPECT(told(command(craft, head, body, 12), LPT_OUTCOME_KEPT, named(2), 1, 0));
    body[1] = 3;
    EXPECT(told(command(craft, head, body, 12), LPT_OUTCOME_IGNORED, &NONE, LPT_WHY_NO_ROOM, 0));
    lpt_end_free(ground);
    lpt_end_free(craft);
}

/* A request that loads three octets into the memory, read and executed, with its three reports; and
   one of a memory that isn't there. */
static void executed(void) {
    /* Memory 1, one area: at 2, three octets, and their checksum. */
    uint8_t load[] = {1, 1, 0, 0, 0, 2, 0, 3, 7, 8, 9, 0, 0};
    uint8_t dump[] = {9, 1, 0, 0, 0, 0, 0, 1};
    LptTcHead head = {100, 0, 11, 6, 2, 1};
    LptApplied applied = {9, NAME, 9};
    LptArea area = {9, 9, 9};
    LptEnd *craft = NULL, *ground = NULL;
    uint16_t sum = lpt_crc16(load + 8, 3);
    size_t len = 0;
    unsigned subtype;
    load[11] = (uint8_t)(sum >> 8);
    load[12] = (uint8_t)sum;
    make(&craft, LPT_SIDE_SPACECRAFT, &CONFIG);
    make(&ground, LPT_SIDE_GROUND, &CONFIG);
    EXPECT(lpt_end_read(ground) == LPT_E_NO_JOB && lpt_end_read(craft) == LPT_E_NO_JOB);
    EXPECT(lpt_end_execute(ground, &applied) == LPT_E_NO_JOB);
    EXPECT(lpt_end_execute(craft, &applied) == LPT_E_NO_JOB && applied.kind == 9);
    EXPECT(
        told(command(craft, head, load, sizeof load), LPT_OUTCOME_PLAIN_RELEASED, &NONE, 26, 0));
    EXPECT(lpt_end_execute(craft, &applied) == LPT_E_NOT_READ && applied.kind == 9);
    EXPECT(lpt_end_asked_area(craft, 1, &area) == LPT_E_NOTHING && area.memory == 9);
    EXPECT(lpt_end_asked_area(ground, 0, &area) == LPT_E_NO_JOB && area.address == 9);
    DONE(lpt_end_asked_area(craft, 0, &area));
    EXPECT(area.memory == 1 && area.address == 2 && area.len == 3);
    DONE(lpt_end_read(craft));
    EXPECT(lpt_end_asked_area(craft, 0, &area) == LPT_E_NO_JOB && area.len == 3);
    EXPECT(lpt_end_read(craft) == LPT_E_NO_JOB);
    DONE(lpt_end_execute(craft, &applied));
    EXPECT(applied.kind == LPT_APPLIED_CARRIED_OUT && applied.value == 0);
    EXPECT(lpt_end_memory(craft, 2, got, sizeof got, &len) == LPT_E_NOTHING);
    EXPECT(lpt_end_memory(ground, 1, got, sizeof got, &len) == LPT_E_NOTHING);
    DONE(lpt_end_memory(craft, 1, got, sizeof got, &len));
    EXPECT(len == sizeof MEMORY && got[1] == 0 && got[2] == 7 && got[4] == 9 && got[5] == 0);
    DONE(lpt_end_memory_range(craft, area.memory, area.address, got, area.len));
    EXPECT(got[0] == 7 && got[1] == 8 && got[2] == 9 && got[3] == 8);
    DONE(lpt_end_memory_range(craft, 1, sizeof MEMORY, got, 0));
    EXPECT(lpt_end_memory_range(craft, 1, sizeof MEMORY - 1, got, 2) == LPT_E_RANGE);
    EXPECT(lpt_end_memory_range(craft, 1, 0xffffffff, got, 1) == LPT_E_RANGE && got[0] == 7);
    EXPECT(lpt_end_memory_range(craft, 2, 0, got, 1) == LPT_E_NOTHING);
    EXPECT(lpt_end_memory_range(ground, 1, 0, got, 1) == LPT_E_NOTHING);
    head.subtype = 5;
    EXPECT(
        told(command(craft, head, dump, sizeof dump), LPT_OUTCOME_PLAIN_RELEASED, &NONE, 21, 0));
    EXPECT(lpt_end_asked_area(craft, 0, &area) == LPT_E_NOTHING && area.len == 3);
    DONE(lpt_end_read(craft));
    EXPECT(lpt_end_execute(craft, &applied) == LPT_E_UNSENT);
    for (subtype = 1; subtype < 8; subtype = subtype == 3 ? 7 : subtype + 2) {
        EXPECT(take_packet(craft) && packet[7] == 1 && packet[8] == subtype);
    }
    DONE(lpt_end_execute(craft, &applied));
    EXPECT(applied.kind == LPT_APPLIED_REFUSED && applied.value == 3);
    EXPECT(take_packet(craft) && packet[8] == 1 && take_packet(craft) && packet[8] == 4);
    EXPECT(!take_packet(craft) && lpt_end_execute(craft, &applied) == LPT_E_NO_JOB);
    lpt_end_free(craft);
    lpt_end_free(ground);
}

/* What ground has to send, given to the spacecraft, whose requests are executed; and what that has
   to send, given to ground. */
static LptApplied answered(LptEnd *ground, LptEnd *craft) {
    LptApplied applied = {9, NAME, 9};
    while (take_packet(ground)) {
        taken(craft, packet, packet_len);
    }
    DONE(lpt_end_read(craft));
    DONE(lpt_end_execute(craft, &applied));
    while (take_packet(craft)) {
        EXPECT(taken(ground, packet, packet_len).kind == LPT_OUTCOME_REPORT_NOTED);
    }
    return applied;
}

/* Two memories, and plain requests of ground: a load, and a dump whose report is sent in parts. */
static void requests(void) {
    static const LptMemory two[] = {{9, 20, 200}, {1, 0, 10}};
    /* Memory 9, one area: at 197, three octets, and their checksum; and a dump of all of it. */
    uint8_t load[] = {9, 1, 0, 0, 0, 197, 0, 3, 7, 8, 9, 0, 0};
    uint8_t dump[] = {9, 1, 0, 0, 0, 0, 0, 200};
    LptEnd *ground = NULL, *craft = NULL;
    LptOutcome said = {0, NONE, 0, 0};
    LptApplied applied;
    uint16_t sum = lpt_crc16(load + 8, 3), k;
    size_t len = 0;
    load[11] = (uint8_t)(sum >> 8);
    load[12] = (uint8_t)sum;
    make(&ground, LPT_SIDE_GROUND, &CONFIG);
    DONE(lpt_end_new(&craft, LPT_SIDE_SPACECRAFT, &CONFIG, two, 2, message, 220));
    EXPECT(lpt_end_plain(ground, 1, 16, 6, 2, load, sizeof load) == LPT_E_RANGE);
    EXPECT(lpt_end_plain(craft, 1, 0, 6, 2, load, sizeof load) == LPT_E_RANGE);
    EXPECT(lpt_end_plain(ground, 1, 9, 13, 9, load, sizeof load) == LPT_E_PART_REQUEST);
    EXPECT(lpt_end_plain(ground, 1, 9, 6, 2, got, P + 11) == LPT_E_LONG_MESSAGE);
    EXPECT(!take_packet(ground));
    DONE(lpt_end_plain(ground, 1, 9, 6, 2, load, sizeof load));
    applied = answered(ground, craft);
    EXPECT(applied.kind == LPT_APPLIED_CARRIED_OUT && applied.value == 0);
    DONE(lpt_end_memory(craft, 9, got, sizeof got, &len));
    EXPECT(len == 200 && memcmp(got, message + 20, 197) == 0 &&
           memcmp(got + 197, load + 8, 3) == 0);
    DONE(lpt_end_memory(craft, 1, got, sizeof got, &len));
    EXPECT(len == 10 && memcmp(got, message, 10) == 0);

    DONE(lpt_end_plain(ground, 1, 0, 6, 5, dump, sizeof dump));
    applied = answered(ground, craft);
    EXPECT(applied.kind == LPT_APPLIED_OPENED && same(applied.name, named(0)) &&
           applied.value == 0);
    for (k = 1; lpt_end_part(craft, &applied.name, k) == LPT_DONE; k++) {
        EXPECT(take_packet(craft));
        said = taken(ground, packet, packet_len);
    }
    /* Around the octets: two headers, the report's own eight octets, and two checksums. */
    EXPECT(told(said, LPT_OUTCOME_RELEASED, named(0), 6 + 11 + 8 + 200 + 2 + 2, 0));
    DONE(lpt_end_released(ground, got, sizeof got, &len));
    EXPECT(got[7] == 6 && got[8] == 6 && memcmp(got + 25, message + 20, 197) == 0);
    EXPECT(memcmp(got + 25 + 197, load + 8, 3) == 0);
    lpt_end_free(ground);
    lpt_end_free(craft);
}

/* A message of this length downwards, in parts of p octets. */
static void long_message(size_t len, uint32_t p) {
    LptConfig config = CONFIG;
    LptEnd *ground = NULL, *craft = NULL;
    uint32_t k, parts = lpt_part_count((uint32_t)len, p), kept = 0;
    LptOutcome said = {0, NONE, 0, 0};
    size_t released = 0;
    config.part_size = p;
    make(&ground, LPT_SIDE_GROUND, &config);
    make(&craft, LPT_SIDE_SPACECRAFT, &config);
    DONE(lpt_end_open(craft, named(65535), message, len));
    for (k = parts; k > 0; k--) {
        kept += make_part(craft, named(65535), (uint16_t)k) &&
                lpt_end_packet(ground, packet, packet_len, &said) == LPT_DONE &&
                said.kind == (uint32_t)(k == 1 ? LPT_OUTCOME_RELEASED : LPT_OUTCOME_KEPT);
    }
    EXPECT(kept == parts && told(said, LPT_OUTCOME_RELEASED, named(65535), (uint32_t)len, 0));
    DONE(lpt_end_released(ground, got, sizeof got, &released));
    EXPECT(released == len && memcmp(got, message, len) == 0);
    lpt_end_free(ground);
    lpt_end_free(craft);
}

/* A configuration that has this wrong. */
static uint32_t new_with(LptEnd **end, uint32_t side, LptConfig config, size_t memory_len) {
    static uint8_t memory[1048577];
    LptMemory one = {1, 0, 0};
    one.len = memory_len;
    return lpt_end_new(end, side, &config, &one, 1, memory, memory_len);
}

/* A spacecraft with the first of these memories, of this content. */
static uint32_t new_of(LptEnd **end, const LptMemory *memories, size_t count, size_t len) {
    return lpt_end_new(end, LPT_SIDE_SPACECRAFT, &CONFIG, memories, count, message, len);
}

static void refused_memories(void) {
    LptMemory many[17], two[] = {{1, 0, 4}, {2, 4, 4}};
    LptEnd *end = NULL;
    size_t k;
    for (k = 0; k < 17; k++) {
        many[k].id = (uint8_t)k;
        many[k].at = k;
        many[k].len = 1;
    }
    EXPECT(new_of(&end, many, 0, 20) == LPT_E_MEMORIES);
    EXPECT(new_of(&end, many, 17, 20) == LPT_E_MEMORIES);
    EXPECT(new_of(&end, two, 2, 7) == LPT_E_MEMORIES);
    two[1].at = SIZE_MAX;
    EXPECT(new_of(&end, two, 2, 8) == LPT_E_MEMORIES);
    two[1].at = 8;
    EXPECT(new_of(&end, two, 2, 8) == LPT_E_MEMORIES);
    two[1].at = 4;
    two[1].len = SIZE_MAX;
    EXPECT(new_of(&end, two, 2, 8) == LPT_E_MEMORIES);
    two[1].len = 4;
    two[1].id = 1;
    EXPECT(new_of(&end, two, 2, 8) == LPT_E_MEMORIES && end == NULL);
    DONE(new_of(&end, many, 16, 16));
    lpt_end_free(end);
}

static void refused_ends(void) {
    LptEnd *end = NULL;
    LptConfig c = CONFIG;
    EXPECT(new_with(&end, 2, c, 1) == LPT_E_RANGE);
    c.mode = 2;
    EXPECT(new_with(&end, LPT_SIDE_GROUND, c, 1) == LPT_E_RANGE);
    c = CONFIG;
    c.apid = 2047;
    c.part_size = 3;
    EXPECT(new_with(&end, LPT_SIDE_GROUND, c, 1) == LPT_E_CONFIG_APID);
    c.apid = 2046;
    EXPECT(new_with(&end, LPT_SIDE_GROUND, c, 1) == LPT_E_CONFIG_PART_SIZE);
    c.part_size = 1025;
    EXPECT(new_with(&end, LPT_SIDE_GROUND, c, 1) == LPT_E_CONFIG_PART_SIZE);
    c.part_size = 1024;
    c.timeout = 0;
    EXPECT(new_with(&end, LPT_SIDE_GROUND, c, 1) == LPT_E_CONFIG_TIMEOUT);
    c.timeout = 65535;
    c.receptions = 65;
    EXPECT(new_with(&end, LPT_SIDE_GROUND, c, 1) == LPT_E_CONFIG_RECEPTIONS);
    c.receptions = 64;
    c.outgoing = 0;
    EXPECT(new_with(&end, LPT_SIDE_GROUND, c, 1) == LPT_E_CONFIG_OUTGOING);
    EXPECT(new_with(&end, LPT_SIDE_SPACECRAFT, CONFIG, 0) == LPT_E_MEMORIES);
    EXPECT(new_with(&end, LPT_SIDE_SPACECRAFT, CONFIG, 1048577) == LPT_E_MEMORIES);
    EXPECT(end == NULL);
    lpt_end_free(end);
    DONE(new_with(&end, LPT_SIDE_GROUND, CONFIG, 0));
    EXPECT(end != NULL);
    lpt_end_free(end);
}

static void refused_calls(void) {
    LptConfig config = CONFIG;
    LptEnd *end = NULL;
    uint32_t state = 9;
    config.clock = 4294967294u;
    make(&end, LPT_SIDE_GROUND, &config);
    EXPECT(lpt_end_tick_many(end, 2) == LPT_E_CLOCK_END && has(end, 4294967294u, 0, 0, 0, 0));
    DONE(lpt_end_tick(end));
    EXPECT(lpt_end_tick(end) == LPT_E_CLOCK_END);
    EXPECT(lpt_end_tick_many(end, 4294967295u) == LPT_E_CLOCK_END);
    DONE(lpt_end_tick_many(end, 0));
    EXPECT(lpt_end_part(end, &NAME, 1) == LPT_E_NOT_OPEN);
    EXPECT(lpt_end_finish(end, &NAME) == LPT_E_NOT_OPEN);
    EXPECT(lpt_end_open(end, &NAME, message, P) == LPT_E_SHORT_MESSAGE);
    EXPECT(lpt_end_open(end, &NAME, got, 65543) == LPT_E_LONG_MESSAGE);
    DONE(lpt_end_open(end, named(1), message, 65542));
    DONE(lpt_end_open(end, named(2), message, 9));
    EXPECT(lpt_end_open(end, named(3), message, 9) == LPT_E_TOO_MANY);
    EXPECT(lpt_end_open(end, named(2), message, 9) == LPT_E_IN_USE);
    EXPECT(lpt_end_part(end, named(2), 0) == LPT_E_NO_SUCH_PART);
    EXPECT(lpt_end_part(end, named(2), 3) == LPT_E_NO_SUCH_PART);
    EXPECT(lpt_end_sent(end) == LPT_E_NOTHING);
    EXPECT(lpt_end_retire(end, 2, named(2)) == LPT_E_RANGE);
    EXPECT(lpt_end_name(end, 2, named(2), &state) == LPT_E_RANGE && state == 9);
    DONE(lpt_end_retire(end, LPT_DIRECTION_DOWN, named(2)));
    lpt_end_free(end);
}

/* All ticks of a clock take no longer than one. */
static void all_ticks(void) {
    LptEnd *end = NULL;
    LptConfig config = CONFIG;
    clock_t before;
    config.clock = 0;
    make(&end, LPT_SIDE_GROUND, &config);
    before = clock();
    DONE(lpt_end_tick_many(end, 4294967295u));
    EXPECT(clock() - before < CLOCKS_PER_SEC / 10);
    EXPECT(has(end, 4294967295u, 0, 0, 0, 0) && lpt_end_tick(end) == LPT_E_CLOCK_END);
    lpt_end_free(end);
}

/* A copy of an address names the same end, and of no end nothing is freed. */
static void copied(void) {
    LptEnd *end = NULL, *copy = NULL;
    make(&end, LPT_SIDE_GROUND, &CONFIG);
    copy = end;
    DONE(lpt_end_open(copy, &NAME, message, 20));
    EXPECT(lpt_end_open(end, &NAME, message, 20) == LPT_E_IN_USE);
    DONE(lpt_end_tick(end));
    EXPECT(has(copy, 1, 0, 0, 0, 0));
    lpt_end_free(copy);
    lpt_end_free(NULL);
}

/* After a new start the counts begin at 0 again, and what was to be sent still is. */
static void new_start(void) {
    LptEnd *ground = NULL;
    make(&ground, LPT_SIDE_GROUND, &CONFIG);
    DONE(lpt_end_open(ground, &NAME, message, 20));
    DONE(lpt_end_part(ground, &NAME, 2));
    DONE(lpt_end_restart(ground));
    EXPECT(lpt_end_part(ground, &NAME, 1) == LPT_E_NOT_OPEN);
    EXPECT(lpt_end_open(ground, &NAME, message, 20) == LPT_E_IN_USE);
    EXPECT(take_packet(ground) && packet[14] == 2);
    DONE(lpt_end_retire(ground, LPT_DIRECTION_UP, &NAME));
    DONE(lpt_end_open(ground, &NAME, message, 20));
    EXPECT(make_part(ground, &NAME, 1) && packet_is(FIRST, sizeof FIRST));
    lpt_end_free(ground);
}

/* The state of a ground end at start 0 and tick 1 that has used name 7 of source 1: written by
   hand, its checksum computed elsewhere. */
static const uint8_t STATE[] = {
    0x4c, 0x50, 0x54, 0x53, 0x02, 0x00, 0x00, 0x64, 0x00, 0x00, 0x00, 0x00, 0x00, 0x08, 0x00, 0x00,
    0x00, 0x00, 0x00, 0x00, 0x00, 0x00, 0x00, 0x00, 0x00, 0x00, 0x01, 0x00, 0x00, 0x00, 0x00, 0x00,
    0x00, 0x00, 0x01, 0x00, 0x00, 0x00, 0x00, 0x00, 0x00, 0x00, 0x00, 0x00, 0x01, 0x00, 0x07, 0x00,
    0x07, 0xb9, 0xfb};

/* Makes a ground end of octets. */
static uint32_t resumed(LptEnd **end, const uint8_t *state, size_t len) {
    return lpt_end_resume(end, LPT_SIDE_GROUND, &CONFIG, state, len, MEMORIES, 0, MEMORY, 0);
}

/* The same of a state of which so many octets are this one, and its checksum made to fit. */
static uint32_t resumed_with(LptEnd **end, size_t at, uint8_t octet, size_t count) {
    uint8_t state[sizeof STATE];
    uint16_t sum;
    memcpy(state, STATE, sizeof state);
    memset(state + at, octet, count);
    sum = lpt_crc16(state, sizeof state - 2);
    state[sizeof state - 2] = (uint8_t)(sum >> 8);
    state[sizeof state - 1] = (uint8_t)sum;
    return resumed(end, state, sizeof state);
}

/* An end is kept as octets and made again of them: it knows the names, the clock and the start. */
static void kept(void) {
    LptEnd *ground = NULL, *again = NULL;
    uint32_t is = 99;
    size_t len = 99;
    make(&ground, LPT_SIDE_GROUND, &CONFIG);
    DONE(lpt_end_open(ground, &NAME, message, 20));
    DONE(lpt_end_tick(ground));
    got[0] = 9;
    EXPECT(lpt_end_state(ground, got, sizeof STATE - 1, &len) == LPT_E_ROOM);
    EXPECT(len == sizeof STATE && got[0] == 9);
    DONE(lpt_end_state(ground, got, sizeof got, &len));
    EXPECT(len == sizeof STATE && memcmp(got, STATE, len) == 0);
    DONE(resumed(&again, STATE, sizeof STATE));
    DONE(lpt_end_name(again, LPT_DIRECTION_UP, &NAME, &is));
    EXPECT(is == LPT_NAME_CLOSED);
    EXPECT(lpt_end_open(again, &NAME, message, 20) == LPT_E_IN_USE);
    DONE(lpt_end_restart(ground));
    DONE(lpt_end_state(ground, packet, sizeof packet, &packet_len));
    DONE(lpt_end_state(again, got, sizeof got, &len));
    EXPECT(packet_is(got, len) && got[22] == 1);
    lpt_end_free(again);
    lpt_end_free(ground);
}

/* Whether the first closed name from one on is this. */
static int closed_is(LptEnd *end, LptName from, uint16_t source, uint16_t id) {
    LptName name = {99, 99};
    return lpt_end_closed(end, LPT_DIRECTION_UP, &from, &name) == LPT_DONE &&
           name.source == source && name.id == id;
}

/* Closed names are told one after the other, also by an end that was made again of its state. */
static void closed_names(void) {
    static const LptName USED[] = {{2, 1}, {1, 65535}, {1, 9}, {1, 3}, {1, 2}};
    LptEnd *ground = NULL, *again = NULL;
    LptName from = {0, 0}, name = {98, 99};
    size_t at, len = 0;
    make(&ground, LPT_SIDE_GROUND, &CONFIG);
    EXPECT(lpt_end_closed(ground, LPT_DIRECTION_UP, &from, &name) == LPT_E_NOTHING);
    for (at = 0; at < 5; at++) {
        DONE(lpt_end_open(ground, &USED[at], message, 20));
        DONE(lpt_end_finish(ground, &USED[at]));
    }
    DONE(lpt_end_open(ground, named(1), message, 20));
    DONE(lpt_end_retire(ground, LPT_DIRECTION_UP, named(3)));
    EXPECT(closed_is(ground, from, 1, 2));
    EXPECT(closed_is(ground, *named(2), 1, 2));
    EXPECT(closed_is(ground, *named(3), 1, 9));
    EXPECT(closed_is(ground, *named(10), 1, 65535));
    from.source = 2;
    EXPECT(closed_is(ground, from, 2, 1));
    from.id = 2;
    EXPECT(lpt_end_closed(ground, LPT_DIRECTION_UP, &from, &name) == LPT_E_NOTHING);
    EXPECT(lpt_end_closed(ground, LPT_DIRECTION_DOWN, named(0), &name) == LPT_E_NOTHING);
    EXPECT(lpt_end_closed(ground, 2, named(0), &name) == LPT_E_RANGE);
    EXPECT(name.source == 98 && name.id == 99);
    DONE(lpt_end_state(ground, got, sizeof got, &len));
    DONE(resumed(&again, got, len));
    EXPECT(closed_is(again, *named(0), 1, 1));
    EXPECT(closed_is(again, *named(3), 1, 9));
    lpt_end_free(again);
    lpt_end_free(ground);
}

/* Octets that are no state: each octet another one, and each length. */
static void refused_states(void) {
    LptEnd *end = NULL;
    LptConfig other = CONFIG;
    uint8_t state[sizeof STATE];
    size_t at;
    memcpy(state, STATE, sizeof state);
    for (at = 0; at < sizeof state; at++) {
        uint32_t want = at < 4    ? LPT_E_STATE_TAG
                        : at < 5  ? LPT_E_STATE_VERSION
                        : at < 6  ? LPT_E_STATE_SIDE
                        : at < 15 ? LPT_E_STATE_CONFIG
                        : at < 27 ? LPT_E_STATE_CHECKSUM
                        : at < 43 ? LPT_E_STATE_LENGTH
                                  : LPT_E_STATE_CHECKSUM;
        state[at] ^= 4;
        EXPECT(resumed(&end, state, sizeof state) == want && end == NULL);
        state[at] ^= 4;
        EXPECT(resumed(&end, state, at) == (at < 45 ? LPT_E_STATE_SHORT : LPT_E_STATE_LENGTH));
    }
    EXPECT(resumed_with(&end, 46, 8, 1) == LPT_E_STATE_ORDER); /* names 8 to 7 */
    EXPECT(resumed_with(&end, 15, 0xff, 8) == LPT_E_NO_NUMBER);  /* no start follows */
    EXPECT(lpt_end_resume(&end, LPT_SIDE_SPACECRAFT, &CONFIG, STATE, sizeof STATE, MEMORIES, 1,
                          MEMORY, sizeof MEMORY) == LPT_E_STATE_SIDE);
    EXPECT(lpt_end_resume(&end, LPT_SIDE_SPACECRAFT, &CONFIG, STATE, 0, MEMORIES, 0, MEMORY, 0) ==
           LPT_E_MEMORIES);
    EXPECT(lpt_end_resume(&end, 2, &CONFIG, STATE, 0, MEMORIES, 0, MEMORY, 0) == LPT_E_RANGE);
    other.apid = 2047;
    EXPECT(lpt_end_resume(&end, LPT_SIDE_GROUND, &other, STATE, 0, MEMORIES, 0, MEMORY, 0) ==
           LPT_E_CONFIG_APID);
    other = CONFIG;
    other.part_size = 12;
    EXPECT(lpt_end_resume(&end, LPT_SIDE_GROUND, &other, STATE, sizeof STATE, MEMORIES, 0, MEMORY,
                          0) == LPT_E_STATE_CONFIG);
}

/* An end is made again with other limits than it had: of them alone it goes on. */
static void other_limits(void) {
    LptConfig other = CONFIG;
    LptEnd *ground = NULL, *craft = NULL, *again = NULL;
    LptName name = NONE;
    size_t len = 0;
    other.clock = 77;
    other.timeout = 3;
    other.receptions = 1;
    other.outgoing = 1;
    make(&ground, LPT_SIDE_GROUND, &CONFIG);
    make(&craft, LPT_SIDE_SPACECRAFT, &CONFIG);
    DONE(lpt_end_tick_many(craft, 16));
    DONE(lpt_end_state(craft, got, sizeof got, &len));
    DONE(lpt_end_resume(&again, LPT_SIDE_SPACECRAFT, &other, got, len, MEMORIES, 1, MEMORY,
                        sizeof MEMORY));
    DONE(lpt_end_open(ground, &NAME, message, 20));
    DONE(lpt_end_open(ground, &OTHER, message, 20));
    EXPECT(told(carry(ground, again, &NAME, 1), LPT_OUTCOME_KEPT, &NAME, 1, 0));
    EXPECT(told(carry(ground, again, &OTHER, 1), LPT_OUTCOME_IGNORED, &NONE, LPT_WHY_NO_ROOM, 0));
    DONE(lpt_end_open(again, &NAME, message, 20));
    EXPECT(lpt_end_open(again, &OTHER, message, 20) == LPT_E_TOO_MANY);
    DONE(lpt_end_tick_many(again, 2));
    EXPECT(lpt_end_expire(again, &name) == LPT_E_NOTHING_DUE);
    DONE(lpt_end_tick(again));
    EXPECT(lpt_end_expire(again, &name) == LPT_DONE && same(name, &NAME));
    EXPECT(take_packet(again) && packet_is(ABORTED, sizeof ABORTED));
    lpt_end_free(ground);
    lpt_end_free(craft);
    lpt_end_free(again);
}

/* A clock that is at its end is set back, and each reception with it. */
static void rebased(void) {
    LptConfig config = CONFIG;
    LptEnd *ground = NULL, *craft = NULL;
    LptName name = NONE;
    LptView view = {9, 9, 9, 9, 9, 9};
    config.clock = 4294967290u;
    make(&ground, LPT_SIDE_GROUND, &CONFIG);
    make(&craft, LPT_SIDE_SPACECRAFT, &config);
    DONE(lpt_end_open(ground, &NAME, message, 20));
    EXPECT(told(carry(ground, craft, &NAME, 1), LPT_OUTCOME_KEPT, &NAME, 1, 0));
    DONE(lpt_end_tick_many(craft, 5));
    EXPECT(lpt_end_tick(craft) == LPT_E_CLOCK_END);
    EXPECT(lpt_end_rebase(craft, 4294967291u) == LPT_E_CLOCK_START);
    EXPECT(has(craft, 4294967295u, 0, 0, 0, 0));
    DONE(lpt_end_rebase(craft, 4294967290u));
    EXPECT(has(craft, 5, 0, 0, 0, 0));
    EXPECT(lpt_end_view(craft, &view) == LPT_DONE && view.next_due == 19);
    DONE(lpt_end_rebase(craft, 0));
    EXPECT(lpt_end_rebase(craft, 1) == LPT_E_CLOCK_START);
    DONE(lpt_end_tick_many(craft, 13));
    EXPECT(lpt_end_expire(craft, &name) == LPT_E_NOTHING_DUE);
    DONE(lpt_end_tick(craft));
    EXPECT(lpt_end_expire(craft, &name) == LPT_DONE && same(name, &NAME));
    EXPECT(take_packet(craft) && packet_is(ABORTED, sizeof ABORTED));
    DONE(lpt_end_rebase(craft, 19));
    EXPECT(lpt_end_rebase(craft, 1) == LPT_E_CLOCK_START && has(craft, 0, 0, 0, 0, 0));
    DONE(lpt_end_tick_many(ground, 7));
    EXPECT(lpt_end_rebase(ground, 8) == LPT_E_CLOCK_START);
    DONE(lpt_end_rebase(ground, 7));
    lpt_end_free(ground);
    lpt_end_free(craft);
}

/* A reception is given up before its time, and no other; the report is that of one that was due. */
static void given_up(void) {
    LptEnd *ground = NULL, *craft = NULL;
    uint32_t is = 99;
    make(&ground, LPT_SIDE_GROUND, &CONFIG);
    make(&craft, LPT_SIDE_SPACECRAFT, &CONFIG);
    EXPECT(lpt_end_give_up(craft, &NAME) == LPT_E_NOT_OPEN);
    DONE(lpt_end_tick_many(craft, 19));
    DONE(lpt_end_open(ground, &NAME, message, 20));
    DONE(lpt_end_open(ground, &OTHER, message, 20));
    EXPECT(told(carry(ground, craft, &OTHER, 1), LPT_OUTCOME_KEPT, &OTHER, 1, 0));
    EXPECT(told(carry(ground, craft, &NAME, 1), LPT_OUTCOME_KEPT, &NAME, 1, 0));
    EXPECT(lpt_end_give_up(craft, named(8)) == LPT_E_NOT_OPEN);
    EXPECT(lpt_end_give_up(ground, &NAME) == LPT_E_NOT_OPEN);
    DONE(lpt_end_give_up(craft, &NAME));
    EXPECT(lpt_end_give_up(craft, &NAME) == LPT_E_NOT_OPEN);
    EXPECT(take_packet(craft) && packet_is(ABORTED, sizeof ABORTED) && !take_packet(craft));
    EXPECT(told(taken(ground, ABORTED, sizeof ABORTED), LPT_OUTCOME_ABORT_NOTED, &NAME, 1, 0));
    EXPECT(lpt_end_name(craft, LPT_DIRECTION_UP, &NAME, &is) == LPT_DONE && is == LPT_NAME_CLOSED);
    EXPECT(told(carry(ground, craft, &OTHER, 2), LPT_OUTCOME_KEPT, &OTHER, 2, 0));
    lpt_end_free(ground);
    lpt_end_free(craft);
}

/* A request that was read is refused with a failure code, and its source is told. */
static void refused(void) {
    uint8_t dump[] = {1, 1, 0, 0, 0, 0, 0, 1};
    LptTcHead head = {100, 5, 3, 6, 5, 1};
    LptApplied applied = {9, NAME, 9};
    LptReport report = {0, 9, 9};
    LptTm tm = {{0, 0, 0, 0, 0, 0, 0, 0}, 0, 0};
    LptEnd *ground = NULL, *craft = NULL;
    uint32_t request = 0;
    make(&ground, LPT_SIDE_GROUND, &CONFIG);
    make(&craft, LPT_SIDE_SPACECRAFT, &CONFIG);
    EXPECT(lpt_end_refuse(ground, 6, &applied) == LPT_E_NO_JOB);
    EXPECT(lpt_end_refuse(craft, 6, &applied) == LPT_E_NO_JOB);
    EXPECT(lpt_end_refuse(craft, 0, &applied) == LPT_E_RANGE);
    EXPECT(lpt_end_refuse(craft, 9, &applied) == LPT_E_RANGE);
    command(craft, head, dump, sizeof dump);
    DONE(lpt_request_id(&head, &request));
    EXPECT(lpt_end_refuse(craft, 6, &applied) == LPT_E_NOT_READ && applied.kind == 9);
    DONE(lpt_end_read(craft));
    DONE(lpt_end_refuse(craft, LPT_FAILURE_REPLY_TOO_LONG, &applied));
    EXPECT(applied.kind == LPT_APPLIED_REFUSED && applied.value == 6 && same(applied.name, &NONE));
    EXPECT(take_packet(craft) && packet[7] == 1 && packet[8] == 1);
    EXPECT(take_packet(craft) && packet[7] == 1 && packet[8] == 4);
    DONE(lpt_read_tm(packet, packet_len, &tm));
    DONE(lpt_read_report(4, packet + tm.at, tm.len, &report));
    EXPECT(report.request == request && report.failed == 1 && report.code == 6);
    EXPECT(tm.head.destination == 1 && !take_packet(craft));
    EXPECT(lpt_end_refuse(craft, 6, &applied) == LPT_E_NO_JOB);
    head.flags = 0;
    command(craft, head, dump, sizeof dump);
    command(craft, head, dump, sizeof dump);
    DONE(lpt_end_read(craft));
    DONE(lpt_end_read(craft));
    DONE(lpt_end_refuse(craft, LPT_FAILURE_UNKNOWN_TYPE, &applied));
    EXPECT(lpt_end_refuse(craft, 4, &applied) == LPT_E_UNSENT && applied.value == 1);
    EXPECT(take_packet(craft) && packet[8] == 2 && !take_packet(craft));
    DONE(lpt_end_execute(craft, &applied));
    EXPECT(applied.kind == LPT_APPLIED_CARRIED_OUT);
    lpt_end_free(ground);
    lpt_end_free(craft);
}

/* A message of 20 octets, which is no telecommand, is released. */
static void long_release(LptEnd *craft) {
    LptEnd *ground = NULL;
    uint16_t k;
    make(&ground, LPT_SIDE_GROUND, &CONFIG);
    DONE(lpt_end_open(ground, &NAME, message, 20));
    for (k = 1; k <= 3; k++) {
        carry(ground, craft, &NAME, k);
    }
    lpt_end_free(ground);
}

/* Of three requests the first and the last are dropped, and the second executed. */
static void dropped(void) {
    static const LptTcHead head = {100, 0, 1 + 8, 6, 9, 1};
    static const uint8_t check[] = {1, 1, 0, 0, 0, 0, 0, 4};
    LptEnd *craft = NULL;
    LptApplied applied = {9, NONE, 9};
    uint8_t service = 1, subtype = 1;
    make(&craft, LPT_SIDE_GROUND, &CONFIG);
    EXPECT(lpt_end_drop(craft) == LPT_E_NO_JOB);
    lpt_end_free(craft);
    make(&craft, LPT_SIDE_SPACECRAFT, &CONFIG);
    EXPECT(lpt_end_drop(craft) == LPT_E_NO_JOB);
    EXPECT(lpt_end_asked(craft, &service, &subtype) == LPT_E_NO_JOB && service == 1);
    EXPECT(command(craft, head, check, sizeof check).kind == LPT_OUTCOME_PLAIN_RELEASED);
    EXPECT(command(craft, head, check, sizeof check).kind == LPT_OUTCOME_PLAIN_RELEASED);
    DONE(lpt_end_asked(craft, &service, &subtype));
    EXPECT(service == 6 && subtype == 9 && has(craft, CONFIG.clock, 0, 0, 2, 2));
    DONE(lpt_end_drop(craft));
    EXPECT(has(craft, CONFIG.clock, 0, 0, 1, 1) && !take_packet(craft));
    DONE(lpt_end_read(craft));
    EXPECT(lpt_end_drop(craft) == LPT_E_ALREADY_READ);
    EXPECT(has(craft, CONFIG.clock, 0, 0, 0, 1));
    EXPECT(command(craft, head, check, sizeof check).kind == LPT_OUTCOME_PLAIN_RELEASED);
    EXPECT(lpt_end_drop(craft) == LPT_E_ALREADY_READ);
    DONE(lpt_end_execute(craft, &applied));
    EXPECT(applied.kind == LPT_APPLIED_CARRIED_OUT && take_packet(craft));
    DONE(lpt_end_drop(craft));
    EXPECT(lpt_end_execute(craft, &applied) == LPT_E_NO_JOB);
    long_release(craft);
    EXPECT(lpt_end_asked(craft, &service, &subtype) == LPT_E_NOTHING && subtype == 9);
    lpt_end_free(craft);
}

/* Whether an end tells this of its open reception of a number, or of its open message. */
static int reception_is(LptEnd *end, size_t number, const LptName *name, uint32_t kept,
                        uint32_t last, uint64_t due) {
    LptReception it = {NONE, 9, 9, 9};
    return lpt_end_reception(end, number, &it) == LPT_DONE && same(it.name, name) &&
           it.kept == kept && it.last == last && it.due == due;
}

static int sender_is(LptEnd *end, size_t number, const LptName *name, uint32_t parts, size_t len) {
    LptSender it = {NONE, 9, 9};
    return lpt_end_sender(end, number, &it) == LPT_DONE && same(it.name, name) &&
           it.parts == parts && it.len == len;
}

/* Whether this part is missing next. */
static int misses(LptEnd *end, const LptName *name, uint16_t from, uint16_t wanted) {
    uint16_t number = 9;
    return lpt_end_missing(end, name, from, &number) == LPT_DONE && number == wanted;
}

/* What is open is told one by one, and which of its parts are missing. */
static void open_ones(void) {
    LptEnd *ground = NULL, *craft = NULL;
    LptReception reception = {NONE, 9, 9, 9};
    LptSender sender = {NONE, 9, 9};
    LptView view = {9, 9, 9, 9, 9, 9};
    uint16_t number = 9;
    make(&ground, LPT_SIDE_GROUND, &CONFIG);
    make(&craft, LPT_SIDE_SPACECRAFT, &CONFIG);
    EXPECT(lpt_end_reception(craft, 0, &reception) == LPT_E_NOTHING && reception.kept == 9);
    EXPECT(lpt_end_sender(ground, 0, &sender) == LPT_E_NOTHING && sender.parts == 9);
    EXPECT(lpt_end_view(craft, &view) == LPT_DONE && view.next_due == 0);
    DONE(lpt_end_open(ground, &OTHER, message, 20));
    DONE(lpt_end_open(ground, &NAME, message, 50));
    EXPECT(told(carry(ground, craft, &OTHER, 3), LPT_OUTCOME_KEPT, &OTHER, 3, 0));
    DONE(lpt_end_tick(craft));
    EXPECT(told(carry(ground, craft, &NAME, 4), LPT_OUTCOME_KEPT, &NAME, 4, 0));
    EXPECT(told(carry(ground, craft, &NAME, 2), LPT_OUTCOME_KEPT, &NAME, 2, 0));
    EXPECT(lpt_end_view(craft, &view) == LPT_DONE && view.next_due == 19 && view.due == 0);

    EXPECT(reception_is(craft, 0, &NAME, 2, 0, 20) && reception_is(craft, 1, &OTHER, 1, 3, 19));
    EXPECT(lpt_end_reception(craft, 2, &reception) == LPT_E_NOTHING);
    EXPECT(lpt_end_reception(craft, SIZE_MAX, &reception) == LPT_E_NOTHING && reception.due == 9);
    EXPECT(misses(craft, &OTHER, 0, 1) && misses(craft, &OTHER, 2, 2));
    EXPECT(lpt_end_missing(craft, &OTHER, 3, &number) == LPT_E_NOTHING && number == 9);
    EXPECT(misses(craft, &NAME, 1, 1) && misses(craft, &NAME, 2, 3) && misses(craft, &NAME, 4, 5));
    EXPECT(misses(craft, &NAME, 65535, 65535));
    EXPECT(lpt_end_missing(craft, named(8), 1, &number) == LPT_E_NOT_OPEN && number == 9);
    EXPECT(lpt_end_missing(ground, &NAME, 1, &number) == LPT_E_NOT_OPEN && number == 9);
    EXPECT(sender_is(ground, 0, &NAME, 7, 50) && sender_is(ground, 1, &OTHER, 3, 20));
    EXPECT(lpt_end_sender(ground, 2, &sender) == LPT_E_NOTHING && sender.len == 9);
    lpt_end_free(ground);
    lpt_end_free(craft);
}

int main(void) {
    size_t k;
    for (k = 0; k < sizeof message; k++) {
        message[k] = (uint8_t)(k + (k >> 8));
    }
    first_path();
    lost_part();
    two_sources();
    broken();
    other_packets();
    long_message(65542, 1024);
    long_message(65542, 4);
    refused_ends();
    refused_memories();
    refused_calls();
    all_ticks();
    copied();
    new_start();
    kept();
    closed_names();
    refused_states();
    other_limits();
    rebased();
    given_up();
    refused();
    dropped();
    open_ones();
    executed();
    requests();
    printf("%u passed, %u failed\n", passed, failed);
    return failed != 0;
}
