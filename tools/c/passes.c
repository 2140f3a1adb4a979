/*
 * Calls each function of lpt_ground.h from C: a load, a dump and a check to their ends, every end
 * and every fault once, against octets that were written by hand, and each request for memory
 * refused in turn.
 *
 * It prints how many cases passed and failed. tests/c compiles it as C11 and as C++, and with
 * sanitizers. The functions that give memory are its own.
 */
#include "lpt_ground.h"

#include <stdio.h>
#include <stdlib.h>
#include <string.h>

static unsigned passed, failed;

static void look(int is_right, int line, const char *what) {
    if (is_right) {
        passed++;
        return;
    }
    failed++;
    printf("passes.c:%d: %s\n", line, what);
}

#define EXPECT(what) look((what), __LINE__, #what)
#define DONE(call) EXPECT((call) == LPT_DONE)

/* ---- memory: the request of this number from now on is refused; none where it is negative ---- */

static long refused_at = -1;
static size_t given;

static int refuses(void) {
    if (refused_at < 0) {
        return 0;
    }
    return refused_at-- == 0;
}

LptTried rattle_alloc(size_t n, size_t align) {
    LptTried tried = {false, &given};
    void *at = refuses() ? NULL : malloc(n > 0 ? n : 1);
    (void)align;
    if (at != NULL) {
        given++;
        tried.ok = true;
        tried.at = at;
    }
    return tried;
}

LptTried rattle_realloc(void *block, size_t kept, size_t n, size_t align) {
    LptTried tried = {false, &given};
    void *at = refuses() ? NULL : realloc(block, n > 0 ? n : 1);
    (void)kept;
    (void)align;
    if (at != NULL) {
        tried.ok = true;
        tried.at = at;
    }
    return tried;
}

void rattle_dealloc(void *block) {
    given--;
    free(block);
}

/* ---- octets, written by hand, their checksums computed elsewhere ---- */

/* The load of 0 to 11 at address 16 of memory 1, in parts of 8: its two requests, of source 7 and
   with the last and the first sequence count. Reports: the first was started, and completed, and
   the same to another source; the second failed at its start, and at its acceptance. */
static const uint8_t LOAD_0[] = {
    0x18, 0x64, 0xff, 0xff, 0x00, 0x18, 0x28, 0x06, 0x02, 0x00, 0x07, 0x01, 0x01,
    0x00, 0x00, 0x00, 0x10, 0x00, 0x08, 0x00, 0x01, 0x02, 0x03, 0x04, 0x05, 0x06,
    0x07, 0x17, 0x8d, 0xb7, 0x5e};
static const uint8_t LOAD_1[] = {
    0x18, 0x64, 0xc0, 0x00, 0x00, 0x14, 0x28, 0x06, 0x02, 0x00, 0x07, 0x01, 0x01,
    0x00, 0x00, 0x00, 0x18, 0x00, 0x04, 0x08, 0x09, 0x0a, 0x0b, 0xc1, 0x32, 0x10,
    0x10};
static const uint8_t DONE_0[] = {
    0x08, 0x64, 0xc0, 0x00, 0x00, 0x10, 0x20, 0x01, 0x07, 0x00, 0x00, 0x00, 0x07,
    0x00, 0x00, 0x00, 0x00, 0x18, 0x64, 0xff, 0xff, 0x6c, 0x09};
static const uint8_t STARTED_0[] = {
    0x08, 0x64, 0xc0, 0x00, 0x00, 0x10, 0x20, 0x01, 0x03, 0x00, 0x00, 0x00, 0x07,
    0x00, 0x00, 0x00, 0x00, 0x18, 0x64, 0xff, 0xff, 0x69, 0xa4};
static const uint8_t FAILED_1[] = {
    0x08, 0x64, 0xc0, 0x01, 0x00, 0x12, 0x20, 0x01, 0x04, 0x00, 0x00, 0x00, 0x07,
    0x00, 0x00, 0x00, 0x00, 0x18, 0x64, 0xc0, 0x00, 0x00, 0x04, 0x8e, 0x5b};
static const uint8_t REFUSED_1[] = {
    0x08, 0x64, 0xc0, 0x01, 0x00, 0x12, 0x20, 0x01, 0x02, 0x00, 0x00, 0x00, 0x07,
    0x00, 0x00, 0x00, 0x00, 0x18, 0x64, 0xc0, 0x00, 0x00, 0x04, 0x58, 0x30};
/* That the first failed at its completion, and a step of the second. */
static const uint8_t UNDONE_0[] = {
    0x08, 0x64, 0xc0, 0x00, 0x00, 0x12, 0x20, 0x01, 0x08, 0x00, 0x00, 0x00, 0x07,
    0x00, 0x00, 0x00, 0x00, 0x18, 0x64, 0xff, 0xff, 0x00, 0x04, 0x30, 0x7b};
static const uint8_t STEP_1[] = {
    0x08, 0x64, 0xc0, 0x01, 0x00, 0x13, 0x20, 0x01, 0x06, 0x00, 0x00, 0x00, 0x07,
    0x00, 0x00, 0x00, 0x00, 0x18, 0x64, 0xc0, 0x00, 0x01, 0x00, 0x04, 0x0e, 0x40};
static const uint8_t OF_OTHER[] = {
    0x08, 0x64, 0xc0, 0x02, 0x00, 0x10, 0x20, 0x01, 0x07, 0x00, 0x00, 0x00, 0x08,
    0x00, 0x00, 0x00, 0x00, 0x18, 0x64, 0xff, 0xff, 0x04, 0x1e};
/* The dump of 3 octets there, of source 9: its requests, and their reports. */
static const uint8_t DUMP_0[] = {
    0x18, 0x64, 0xc0, 0x00, 0x00, 0x0e, 0x20, 0x06, 0x05, 0x00, 0x09, 0x01, 0x01,
    0x00, 0x00, 0x00, 0x10, 0x00, 0x02, 0x74, 0xf2};
static const uint8_t DUMP_1[] = {
    0x18, 0x64, 0xc0, 0x01, 0x00, 0x0e, 0x20, 0x06, 0x05, 0x00, 0x09, 0x01, 0x01,
    0x00, 0x00, 0x00, 0x12, 0x00, 0x01, 0x82, 0xd5};
static const uint8_t DUMPED_0[] = {
    0x08, 0x64, 0xc0, 0x00, 0x00, 0x18, 0x20, 0x06, 0x06, 0x00, 0x00, 0x00, 0x09,
    0x00, 0x00, 0x00, 0x00, 0x01, 0x01, 0x00, 0x00, 0x00, 0x10, 0x00, 0x02, 0xaa,
    0xbb, 0xf9, 0x0a, 0x60, 0x54};
static const uint8_t DUMPED_1[] = {
    0x08, 0x64, 0xc0, 0x01, 0x00, 0x17, 0x20, 0x06, 0x06, 0x00, 0x00, 0x00, 0x09,
    0x00, 0x00, 0x00, 0x00, 0x01, 0x01, 0x00, 0x00, 0x00, 0x12, 0x00, 0x01, 0xcc,
    0xf9, 0x30, 0xbf, 0x39};
/* The check of the first two of source 10: its request, and its report. */
static const uint8_t CHECK_0[] = {
    0x18, 0x64, 0xc0, 0x00, 0x00, 0x0e, 0x20, 0x06, 0x09, 0x00, 0x0a, 0x01, 0x01,
    0x00, 0x00, 0x00, 0x10, 0x00, 0x02, 0xaa, 0x7f};
static const uint8_t CHECKED_0[] = {
    0x08, 0x64, 0xc0, 0x00, 0x00, 0x16, 0x20, 0x06, 0x0a, 0x00, 0x00, 0x00, 0x0a,
    0x00, 0x00, 0x00, 0x00, 0x01, 0x01, 0x00, 0x00, 0x00, 0x10, 0x00, 0x02, 0xf9,
    0x0a, 0x71, 0x3c};

static const uint8_t CONTENT[] = {0, 1, 2, 3, 4, 5, 6, 7, 8, 9, 10, 11};
static const uint8_t MEMORY[] = {0xaa, 0xbb, 0xcc};
static const LptJob LOAD = {LPT_JOB_LOAD, 1, 8, 100, 7, 16383, 8, 2};
static const LptJob DUMP = {LPT_JOB_DUMP, 1, 0, 100, 9, 0, 8, 2};
static const LptJob CHECK = {LPT_JOB_CHECK, 1, 0, 100, 10, 0, 8, 2};
static const LptPlace PLACE = {16, 12}, THREE = {16, 3}, TWO = {16, 2};

/* Whether the pass sends this packet next. It notes that it was sent. */
static int sends(LptGround *pass, const uint8_t *octets, size_t len) {
    uint8_t packet[64];
    size_t needed = 0;
    uint32_t step = 0;
    return lpt_ground_next(pass, &step) == LPT_DONE && step == LPT_STEP_SEND &&
           lpt_ground_outgoing(pass, NULL, 0, &needed) == LPT_E_ROOM && needed == len &&
           lpt_ground_outgoing(pass, packet, sizeof packet, &needed) == LPT_DONE &&
           needed == len && memcmp(packet, octets, len) == 0 && lpt_ground_sent(pass) == LPT_DONE;
}

/* Whether this is its next step. */
static int is_next(LptGround *pass, uint32_t wanted) {
    uint32_t step = 0;
    return lpt_ground_next(pass, &step) == LPT_DONE && step == wanted;
}

/* Whether so many requests were carried out, failed and are left. */
static int has(LptGround *pass, size_t completed, size_t wrong, size_t left) {
    LptProgress progress = {9, 9, 9, 9};
    return lpt_ground_progress(pass, &progress) == LPT_DONE &&
           progress.requests == completed + wrong + left && progress.completed == completed &&
           progress.failed == wrong && progress.left == left;
}

/* Whether this became of a request. */
static int became(LptGround *pass, size_t number, uint32_t state, uint32_t code) {
    LptFate fate = {9, 9};
    return lpt_ground_fate(pass, number, &fate) == LPT_DONE && fate.state == state &&
           fate.code == code;
}

/* A pass of a job. */
static LptGround *made(const LptJob *job, const LptPlace *place) {
    LptGround *pass = NULL;
    DONE(lpt_ground_new(&pass, job, place, 1, CONTENT, place->len));
    return pass;
}

static void load(void) {
    LptGround *pass = made(&LOAD, &PLACE);
    uint8_t packet[64] = {0};
    size_t needed = 0;
    LptFate fate = {9, 9};
    EXPECT(has(pass, 0, 0, 2) && became(pass, 0, LPT_FATE_OPEN, 0));
    EXPECT(lpt_ground_report(pass, 0, packet, sizeof packet, &needed) == LPT_E_NOTHING);
    EXPECT(sends(pass, LOAD_0, sizeof LOAD_0) && sends(pass, LOAD_1, sizeof LOAD_1));
    EXPECT(is_next(pass, LPT_STEP_LISTEN));
    EXPECT(lpt_ground_sent(pass) == LPT_E_NOTHING);
    EXPECT(lpt_ground_outgoing(pass, packet, sizeof packet, &needed) == LPT_E_NOTHING);
    DONE(lpt_ground_packet(pass, OF_OTHER, sizeof OF_OTHER));
    DONE(lpt_ground_packet(pass, STARTED_0, sizeof STARTED_0));
    DONE(lpt_ground_packet(pass, DONE_0, sizeof DONE_0 - 1));
    DONE(lpt_ground_packet(pass, NULL, 0));
    EXPECT(has(pass, 0, 0, 2));
    DONE(lpt_ground_packet(pass, DONE_0, sizeof DONE_0));
    EXPECT(has(pass, 1, 0, 1) && became(pass, 0, LPT_FATE_COMPLETED, 0));
    EXPECT(lpt_ground_report(pass, 0, packet, sizeof packet, &needed) == LPT_DONE);
    EXPECT(needed == sizeof DONE_0 && memcmp(packet, DONE_0, needed) == 0);
    EXPECT(lpt_ground_dumped(pass, 0, packet, sizeof packet, &needed) == LPT_DONE && needed == 0);
    EXPECT(is_next(pass, LPT_STEP_LISTEN));
    DONE(lpt_ground_quiet(pass));
    EXPECT(sends(pass, LOAD_1, sizeof LOAD_1) && sends(pass, LOAD_1, sizeof LOAD_1));
    DONE(lpt_ground_packet(pass, FAILED_1, sizeof FAILED_1));
    EXPECT(became(pass, 1, LPT_FATE_FAILED, LPT_FAILURE_OUT_OF_RANGE) && has(pass, 1, 1, 0));
    EXPECT(lpt_ground_fate(pass, 2, &fate) == LPT_E_NOTHING && fate.state == 9);
    EXPECT(lpt_ground_report(pass, 1, packet, sizeof packet, &needed) == LPT_E_NOTHING);
    EXPECT(is_next(pass, LPT_STEP_FAILED));
    lpt_ground_free(pass);
}

/* Failures that this project's spacecraft never reports. */
static void others_fail(void) {
    LptGround *pass = made(&LOAD, &PLACE);
    DONE(lpt_ground_packet(pass, STEP_1, sizeof STEP_1));
    EXPECT(became(pass, 1, LPT_FATE_FAILED, LPT_CODE_UNREAD) && has(pass, 0, 1, 1));
    DONE(lpt_ground_packet(pass, UNDONE_0, sizeof UNDONE_0));
    EXPECT(became(pass, 0, LPT_FATE_FAILED, LPT_FAILURE_OUT_OF_RANGE) && has(pass, 0, 2, 0));
    EXPECT(is_next(pass, LPT_STEP_FAILED));
    lpt_ground_free(pass);
}

/* What ends a load otherwise. */
static void ends(void) {
    LptJob job = LOAD;
    LptGround *pass = made(&LOAD, &PLACE);
    DONE(lpt_ground_packet(pass, REFUSED_1, sizeof REFUSED_1));
    DONE(lpt_ground_quiet(pass));
    DONE(lpt_ground_quiet(pass));
    EXPECT(is_next(pass, LPT_STEP_SEND));
    DONE(lpt_ground_quiet(pass));
    EXPECT(is_next(pass, LPT_STEP_GIVEN_UP) && has(pass, 0, 1, 1));
    lpt_ground_free(pass);

    job.flags = 10;
    pass = made(&job, &PLACE);
    DONE(lpt_ground_packet(pass, STARTED_0, sizeof STARTED_0));
    EXPECT(has(pass, 1, 0, 1));
    DONE(lpt_ground_close(pass));
    EXPECT(is_next(pass, LPT_STEP_CUT_OFF));
    lpt_ground_free(pass);
    lpt_ground_free(NULL);
}

static void dump(void) {
    LptGround *pass = made(&DUMP, &THREE);
    uint8_t octets[8] = {0};
    size_t needed = 0;
    EXPECT(sends(pass, DUMP_0, sizeof DUMP_0) && sends(pass, DUMP_1, sizeof DUMP_1));
    DONE(lpt_ground_packet(pass, DUMPED_1, sizeof DUMPED_1));
    EXPECT(lpt_ground_dumped(pass, 0, octets, sizeof octets, &needed) == LPT_E_NOTHING);
    DONE(lpt_ground_packet(pass, DUMPED_0, sizeof DUMPED_0));
    EXPECT(is_next(pass, LPT_STEP_COMPLETED) && has(pass, 2, 0, 0));
    EXPECT(lpt_ground_dumped(pass, 0, octets, 2, &needed) == LPT_DONE && needed == 2);
    EXPECT(lpt_ground_dumped(pass, 1, octets + 2, 0, &needed) == LPT_E_ROOM && needed == 1);
    EXPECT(lpt_ground_dumped(pass, 1, octets + 2, 1, &needed) == LPT_DONE);
    EXPECT(memcmp(octets, MEMORY, sizeof MEMORY) == 0 && octets[3] == 0);
    EXPECT(lpt_ground_dumped(pass, 2, octets, sizeof octets, &needed) == LPT_E_NOTHING);
    lpt_ground_free(pass);
}

static void check(void) {
    LptGround *pass = made(&CHECK, &TWO);
    uint32_t agrees = 9;
    EXPECT(sends(pass, CHECK_0, sizeof CHECK_0));
    EXPECT(lpt_ground_agrees(pass, MEMORY, 2, &agrees) == LPT_DONE && agrees == 0);
    DONE(lpt_ground_packet(pass, CHECKED_0, sizeof CHECKED_0));
    EXPECT(is_next(pass, LPT_STEP_COMPLETED));
    EXPECT(lpt_ground_agrees(pass, MEMORY, 2, &agrees) == LPT_DONE && agrees == 1);
    EXPECT(lpt_ground_agrees(pass, MEMORY, 3, &agrees) == LPT_DONE && agrees == 0);
    EXPECT(lpt_ground_agrees(pass, MEMORY + 1, 2, &agrees) == LPT_DONE && agrees == 0);
    lpt_ground_free(pass);
}

/* What is answered for a job that is changed at one place. */
static uint32_t refusal(const LptJob *job, LptPlace place, size_t len) {
    LptGround *pass = NULL;
    uint32_t fault = lpt_ground_new(&pass, job, &place, 1, CONTENT, len);
    EXPECT((pass != NULL) == (fault == LPT_DONE));
    lpt_ground_free(pass);
    return fault;
}

static void refusals(void) {
    static const LptPlace none = {16, 0}, last = {4294967295u, 1}, past = {4294967295u, 2};
    static const LptPlace most = {0, 16384 * 8}, more = {0, 16384 * 8 + 1};
    static const LptPlace both[] = {{16, 5}, {40, 7}};
    static const LptPlace over[] = {{16, 5}, {40, 2}, {20, 5}};
    static const LptPlace beside[] = {{16, 5}, {26, 2}, {21, 5}};
    static const uint32_t kinds[] = {0, 4};
    LptGround *pass = NULL;
    LptJob job = LOAD;
    size_t i;
    for (i = 0; i < 2; i++) {
        job.kind = kinds[i];
        EXPECT(refusal(&job, PLACE, 12) == LPT_E_RANGE);
    }
    job = LOAD;
    job.apid = 2046;
    DONE(refusal(&job, PLACE, 12));
    job.apid = 2047;
    EXPECT(refusal(&job, PLACE, 12) == LPT_E_RANGE);
    job = LOAD;
    job.count = 16384;
    EXPECT(refusal(&job, PLACE, 12) == LPT_E_RANGE);
    job = LOAD;
    job.flags = 7;
    EXPECT(refusal(&job, PLACE, 12) == LPT_E_RANGE);
    job.flags = 16;
    EXPECT(refusal(&job, PLACE, 12) == LPT_E_RANGE);
    job = LOAD;
    job.part_size = 3;
    EXPECT(refusal(&job, PLACE, 12) == LPT_E_RANGE);
    job.part_size = 1025;
    EXPECT(refusal(&job, PLACE, 12) == LPT_E_RANGE);
    job = DUMP;
    job.part_size = 6;
    EXPECT(refusal(&job, THREE, 0) == LPT_E_RANGE);
    job = CHECK;
    job.part_size = 5;
    EXPECT(refusal(&job, TWO, 0) == LPT_E_RANGE);
    job.part_size = 6;
    DONE(refusal(&job, TWO, 0));
    job.tries = 0;
    EXPECT(refusal(&job, TWO, 0) == LPT_E_RANGE);
    job.tries = 1;
    DONE(refusal(&job, TWO, 0));
    EXPECT(refusal(&DUMP, none, 0) == LPT_E_BAD_AREA);
    EXPECT(refusal(&DUMP, past, 0) == LPT_E_BAD_AREA);
    DONE(refusal(&DUMP, last, 0));
    EXPECT(refusal(&LOAD, PLACE, 11) == LPT_E_RANGE);
    EXPECT(refusal(&LOAD, THREE, 4) == LPT_E_RANGE);
    job = DUMP;
    job.part_size = 14;
    DONE(refusal(&job, most, 0));
    EXPECT(refusal(&job, more, 0) == LPT_E_LONG_JOB);
    EXPECT(lpt_ground_new(&pass, &LOAD, NULL, 0, NULL, 0) == LPT_E_BAD_AREA && pass == NULL);
    DONE(lpt_ground_new(&pass, &LOAD, both, 2, CONTENT, sizeof CONTENT));
    EXPECT(has(pass, 0, 0, 2));
    lpt_ground_free(pass);
    pass = NULL;
    EXPECT(lpt_ground_new(&pass, &LOAD, over, 3, CONTENT, sizeof CONTENT) == LPT_E_BAD_AREA);
    EXPECT(lpt_ground_new(&pass, &LOAD, over, 3, CONTENT, 11) == LPT_E_RANGE && pass == NULL);
    DONE(lpt_ground_new(&pass, &LOAD, beside, 3, CONTENT, sizeof CONTENT));
    EXPECT(has(pass, 0, 0, 3));
    lpt_ground_free(pass);
    pass = NULL;
    DONE(lpt_ground_new(&pass, &DUMP, over, 3, NULL, 0));
    lpt_ground_free(pass);
}

/* Each request for memory is refused in turn, until none is. */
static void scarce(void) {
    LptGround *pass = NULL;
    long at;
    uint32_t fault = LPT_E_ALLOCATION;
    for (at = 0; fault == LPT_E_ALLOCATION && at < 100; at++) {
        refused_at = at;
        fault = lpt_ground_new(&pass, &LOAD, &PLACE, 1, CONTENT, sizeof CONTENT);
        EXPECT((pass != NULL) == (fault == LPT_DONE));
        EXPECT(pass != NULL || given == 0);
    }
    EXPECT(fault == LPT_DONE && at > 5);
    refused_at = 0;
    EXPECT(lpt_ground_packet(pass, DONE_0, sizeof DONE_0) == LPT_E_ALLOCATION);
    refused_at = -1;
    EXPECT(has(pass, 0, 0, 2));
    DONE(lpt_ground_packet(pass, DONE_0, sizeof DONE_0));
    EXPECT(has(pass, 1, 0, 1));
    lpt_ground_free(pass);
    EXPECT(given == 0);
}

int main(void) {
    load();
    others_fail();
    ends();
    dump();
    check();
    refusals();
    scarce();
    EXPECT(strcmp(lpt_step_name(LPT_STEP_GIVEN_UP), "given up") == 0);
    printf("%u passed, %u failed\n", passed, failed);
    return failed != 0;
}
