/*
 * A link over the pool of examples/c/memory/pool.c. Each of its requests for memory is refused in
 * turn: the call says so, the end is as it was, and the same call, made again, goes on. The ends are
 * freed behind each call in turn, and all memory is given back. And what a pool of 256 KiB holds.
 *
 * It prints how many cases passed and failed. tests/c compiles it with the pool, once with 1 MiB,
 * and once with 256 KiB and SMALL.
 */
#include "lpt_end.h"

#include <stdio.h>
#include <string.h>

size_t lpt_pool_used(void);
int refuses(void);

static unsigned passed, failed;

static void look(int is_right, int line, const char *what) {
    if (is_right) {
        passed++;
        return;
    }
    failed++;
    printf("pool.c:%d: %s\n", line, what);
}

#define EXPECT(what) look((what), __LINE__, #what)

/* Which request from now on is refused, from 0; none where it is negative. And whether one was. */
static long refused_at = -1;
static int was_refused;

int refuses(void) {
    if (refused_at != 0) {
        refused_at -= refused_at > 0;
        return 0;
    }
    refused_at = -1;
    was_refused = 1;
    return 1;
}

#ifdef SMALL
static const LptMemory whole = {1, 0, 65536};
#endif
static uint8_t memory[65536], message[16000], packet[2000], got[16000];

/* The answer of a call that is made again where memory ran out, and how often that was. */
static unsigned again;

#define TRY(call)                                                                                  \
    do {                                                                                           \
        uint32_t said = (call);                                                                    \
        if (said == LPT_E_ALLOCATION && was_refused) {                                             \
            again++;                                                                               \
            was_refused = 0;                                                                       \
            said = (call);                                                                         \
        }                                                                                          \
        EXPECT(said == LPT_DONE);                                                                  \
    } while (0)

#ifndef SMALL
/* Behind so many calls both ends are freed; never where it is negative. */
static long freed_behind = -1;

#define STEP(call)                                                                                 \
    do {                                                                                           \
        TRY(call);                                                                                 \
        if (freed_behind >= 0 && freed_behind-- == 0) {                                            \
            goto freed;                                                                            \
        }                                                                                          \
    } while (0)

/* A message up with a lost part, an expiry and its report; one whose reception is given up; a
   message down; a request that is executed, also where the memories are with the program, and one
   that is refused; all by calls that are made again. */
static void link_pass(void) {
    static const LptConfig config = {100, 64, 2, 4, 4, 0, LPT_MODE_ANY};
    static const LptMemory memories[] = {{1, 0, 60}, {2, 60, 40}};
    static const LptSize sizes[] = {{1, 60}, {2, 40}};
    static const uint8_t dump[] = {1, 1, 0, 0, 0, 0, 0, 8};
    static const LptName joined = {1, 5}, lost = {2, 5}, early = {3, 5}, down = {1, 7};
    LptApplied applied = {0, {0, 0}, 0};
    LptEnd *ground = NULL, *craft = NULL;
    LptOutcome told = {0, {0, 0}, 0, 0};
    uint8_t request[64 + 23] = {0};
    size_t len = 0, request_len = 0;
    LptName name = {0, 0};
    uint16_t k;
    STEP(lpt_end_new(&ground, LPT_SIDE_GROUND, &config, memories, 0, memory, 0));
    STEP(lpt_end_new(&craft, LPT_SIDE_SPACECRAFT, &config, memories, 2, memory, 100));
    STEP(lpt_end_open(ground, &joined, message, 300));
    STEP(lpt_end_open(ground, &lost, message, 300));
    STEP(lpt_end_open(craft, &down, message, 100));
    for (k = 1; k <= 5; k++) {
        STEP(lpt_end_part(ground, &joined, k));
        EXPECT(lpt_end_outgoing(ground, packet, sizeof packet, &len) == LPT_DONE);
        EXPECT(lpt_end_sent(ground) == LPT_DONE);
        STEP(lpt_end_packet(craft, packet, len, &told));
        EXPECT(told.kind == (uint32_t)(k == 5 ? LPT_OUTCOME_RELEASED : LPT_OUTCOME_KEPT));
        EXPECT(told.name.source == 1 && told.name.id == 5);
    }
    EXPECT(lpt_end_released(craft, got, sizeof got, &len) == LPT_DONE && len == 300);
    EXPECT(memcmp(got, message, 300) == 0);
    STEP(lpt_end_part(ground, &lost, 2));
    EXPECT(lpt_end_outgoing(ground, packet, sizeof packet, &len) == LPT_DONE);
    EXPECT(lpt_end_sent(ground) == LPT_DONE);
    STEP(lpt_end_packet(craft, packet, len, &told));
    EXPECT(lpt_end_tick(craft) == LPT_DONE && lpt_end_tick(craft) == LPT_DONE);
    STEP(lpt_end_expire(craft, &name));
    EXPECT(name.source == 2 && name.id == 5);
    EXPECT(lpt_end_outgoing(craft, packet, sizeof packet, &len) == LPT_DONE);
    EXPECT(lpt_end_sent(craft) == LPT_DONE);
    STEP(lpt_end_packet(ground, packet, len, &told));
    EXPECT(told.kind == LPT_OUTCOME_ABORT_NOTED && told.name.source == 2 && told.first == 1);
    STEP(lpt_end_open(ground, &early, message, 300));
    STEP(lpt_end_part(ground, &early, 1));
    EXPECT(lpt_end_outgoing(ground, packet, sizeof packet, &len) == LPT_DONE);
    EXPECT(lpt_end_sent(ground) == LPT_DONE);
    STEP(lpt_end_packet(craft, packet, len, &told));
    STEP(lpt_end_give_up(craft, &early));
    EXPECT(lpt_end_outgoing(craft, packet, sizeof packet, &len) == LPT_DONE);
    EXPECT(lpt_end_sent(craft) == LPT_DONE);
    STEP(lpt_end_part(craft, &down, 1));
    STEP(lpt_end_part(craft, &down, 2));
    while (lpt_end_outgoing(craft, packet, sizeof packet, &len) == LPT_DONE) {
        STEP(lpt_end_packet(ground, packet, len, &told));
        EXPECT(lpt_end_sent(craft) == LPT_DONE);
    }
    EXPECT(told.kind == LPT_OUTCOME_RELEASED && told.name.id == 7 && told.first == 100);
    STEP(lpt_end_read(craft));
    EXPECT(lpt_end_outgoing(craft, packet, sizeof packet, &len) == LPT_E_NOTHING);
    STEP(lpt_end_execute(craft, &applied));
    EXPECT(applied.kind == LPT_APPLIED_SILENT);
    STEP(lpt_end_plain(ground, 1, 11, 6, 5, dump, sizeof dump));
    EXPECT(lpt_end_outgoing(ground, packet, sizeof packet, &len) == LPT_DONE);
    STEP(lpt_end_packet(craft, packet, len, &told));
    STEP(lpt_end_read(craft));
    STEP(lpt_end_execute(craft, &applied));
    EXPECT(applied.kind == LPT_APPLIED_CARRIED_OUT);
    STEP(lpt_end_packet(craft, packet, len, &told));
    STEP(lpt_end_drop(craft));
    STEP(lpt_end_restart(craft));
    STEP(lpt_end_state(craft, got, sizeof got, &len));
    lpt_end_free(craft);
    craft = NULL;
    STEP(lpt_end_resume(&craft, LPT_SIDE_SPACECRAFT, &config, got, len, memories, 2, memory, 100));
    STEP(lpt_end_state(craft, packet, sizeof packet, &len));
    EXPECT(packet[22] == got[22] + 1);
    lpt_end_free(craft);
    craft = NULL;
    STEP(lpt_end_new_sized(&craft, &config, sizes, 2));
    EXPECT(lpt_end_outgoing(ground, packet, sizeof packet, &len) == LPT_DONE);
    STEP(lpt_end_packet(craft, packet, len, &told));
    STEP(lpt_end_packet(craft, packet, len, &told));
    memcpy(request, packet, len);
    request_len = len;
    STEP(lpt_end_read(craft));
    STEP(lpt_end_read(craft));
    STEP(lpt_end_execute_given(craft, memory, 8, &applied));
    EXPECT(applied.kind == LPT_APPLIED_CARRIED_OUT);
    while (lpt_end_sent(craft) == LPT_DONE) {
    }
    STEP(lpt_end_refuse(craft, LPT_FAILURE_OUT_OF_RANGE, &applied));
    EXPECT(applied.kind == LPT_APPLIED_REFUSED && applied.value == 4);
    STEP(lpt_end_packet(craft, request, request_len, &told));
    STEP(lpt_end_read(craft));
    STEP(lpt_end_drop_read(craft));
    EXPECT(lpt_end_rebase(craft, 0) == LPT_DONE);
    STEP(lpt_end_state(craft, got, sizeof got, &len));
    lpt_end_free(craft);
    craft = NULL;
    STEP(lpt_end_resume_sized(&craft, &config, got, len, sizes, 2));
freed:
    lpt_end_free(ground);
    lpt_end_free(craft);
    EXPECT(lpt_pool_used() == 0);
}

/* Where no end is made, nothing is taken: of other memories, and of a state that is cut or in which
   an octet is another. */
static void refused_ends(void) {
    static const LptConfig config = {100, 64, 2, 4, 4, 0, LPT_MODE_ANY};
    static const LptMemory memories[] = {{1, 0, 60}, {2, 60, 40}, {1, 0, 4}};
    static const LptName name = {1, 7};
    LptEnd *end = NULL;
    size_t len = 0, at;
    uint32_t said;
    for (at = 0; at <= 3; at++) {
        said = lpt_end_new(&end, LPT_SIDE_SPACECRAFT, &config, memories, at, memory, 60 + 40);
        EXPECT(said == (uint32_t)(at == 0 || at == 3 ? LPT_E_MEMORIES : LPT_DONE));
        lpt_end_free(end);
        end = NULL;
        EXPECT(lpt_pool_used() == 0);
    }
    EXPECT(lpt_end_new(&end, LPT_SIDE_SPACECRAFT, &config, memories, 2, memory, 99) ==
           LPT_E_MEMORIES);
    EXPECT(lpt_pool_used() == 0);
    TRY(lpt_end_new(&end, LPT_SIDE_SPACECRAFT, &config, memories, 2, memory, 100));
    TRY(lpt_end_open(end, &name, message, 300));
    TRY(lpt_end_state(end, got, sizeof got, &len));
    lpt_end_free(end);
    for (at = 0; at < len; at++) {
        said =
            lpt_end_resume(&end, LPT_SIDE_SPACECRAFT, &config, got, at, memories, 2, memory, 100);
        EXPECT(said != LPT_DONE && said != LPT_E_ALLOCATION && lpt_pool_used() == 0);
        got[at] ^= 1;
        said =
            lpt_end_resume(&end, LPT_SIDE_SPACECRAFT, &config, got, len, memories, 2, memory, 100);
        EXPECT(said != LPT_DONE && said != LPT_E_ALLOCATION && lpt_pool_used() == 0);
        got[at] ^= 1;
    }
    EXPECT(lpt_end_resume(&end, LPT_SIDE_SPACECRAFT, &config, got, len, memories, 3, memory, 100) ==
           LPT_E_MEMORIES);
    EXPECT(lpt_pool_used() == 0);
}

int main(void) {
    long at = 0;
    size_t i;
    for (i = 0; i < sizeof message; i++) {
        message[i] = (uint8_t)(i * 31 + (i >> 8));
    }
    do {
        refused_at = at++;
        was_refused = 0;
        again = 0;
        link_pass();
        EXPECT(again == (refused_at < 0));
    } while (refused_at < 0 && at < 1000);
    /* The last pass asked for less. */
    EXPECT(at > 40 && at < 1000);
    /* All is given back, whatever the end held. */
    refused_at = -1;
    for (at = 0; freed_behind < 0 && at < 1000; at++) {
        freed_behind = at;
        link_pass();
    }
    EXPECT(at > 20 && at < 1000);
    refused_ends();
    printf("%u passed, %u failed\n", passed, failed);
    return failed != 0;
}
#else
/* A spacecraft with a memory of 64 KiB, and one reception: a message in parts of 64 octets. */
static void long_message(void) {
    static const LptConfig config = {100, 64, 10, 1, 1, 0, LPT_MODE_ANY};
    LptTcHead head = {100, 0, 0, 13, 0, 1};
    LptEnd *craft = NULL;
    LptOutcome told = {0, {0, 0}, 0, 0};
    uint8_t body[68];
    size_t len = 0;
    uint32_t kind;
    uint16_t k;
    TRY(lpt_end_new(&craft, LPT_SIDE_SPACECRAFT, &config, &whole, 1, memory, sizeof memory));
    for (k = 1; k <= 250; k++) {
        EXPECT(lpt_slice_part(message, sizeof message, 64, 5, k, &kind, body, sizeof body, &len) ==
               LPT_DONE);
        head.count = k;
        head.subtype = (uint8_t)(8 + kind);
        EXPECT(lpt_write_tc(&head, body, len, packet, sizeof packet, &len) == LPT_DONE);
        TRY(lpt_end_packet(craft, packet, len, &told));
    }
    EXPECT(told.kind == LPT_OUTCOME_RELEASED && told.first == sizeof message);
    EXPECT(lpt_end_released(craft, got, sizeof got, &len) == LPT_DONE);
    EXPECT(len == sizeof message && memcmp(got, message, len) == 0);
    lpt_end_free(craft);
    EXPECT(lpt_pool_used() == 0);
}

/* Memory runs out at last, the end says so and goes on: what it has can still be let go. */
static void full_pool(void) {
    static const LptConfig config = {100, 1024, 10, 1, 64, 0, LPT_MODE_ANY};
    LptEnd *craft = NULL;
    uint32_t said = LPT_DONE;
    LptName name = {1, 0}, first = {1, 1};
    size_t used = 0;
    TRY(lpt_end_new(&craft, LPT_SIDE_SPACECRAFT, &config, &whole, 1, memory, sizeof memory));
    while (said == LPT_DONE && name.id < 64) {
        name.id++;
        used = lpt_pool_used();
        said = lpt_end_open(craft, &name, message, sizeof message);
    }
    EXPECT(said == LPT_E_ALLOCATION && lpt_pool_used() == used);
    EXPECT(lpt_end_finish(craft, &name) == LPT_E_NOT_OPEN);
    EXPECT(lpt_end_finish(craft, &first) == LPT_DONE && lpt_pool_used() < used);
    EXPECT(lpt_end_open(craft, &name, message, sizeof message) == LPT_DONE);
    lpt_end_free(craft);
    EXPECT(lpt_pool_used() == 0);
}

int main(void) {
    size_t i;
    for (i = 0; i < sizeof message; i++) {
        message[i] = (uint8_t)(i * 31 + (i >> 8));
    }
    long_message();
    full_pool();
    printf("%u passed, %u failed\n", passed, failed);
    return failed != 0;
}
#endif
