/*
 * How much of the stack calls of an end were seen to take, in a pass of many loads under names that
 * lie apart: the stack is painted before each call, and looked at behind it. A line for each call:
 * its name, and the most octets. tests/c compares them with what tools/stack.py makes of the
 * machine code; this program has to be linked statically, since a loader takes stack too.
 */
#include "lpt_end.h"

#include <stdio.h>
#include <stdlib.h>
#include <string.h>

enum { APID = 100, PART_SIZE = 1024, LONGEST = PART_SIZE + 23, MEMORY = 1, SIZE = 65536 };
enum { LOADS = 1500, SHORT = 1100, LONG = 60000, PAINTED = 32768, PAINT = 0xA5 };
enum {
    NEW,
    OPEN,
    PART,
    OUTGOING,
    PACKET,
    READ,
    EXECUTE,
    STATE,
    RESUME,
    RETIRE,
    FINISH,
    CLOSED,
    RESTART,
    CRC,
    TC,
    CALLS
};

static const char *const names[CALLS] = {
    "lpt_end_new",    "lpt_end_open",    "lpt_end_part",    "lpt_end_outgoing", "lpt_end_packet",
    "lpt_end_read",   "lpt_end_execute", "lpt_end_state",   "lpt_end_resume",   "lpt_end_retire",
    "lpt_end_finish", "lpt_end_closed",  "lpt_end_restart", "lpt_crc16",        "lpt_write_tc"};
static const LptConfig config = {APID, PART_SIZE, 10, 4, 4, 0, LPT_MODE_ANY};
static const LptMemory memory = {MEMORY, 0, SIZE};
static uint8_t content[SIZE], octets[SIZE], body[SIZE], message[SIZE], state[SIZE], packet[LONGEST];
static size_t most[CALLS];
static LptEnd *ground, *spacecraft;

/* The lowest octet that is painted. */
static volatile uint8_t *lowest;

/* Paints the stack up to this function's own place. */
__attribute__((noinline)) static void paint(void) {
    volatile uint8_t *at = lowest, *end = (uint8_t *)__builtin_frame_address(0) - 64;
    while (at < end) {
        *at++ = PAINT;
    }
}

/* Looks how far the stack isn't painted any more, below where a call's address of return stood. */
__attribute__((noinline)) static uint32_t seen(int call, uint32_t answer) {
    volatile uint8_t *at = lowest;
    size_t taken = 0;
    while (*at == PAINT) {
        at++;
    }
    taken = (size_t)((uint8_t *)__builtin_frame_address(0) + 16 - at);
    most[call] = taken > most[call] ? taken : most[call];
    return answer;
}

#define SEEN(call, answer) (paint(), seen((call), (answer)))

static void must(int is_so, const char *what) {
    if (!is_so) {
        fprintf(stderr, "painted: %s\n", what);
        exit(EXIT_FAILURE);
    }
}

static LptName name_of(unsigned k) {
    const LptName name = {(uint16_t)(k * 7), (uint16_t)(k * 192)};
    return name;
}

/* What waits goes from one end to the other. */
static void carry(LptEnd *from, LptEnd *to) {
    LptOutcome outcome = {0, {0, 0}, 0, 0};
    size_t len = 0;
    while (SEEN(OUTGOING, lpt_end_outgoing(from, packet, sizeof packet, &len)) == LPT_DONE) {
        must(SEEN(PACKET, lpt_end_packet(to, packet, len, &outcome)) == LPT_DONE, "no packet");
        must(lpt_end_sent(from) == LPT_DONE, "a packet stays");
    }
}

/* A load goes up in parts, and is executed. */
static void load(unsigned k) {
    const LptName name = name_of(k);
    const LptTcHead head = {APID, (uint16_t)(k % 16384), 9, 6, 2, name.source};
    LptApplied applied = {0, {0, 0}, 0};
    size_t len = 0, body_len = 0;
    uint16_t part = 1;
    must(lpt_write_load(MEMORY, 16, octets, k % 50 == 0 ? LONG : SHORT, body, sizeof body,
                        &body_len) == LPT_DONE,
         "no load");
    must(SEEN(TC, lpt_write_tc(&head, body, body_len, message, sizeof message, &len)) == LPT_DONE,
         "no request");
    must(SEEN(OPEN, lpt_end_open(ground, &name, message, len)) == LPT_DONE, "nothing is opened");
    while (SEEN(PART, lpt_end_part(ground, &name, part++)) == LPT_DONE) {
        carry(ground, spacecraft);
    }
    must(SEEN(FINISH, lpt_end_finish(ground, &name)) == LPT_DONE, "nothing is finished");
    must(SEEN(READ, lpt_end_read(spacecraft)) == LPT_DONE, "nothing is read");
    must(SEEN(EXECUTE, lpt_end_execute(spacecraft, &applied)) == LPT_DONE, "nothing is executed");
    carry(spacecraft, ground);
}

/* The spacecraft's end is made again of its state. */
static void resume(void) {
    LptEnd *again = NULL;
    size_t len = 0;
    must(SEEN(STATE, lpt_end_state(spacecraft, state, sizeof state, &len)) == LPT_DONE, "no state");
    must(SEEN(RESUME, lpt_end_resume(&again, LPT_SIDE_SPACECRAFT, &config, state, len, &memory, 1,
                                     content, SIZE)) == LPT_DONE,
         "no end of a state");
    lpt_end_free(again);
}

int main(void) {
    const LptName first = {0, 0};
    LptName name = {0, 0};
    unsigned k;
    lowest = (uint8_t *)__builtin_frame_address(0) - PAINTED;
    must(SEEN(NEW, lpt_end_new(&ground, LPT_SIDE_GROUND, &config, NULL, 0, NULL, 0)) == LPT_DONE &&
             SEEN(NEW, lpt_end_new(&spacecraft, LPT_SIDE_SPACECRAFT, &config, &memory, 1, content,
                                   SIZE)) == LPT_DONE,
         "no end");
    for (k = 0; k < LOADS; k++) {
        load(k);
        if (k % 50 == 0) {
            resume();
        }
    }
    must(SEEN(CLOSED, lpt_end_closed(spacecraft, LPT_DIRECTION_UP, &first, &name)) == LPT_DONE,
         "no name");
    must(SEEN(CRC, lpt_crc16(octets, SIZE)) != 1, "no checksum");
    for (k = 0; k < LOADS; k += 2) {
        name = name_of(k);
        must(SEEN(RETIRE, lpt_end_retire(spacecraft, LPT_DIRECTION_UP, &name)) == LPT_DONE,
             "no name is free");
    }
    must(SEEN(RESTART, lpt_end_restart(spacecraft)) == LPT_DONE, "no restart");
    for (k = 0; k < CALLS; k++) {
        printf("%s %lu\n", names[k], (unsigned long)most[k]);
    }
    lpt_end_free(ground);
    lpt_end_free(spacecraft);
    return 0;
}
