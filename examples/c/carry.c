/*
 * Ground carries two jobs to their end: it loads an image of 20,000 octets, and then dumps it. The
 * link loses every third packet up and every fourth down. The spacecraft is an end of this library,
 * in the same program.
 *
 *   cc -Iinclude examples/c/carry.c examples/c/memory/heap.c build/liblpt_ground.a \
 *       build/liblpt_end.a build/liblpt.a -o carry && ./carry
 */
#include "lpt_ground.h"

#include <stdio.h>
#include <string.h>

enum { APID = 100, PART_SIZE = 256, MEMORY = 1, SIZE = 32768, ADDRESS = 4096, OCTETS = 20000 };
enum { LOST_UP = 3, LOST_DOWN = 4, TRIES = 10 };

static uint8_t image[OCTETS], content[SIZE], dumped[OCTETS];
static unsigned up, down;

/* Executes what the spacecraft has released, and hands its reports to the pass, except for those
   that the link loses. */
static uint32_t answer(LptEnd *spacecraft, LptGround *pass) {
    uint8_t report[PART_SIZE + 23] = {0};
    size_t len = 0;
    LptApplied applied = {0, {0, 0}, 0};
    uint32_t fault = lpt_end_read(spacecraft);
    if (fault == LPT_DONE) {
        fault = lpt_end_execute(spacecraft, &applied);
    }
    while (fault == LPT_DONE &&
           lpt_end_outgoing(spacecraft, report, sizeof report, &len) == LPT_DONE) {
        if (++down % LOST_DOWN != 0) {
            fault = lpt_ground_packet(pass, report, len);
        }
        if (fault == LPT_DONE) {
            fault = lpt_end_sent(spacecraft);
        }
    }
    return fault;
}

/* Sends the pass's next packet, unless the link loses it. */
static uint32_t send_next(LptGround *pass, LptEnd *spacecraft) {
    uint8_t packet[PART_SIZE + 23] = {0};
    size_t len = 0;
    LptOutcome outcome = {0, {0, 0}, 0, 0};
    uint32_t fault = lpt_ground_outgoing(pass, packet, sizeof packet, &len);
    if (fault == LPT_DONE) {
        fault = lpt_ground_sent(pass);
    }
    if (fault == LPT_DONE && ++up % LOST_UP != 0) {
        fault = lpt_end_packet(spacecraft, packet, len, &outcome);
        if (fault == LPT_DONE) {
            fault = answer(spacecraft, pass);
        }
    }
    return fault;
}

/* Carries a pass to its end, and prints how it ended. Here no packet is ever on its way, so none
   comes when the pass listens. */
static uint32_t carry(LptGround *pass, LptEnd *spacecraft, const char *what) {
    uint32_t step = LPT_STEP_SEND, fault = LPT_DONE;
    unsigned rounds = 1;
    LptProgress progress = {0, 0, 0, 0};
    while (fault == LPT_DONE && step < LPT_STEP_COMPLETED) {
        fault = lpt_ground_next(pass, &step);
        if (fault == LPT_DONE && step == LPT_STEP_SEND) {
            fault = send_next(pass, spacecraft);
        } else if (fault == LPT_DONE && step == LPT_STEP_LISTEN) {
            fault = lpt_ground_quiet(pass);
            rounds++;
        }
    }
    if (fault == LPT_DONE) {
        fault = lpt_ground_progress(pass, &progress);
    }
    printf("%s: %s: %u of %u requests in %u rounds, %u packets up\n", what, lpt_step_name(step),
           (unsigned)progress.completed, (unsigned)progress.requests, rounds, up);
    return fault;
}

/* Copies the octets that the dumps got, one after the other. */
static uint32_t collect(LptGround *pass) {
    uint32_t fault = LPT_DONE;
    size_t number, at = 0, len = 0;
    for (number = 0; fault == LPT_DONE && at < OCTETS; number++) {
        fault = lpt_ground_dumped(pass, number, dumped + at, OCTETS - at, &len);
        at += len;
    }
    return fault;
}

int main(void) {
    static const LptConfig config = {APID, PART_SIZE, 100, 4, 4, 0, LPT_MODE_ANY};
    static const LptMemory memories[] = {{MEMORY, 0, SIZE}};
    static const LptPlace places[] = {{ADDRESS, OCTETS}};
    LptJob job = {LPT_JOB_LOAD, MEMORY, 8, APID, 7, 0, PART_SIZE, TRIES};
    LptEnd *spacecraft = NULL;
    LptGround *load = NULL, *dump = NULL;
    size_t i;
    uint32_t fault = lpt_end_new(&spacecraft, LPT_SIDE_SPACECRAFT, &config, memories, 1, content, SIZE);
    for (i = 0; i < OCTETS; i++) {
        image[i] = (uint8_t)(i % 251);
    }
    if (fault == LPT_DONE) {
        fault = lpt_ground_new(&load, &job, places, 1, image, OCTETS);
    }
    if (fault == LPT_DONE) {
        fault = carry(load, spacecraft, "load");
    }
    job.kind = LPT_JOB_DUMP;
    job.flags = 0;
    job.source = 8;
    if (fault == LPT_DONE) {
        fault = lpt_ground_new(&dump, &job, places, 1, NULL, 0);
    }
    if (fault == LPT_DONE) {
        fault = carry(dump, spacecraft, "dump");
    }
    if (fault == LPT_DONE) {
        fault = collect(dump);
    }
    printf("dumped: %s\n", memcmp(image, dumped, OCTETS) == 0 ? "the same" : "others");
    printf("fault %u\n", (unsigned)fault);
    lpt_ground_free(load);
    lpt_ground_free(dump);
    lpt_end_free(spacecraft);
    return fault != LPT_DONE;
}
