/*
 * Ground sends a message of 2,000 octets to the spacecraft. It is too long for a packet of this
 * link, so it goes in parts of 256 octets; the third is lost, and is sent once more.
 *
 *   cc -Iinclude examples/c/end.c examples/c/memory/heap.c build/liblpt_end.a build/liblpt.a \
 *       -o end && ./end
 */
#include "lpt_end.h"

#include <stdio.h>

enum { MESSAGE = 2000, PART_SIZE = 256 };

/* The message is the transaction 7 of source 1. */
static const LptName name = {1, 7};

/* Makes the packet of a part at one end, and gives it to the other. Writes what became of it, or
   returns the number of what is wrong. */
static uint32_t carry(LptEnd *from, LptEnd *to, uint16_t k, LptOutcome *outcome) {
    uint8_t packet[PART_SIZE + 23] = {0};
    size_t len = 0;
    uint32_t fault = lpt_end_part(from, &name, k);
    while (fault == LPT_DONE && lpt_end_outgoing(from, packet, sizeof packet, &len) == LPT_DONE) {
        fault = lpt_end_packet(to, packet, len, outcome);
        if (fault == LPT_DONE) {
            fault = lpt_end_sent(from);
        }
    }
    return fault;
}

int main(void) {
    static const LptConfig config = {100, PART_SIZE, 10, 4, 4, 0, LPT_MODE_ANY};
    static const LptMemory memories[] = {{1, 0, 1024}};
    static uint8_t message[MESSAGE], received[MESSAGE], content[1024];
    LptEnd *ground = NULL, *spacecraft = NULL;
    LptOutcome outcome = {0, {0, 0}, 0, 0};
    size_t len = 0, i;
    uint16_t k, parts = (uint16_t)lpt_part_count(MESSAGE, PART_SIZE);
    uint32_t fault = lpt_end_new(&ground, LPT_SIDE_GROUND, &config, NULL, 0, NULL, 0);
    for (i = 0; i < MESSAGE; i++) {
        message[i] = (uint8_t)(i % 251);
    }
    if (fault == LPT_DONE) {
        fault = lpt_end_new(&spacecraft, LPT_SIDE_SPACECRAFT, &config, memories, 1, content,
                            sizeof content);
    }
    if (fault == LPT_DONE) {
        fault = lpt_end_open(ground, &name, message, MESSAGE);
    }
    for (k = 1; k <= parts && fault == LPT_DONE; k++) {
        if (k != 3) {
            fault = carry(ground, spacecraft, k, &outcome);
        }
    }
    printf("%u parts, the last %s\n", parts,
           outcome.kind == LPT_OUTCOME_KEPT ? "kept" : "not kept");
    if (fault == LPT_DONE) {
        fault = carry(ground, spacecraft, 3, &outcome);
    }
    if (fault == LPT_DONE && outcome.kind == LPT_OUTCOME_RELEASED) {
        fault = lpt_end_released(spacecraft, received, sizeof received, &len);
        for (i = 0; i < MESSAGE && received[i] == message[i]; i++) {
        }
        printf("released: %u octets, %s\n", (unsigned)len, i == MESSAGE ? "the same" : "others");
    }
    if (fault == LPT_DONE) {
        fault = lpt_end_finish(ground, &name);
    }
    printf("fault %u\n", (unsigned)fault);
    lpt_end_free(ground);
    lpt_end_free(spacecraft);
    return fault != LPT_DONE;
}
