/*
 * A spacecraft whose memory is the program's own: an array, reached by two functions, as a flight
 * computer's is by its drivers. Ground loads octets into it, dumps them, and asks for their
 * checksum. One load goes to a page that can't be written: the spacecraft refuses it, and reports
 * that to ground.
 *
 *   cc -Iinclude examples/c/flight.c examples/c/memory/pool.c build/liblpt_end.a build/liblpt.a \
 *       -o flight && ./flight
 */
#include "lpt_end.h"

#include <stdio.h>
#include <string.h>

enum { APID = 100, SOURCE = 1, PART_SIZE = 256, LONGEST = PART_SIZE + 23 };
enum { MEMORY = 1, SIZE = 4096, LOCKED = 1024, ADDRESS = 16, OCTETS = 40 };

static LptEnd *ground, *spacecraft;

/* The memory. From LOCKED on it can be read, but not written. */
static uint8_t array[SIZE];

static bool memory_write(uint32_t address, const uint8_t *octets, size_t len) {
    if (address + len > LOCKED) {
        return false;
    }
    memcpy(array + address, octets, len);
    return true;
}

static bool memory_read(uint32_t address, uint8_t *out, size_t len) {
    memcpy(out, array + address, len);
    return true;
}

/* Does what the oldest request asks of the memory, and then executes it. The octets that it reads
   go into one buffer. If it reads more than fits, or the memory fails, it is refused. Here loads
   have one area, so there is nothing to put back. */
static uint32_t work(LptApplied *applied) {
    static uint8_t octets[SIZE];
    LptAccess access = {0, 0, 0, 0};
    size_t number, len = 0, read = 0;
    uint32_t fault;
    for (number = 0; (fault = lpt_end_access(spacecraft, number, &access)) == LPT_DONE; number++) {
        bool is_done = false;
        if (access.len > sizeof octets - read) {
            /* it asks for more than this program can read at once */
        } else if (access.write != 0) {
            fault = lpt_end_access_octets(spacecraft, number, octets, sizeof octets, &len);
            is_done = fault == LPT_DONE && memory_write(access.address, octets, len);
        } else {
            is_done = memory_read(access.address, octets + read, access.len);
            read += access.len;
        }
        printf("  %s %u at %u: %s\n", access.write != 0 ? "write" : "read", (unsigned)access.len,
               (unsigned)access.address, is_done ? "done" : "failed");
        if (!is_done) {
            return lpt_end_refuse(spacecraft, LPT_FAILURE_OUT_OF_RANGE, applied);
        }
    }
    if (fault != LPT_E_NOTHING) {
        return fault;
    }
    return lpt_end_execute_given(spacecraft, octets, read, applied);
}

/* Prints what telemetry says: a verification report, or a report of data. */
static void print_report(const uint8_t *packet, size_t len) {
    LptTm tm = {{0, 0, 0, 0, 0, 0, 0, 0}, 0, 0};
    if (lpt_read_tm(packet, len, &tm) == LPT_DONE) {
        printf("  report %u, %u: %u octets\n", (unsigned)tm.head.service, (unsigned)tm.head.subtype,
               (unsigned)tm.len);
    }
}

/* Sends down the packets that wait at the spacecraft. */
static uint32_t send_down(void) {
    uint8_t packet[LONGEST] = {0};
    size_t len = 0;
    LptOutcome outcome = {0, {0, 0}, 0, 0};
    uint32_t fault = LPT_DONE;
    while (fault == LPT_DONE &&
           lpt_end_outgoing(spacecraft, packet, sizeof packet, &len) == LPT_DONE) {
        fault = lpt_end_packet(ground, packet, len, &outcome);
        print_report(packet, len);
        if (fault == LPT_DONE) {
            fault = lpt_end_sent(spacecraft);
        }
    }
    return fault;
}

/* Sends a request up, as one packet, and lets the spacecraft do it. */
static uint32_t ask(const char *what, uint8_t subtype, const uint8_t *body, size_t body_len) {
    uint8_t packet[LONGEST] = {0};
    size_t len = 0;
    LptOutcome outcome = {0, {0, 0}, 0, 0};
    LptApplied applied = {0, {0, 0}, 0};
    uint32_t fault = lpt_end_plain(ground, SOURCE, 1 + 8, 6, subtype, body, body_len);
    printf("%s\n", what);
    if (fault == LPT_DONE) {
        fault = lpt_end_outgoing(ground, packet, sizeof packet, &len);
    }
    if (fault == LPT_DONE) {
        fault = lpt_end_packet(spacecraft, packet, len, &outcome);
    }
    if (fault == LPT_DONE) {
        fault = lpt_end_sent(ground);
    }
    if (fault == LPT_DONE) {
        fault = lpt_end_read(spacecraft);
    }
    if (fault == LPT_DONE) {
        fault = work(&applied);
    }
    return fault == LPT_DONE ? send_down() : fault;
}

/* A load of these octets at an address. */
static uint32_t load(const char *what, uint32_t address, const uint8_t *octets) {
    uint8_t body[OCTETS + 10] = {0};
    size_t len = 0;
    uint32_t fault = lpt_write_load(MEMORY, address, octets, OCTETS, body, sizeof body, &len);
    return fault == LPT_DONE ? ask(what, 2, body, len) : fault;
}

int main(void) {
    static const LptConfig config = {APID, PART_SIZE, 10, 4, 4, 0, LPT_MODE_ANY};
    static const LptSize sizes[] = {{MEMORY, SIZE}};
    static const LptRange range = {ADDRESS, OCTETS};
    uint8_t octets[OCTETS] = {0}, body[8] = {0};
    size_t len = 0;
    uint32_t fault = lpt_end_new(&ground, LPT_SIDE_GROUND, &config, NULL, 0, NULL, 0);
    memset(octets, 7, sizeof octets);
    if (fault == LPT_DONE) {
        fault = lpt_end_new_sized(&spacecraft, &config, sizes, 1);
    }
    if (fault == LPT_DONE) {
        fault = load("load", ADDRESS, octets);
    }
    if (fault == LPT_DONE) {
        fault = load("load of a locked page", LOCKED, octets);
    }
    if (fault == LPT_DONE) {
        fault = lpt_write_dump(MEMORY, &range, 1, body, sizeof body, &len);
    }
    if (fault == LPT_DONE) {
        fault = ask("dump", 5, body, len);
    }
    if (fault == LPT_DONE) {
        fault = ask("check", 9, body, len);
    }
    printf("%s, fault %u\n", memcmp(array + ADDRESS, octets, OCTETS) == 0 ? "loaded" : "not loaded",
           (unsigned)fault);
    lpt_end_free(ground);
    lpt_end_free(spacecraft);
    return fault != LPT_DONE;
}
