/*
 * Ground loads 1,000 octets into a memory of the spacecraft, in parts, and then asks for them by a
 * dump. The spacecraft executes both requests, and reports that it did; the dump's report goes down
 * in parts.
 *
 *   cc -Iinclude examples/c/request.c examples/c/memory/pool.c build/liblpt_end.a build/liblpt.a \
 *       -o request && ./request
 */
#include "lpt_end.h"

#include <stdio.h>
#include <string.h>

enum { APID = 100, SOURCE = 1, PART_SIZE = 256, LONGEST = PART_SIZE + 23 };
enum { MEMORY = 1, SIZE = 4096, ADDRESS = 16, OCTETS = 1000 };

static const LptName load_name = {SOURCE, 7};
static LptEnd *ground = NULL, *spacecraft = NULL;
static uint8_t image[OCTETS];

/* Prints a verification report that ground has noted. */
static void print_report(const uint8_t *packet, size_t len) {
    LptTm tm = {{0, 0, 0, 0, 0, 0, 0, 0}, 0, 0};
    LptReport report = {0, 0, 0};
    if (lpt_read_tm(packet, len, &tm) == LPT_DONE && tm.head.service == 1 &&
        lpt_read_report(tm.head.subtype, packet + tm.at, tm.len, &report) == LPT_DONE) {
        printf("request %08x: report %u, code %u\n", (unsigned)report.request,
               (unsigned)tm.head.subtype, (unsigned)report.code);
    }
}

/* Prints the dump report that ground has joined. */
static void print_dump(void) {
    static uint8_t message[LPT_LONGEST_PACKET];
    LptTm tm = {{0, 0, 0, 0, 0, 0, 0, 0}, 0, 0};
    LptDumped area = {0, 0, 0, 0, 0};
    size_t len = 0;
    if (lpt_end_released(ground, message, sizeof message, &len) == LPT_DONE &&
        lpt_read_tm(message, len, &tm) == LPT_DONE &&
        lpt_read_dump(message + tm.at, tm.len, 0, &area) == LPT_DONE && area.len == OCTETS) {
        printf("dump: %d octets, %s\n", OCTETS,
               memcmp(message + tm.at + area.at, image, OCTETS) == 0 ? "the same" : "others");
    }
}

/* Sends down the packets that wait at the spacecraft. */
static void send_down(void) {
    uint8_t packet[LONGEST] = {0};
    size_t len = 0;
    LptOutcome outcome = {0, {0, 0}, 0, 0};
    while (lpt_end_outgoing(spacecraft, packet, sizeof packet, &len) == LPT_DONE) {
        if (lpt_end_packet(ground, packet, len, &outcome) != LPT_DONE) {
            return; /* memory ran out: the packet still waits */
        }
        if (outcome.kind == LPT_OUTCOME_REPORT_NOTED) {
            print_report(packet, len);
        } else if (outcome.kind == LPT_OUTCOME_RELEASED) {
            print_dump();
        }
        if (lpt_end_sent(spacecraft) != LPT_DONE) {
            return;
        }
    }
}

/* Executes the requests that were released. A report that is too long for a packet goes in parts.
   */
static void serve(void) {
    LptApplied applied = {0, {0, 0}, 0};
    uint16_t k;
    while (lpt_end_read(spacecraft) == LPT_DONE) {
    }
    send_down(); /* nothing is executed while a packet waits */
    while (lpt_end_execute(spacecraft, &applied) == LPT_DONE) {
        send_down();
        if (applied.kind == LPT_APPLIED_OPENED) {
            for (k = 1; lpt_end_part(spacecraft, &applied.name, k) == LPT_DONE; k++) {
                send_down();
            }
            if (lpt_end_finish(spacecraft, &applied.name) != LPT_DONE) {
                return;
            }
        }
    }
}

/* Sends up the packets that wait on ground, and executes each request that the spacecraft releases.
   */
static void send_up(void) {
    uint8_t packet[LONGEST] = {0};
    size_t len = 0;
    LptOutcome outcome = {0, {0, 0}, 0, 0};
    while (lpt_end_outgoing(ground, packet, sizeof packet, &len) == LPT_DONE) {
        if (lpt_end_packet(spacecraft, packet, len, &outcome) != LPT_DONE) {
            return;
        }
        if (lpt_end_sent(ground) != LPT_DONE) {
            return;
        }
        if (outcome.kind == LPT_OUTCOME_RELEASED || outcome.kind == LPT_OUTCOME_PLAIN_RELEASED) {
            serve();
        }
    }
}

/* Loads the image by one telecommand, which is a message and goes in parts. Flags 1 and 8 ask for
   the reports of acceptance and of completion. No other request has the count 16,383. */
static uint32_t load(void) {
    static const LptTcHead head = {APID, 16383, 1 + 8, 6, 2, SOURCE};
    static uint8_t body[OCTETS + 10], request[sizeof body + 13];
    size_t body_len = 0, len = 0;
    uint16_t k;
    uint32_t fault =
        lpt_write_load(MEMORY, ADDRESS, image, OCTETS, body, sizeof body, &body_len);
    if (fault == LPT_DONE) {
        fault = lpt_write_tc(&head, body, body_len, request, sizeof request, &len);
    }
    if (fault == LPT_DONE) {
        fault = lpt_end_open(ground, &load_name, request, len);
    }
    if (fault == LPT_DONE) {
        for (k = 1; (fault = lpt_end_part(ground, &load_name, k)) == LPT_DONE; k++) {
            send_up();
        }
    }
    return fault == LPT_E_NO_SUCH_PART ? lpt_end_finish(ground, &load_name) : fault;
}

/* Asks for the same octets, by a plain request. */
static uint32_t dump(void) {
    static const LptRange range = {ADDRESS, OCTETS};
    uint8_t body[8] = {0};
    size_t len = 0;
    uint32_t fault = lpt_write_dump(MEMORY, &range, 1, body, sizeof body, &len);
    if (fault == LPT_DONE) {
        fault = lpt_end_plain(ground, SOURCE, 1 + 8, 6, 5, body, len);
    }
    send_up();
    return fault;
}

int main(void) {
    static const LptConfig config = {APID, PART_SIZE, 10, 4, 4, 0, LPT_MODE_ANY};
    static const LptMemory memories[] = {{MEMORY, 0, SIZE}};
    static const uint8_t content[SIZE] = {0};
    uint32_t fault = lpt_end_new(&ground, LPT_SIDE_GROUND, &config, memories, 0, content, 0);
    size_t i;
    for (i = 0; i < OCTETS; i++) {
        image[i] = (uint8_t)(i * 7 + 3);
    }
    if (fault == LPT_DONE) {
        fault = lpt_end_new(&spacecraft, LPT_SIDE_SPACECRAFT, &config, memories, 1, content, SIZE);
    }
    if (fault == LPT_DONE) {
        fault = load();
    }
    if (fault == LPT_DONE) {
        fault = dump();
    }
    printf("fault %u\n", (unsigned)fault);
    lpt_end_free(ground);
    lpt_end_free(spacecraft);
    return fault != LPT_DONE;
}
