/*
 * The ground of craft.c. It loads random octets in parts, asks for dumps and checks in plain
 * requests, and joins the reports that come down.
 *
 *   ground FOLDER PORT ITS_PORT STOP SEED
 *
 * It opens no more once it gets SIGUSR1, and ends when each of its names is free again.
 */
#include "bus.h"

#include <stdio.h>
#include <stdlib.h>
#include <string.h>

enum { NOISE = 65536, MOST_OPEN = 3, MOST_DUMPED = 2500, LAST_CYCLES = 400 };

static Node node;
static uint8_t noise[NOISE];
static uint64_t luck;

/* Returns a random number below n. */
static uint32_t chance(uint32_t n) {
    luck = luck * 6364136223846793005u + 1442695040888963407u;
    return (uint32_t)(luck >> 33) % n;
}

static void init(char **words) {
    static const LptConfig config = {APID,     PART_SIZE, TIMEOUT,     RECEPTIONS,
                                     OUTGOING, 0,         LPT_MODE_ANY};
    const bool is_kept = node_begin(&node, LPT_SIDE_GROUND, words);
    uint32_t fault, i, state = 1;
    luck = strtoull(words[4], NULL, 10);
    for (i = 0; i < NOISE; i++) {
        state = state * 1103515245u + 12345u;
        noise[i] = (uint8_t)(state >> 24);
    }
    fault = is_kept ? lpt_end_resume(&node.end, LPT_SIDE_GROUND, &config, node.kept.state,
                                     node.kept.state_len, NULL, 0, NULL, 0)
                    : lpt_end_new(&node.end, LPT_SIDE_GROUND, &config, NULL, 0, NULL, 0);
    must(fault == LPT_DONE, lpt_fault_name(fault));
    node_note(&node, "start 0");
}

/* Finds a free name. Returns false if there is none. */
static bool find(LptName *name) {
    const uint32_t first = chance(NAMES);
    uint32_t k, state = LPT_NAME_FREE;
    for (k = 0; k < NAMES; k++) {
        name->source = SOURCE;
        name->id = (uint16_t)((first + k) % NAMES);
        must(lpt_end_name(node.end, LPT_DIRECTION_UP, name, &state) == LPT_DONE, "no name");
        if (state == LPT_NAME_FREE) {
            return true;
        }
    }
    return false;
}

/* Opens a load of random octets. */
static void load(void) {
    static uint8_t body[MOST_LOADED + 10], request[sizeof body + 13];
    const uint32_t len = PART_SIZE + chance(MOST_LOADED - PART_SIZE), at = chance(SIZE - len);
    const uint32_t from = chance(NOISE - len);
    const LptTcHead head = {APID, (uint16_t)chance(16384), 1 + 8, 6, 2, SOURCE};
    LptName name = {0, 0};
    char more[48] = {0};
    size_t body_len = 0, request_len = 0;
    if (!find(&name)) {
        return;
    }
    must(lpt_write_load(MEMORY, at, noise + from, len, body, sizeof body, &body_len) == LPT_DONE &&
             lpt_write_tc(&head, body, body_len, request, sizeof request, &request_len) == LPT_DONE,
         "no load");
    must(lpt_end_open(node.end, &name, request, request_len) == LPT_DONE, "nothing is opened");
    node_opened(&node, &name);
    (void)snprintf(more, sizeof more, " %lu %lu %lu", (unsigned long)at, (unsigned long)len,
                   (unsigned long)from);
    node_note_name(&node, "open", node.sends, &name, request, request_len, more);
}

/* Asks for a dump, or for a checksum. */
static void ask(uint8_t subtype) {
    const uint32_t len = 1 + chance(MOST_DUMPED);
    const LptRange range = {chance(SIZE - len), (uint16_t)len};
    uint8_t body[8] = {0};
    size_t body_len = 0;
    must((subtype == 5 ? lpt_write_dump : lpt_write_check)(MEMORY, &range, 1, body, sizeof body,
                                                           &body_len) == LPT_DONE &&
             lpt_end_plain(node.end, SOURCE, 0, 6, subtype, body, body_len) == LPT_DONE,
         "nothing is asked");
}

/* The next piece of work, if there is room for one. */
static void choose(void) {
    const uint32_t what = chance(40);
    if (is_over() || node.sendings_len >= MOST_OPEN) {
        return;
    }
    if (what < 8) {
        load();
    } else if (what < 10) {
        ask(5);
    } else if (what == 10) {
        ask(9);
    } else {
        /* nothing now */
    }
}

/* Notes a dump that was joined. */
static void note_dump(const Head *head) {
    static uint8_t message[LPT_LONGEST_PACKET];
    LptTm tm = {{0, 0, 0, 0, 0, 0, 0, 0}, 0, 0};
    LptDumped area = {0, 0, 0, 0, 0};
    size_t len = 0;
    must(lpt_end_released(node.end, message, sizeof message, &len) == LPT_DONE &&
             lpt_read_tm(message, len, &tm) == LPT_DONE &&
             lpt_read_dump(message + tm.at, tm.len, 0, &area) == LPT_DONE,
         "another message than a dump");
    node_note_name(&node, "release", node.receives, &head->name, message + tm.at + area.at,
                   area.len, "");
}

/* A cycle. Returns whether there may be more to do. */
static bool step(void) {
    static uint32_t last;
    const LptName first = {0, 0};
    LptName name = {0, 0};
    Head head = {0, 0, {0, 0}, 0};
    LptOutcome outcome = {0, {0, 0}, 0, 0};
    uint8_t packet[MOST_OCTETS] = {0};
    size_t k, len = 0;
    for (k = 0; k < MOST_TAKEN && node_take(&node, &head, &outcome, packet, &len); k++) {
        if (outcome.kind == LPT_OUTCOME_RELEASED) {
            note_dump(&head);
        }
    }
    node_tick(&node);
    choose();
    node_keep(&node);
    node_send(&node);
    if (!is_over() || node.sendings_len > 0 ||
        lpt_end_closed(node.end, LPT_DIRECTION_UP, &first, &name) == LPT_DONE) {
        last = node.cycles;
    }
    return node.cycles - last < LAST_CYCLES;
}

int main(int count, char **words) {
    must(count == 6, "ground FOLDER PORT ITS_PORT STOP SEED");
    init(words + 1);
    while (step() && node_wait(&node)) {
    }
    lpt_end_free(node.end);
    return 0;
}
