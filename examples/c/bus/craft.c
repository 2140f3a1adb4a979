/*
 * A spacecraft's task on a bus. Its memory is a mapped file, which it writes by itself. It executes
 * a request first. Then it saves the state of the end, in one write with what the request still has
 * to write. Then it writes that, and only then it sends anything. At a start it writes again what
 * it saved last, and restores the end from its state. So wherever the task is killed, each load
 * that was executed is whole in the memory, once, and no other.
 *
 *   craft FOLDER PORT ITS_PORT STOP
 *
 * It listens on PORT, and sends to ITS_PORT. FOLDER has its memory, what it saves, and a journal of
 * what it released and executed. It kills itself after the write or send number STOP, if that isn't
 * 0. bus.h says what a cycle is; tests/bus runs and judges both programs.
 */
#include "bus.h"

#include <stdio.h>
#include <string.h>

enum { HOUSEKEEPING_EACH = 64 };

static Node node;
static uint8_t *memory;

/* Restores the end from what was saved, or makes a new one. Writes what an executed request still
   has to write to the memory. */
static void init(char **words) {
    static const LptConfig config = {APID,     PART_SIZE, TIMEOUT,     RECEPTIONS,
                                     OUTGOING, 0,         LPT_MODE_ANY};
    static const LptSize sizes[] = {{MEMORY, SIZE}};
    const bool is_kept = node_begin(&node, LPT_SIDE_SPACECRAFT, words);
    char line[64] = {0};
    uint32_t fault;
    memory = mapped(words[0], "memory", SIZE);
    if (is_kept) {
        write_pieces(memory + node.kept.address, node.kept.owed, node.kept.owed_len);
        fault = lpt_end_resume_sized(&node.end, &config, node.kept.state, node.kept.state_len,
                                     sizes, 1);
    } else {
        fault = lpt_end_new_sized(&node.end, &config, sizes, 1);
    }
    must(fault == LPT_DONE, lpt_fault_name(fault));
    (void)snprintf(line, sizeof line, "start %08lx", (unsigned long)sum_of(memory, SIZE));
    node_note(&node, line);
}

/* Copies what the oldest request writes, to be saved, and what it reads, area after area, to a
   buffer. Returns false if it asks for more than this task does. */
static bool prepare(uint8_t *octets, size_t room, size_t *read) {
    LptAccess access = {0, 0, 0, 0};
    size_t at, len = 0;
    node.kept.owed_len = 0;
    for (at = 0; lpt_end_access(node.end, at, &access) == LPT_DONE; at++) {
        if (access.write == 0 && access.len <= room - *read) {
            memcpy(octets + *read, memory + access.address, access.len);
            *read += access.len;
        } else if (access.write != 0 && at == 0 &&
                   lpt_end_access_octets(node.end, at, node.kept.owed, MOST_LOADED, &len) ==
                       LPT_DONE) {
            node.kept.address = access.address;
            node.kept.owed_len = (uint32_t)len;
        } else {
            return false;
        }
    }
    return true;
}

/* Executes the request that was released in this cycle. */
static void execute(void) {
    static uint8_t octets[SIZE];
    LptApplied applied = {0, {0, 0}, 0};
    char line[96] = {0};
    size_t read = 0;
    must(lpt_end_read(node.end) == LPT_DONE, "no request");
    if (!prepare(octets, sizeof octets, &read)) {
        node.kept.owed_len = 0;
        must(lpt_end_refuse(node.end, LPT_FAILURE_REPLY_TOO_LONG, &applied) == LPT_DONE,
             "a request stays");
        node_note(&node, "refuse");
        return;
    }
    must(lpt_end_execute_given(node.end, octets, read, &applied) == LPT_DONE,
         "nothing is executed");
    if (node.kept.owed_len > 0) {
        (void)snprintf(line, sizeof line, "load %lu %lu %08lx", (unsigned long)node.kept.address,
                       (unsigned long)node.kept.owed_len,
                       (unsigned long)sum_of(node.kept.owed, node.kept.owed_len));
        node_note(&node, line);
    }
    if (applied.kind == LPT_APPLIED_OPENED) {
        node_opened(&node, &applied.name);
        node_note_name(&node, "open", node.sends, &applied.name, octets, read, "");
    }
}

/* Takes what came, until there is something to execute or to report. Returns whether a request was
   released. */
static bool take(void) {
    static uint8_t message[LPT_LONGEST_PACKET];
    Head head = {0, 0, {0, 0}, 0};
    LptOutcome outcome = {0, {0, 0}, 0, 0};
    uint8_t packet[MOST_OCTETS] = {0};
    size_t k, len = 0;
    for (k = 0; k < MOST_TAKEN && node_take(&node, &head, &outcome, packet, &len); k++) {
        if (outcome.kind == LPT_OUTCOME_RELEASED) {
            must(lpt_end_released(node.end, message, sizeof message, &len) == LPT_DONE,
                 "no message");
            node_note_name(&node, "release", node.receives, &outcome.name, message, len, "");
            return true;
        }
        if (outcome.kind == LPT_OUTCOME_PLAIN_RELEASED) {
            return true;
        }
        if (outcome.kind == LPT_OUTCOME_BROKEN) {
            return false; /* its report goes first */
        }
    }
    return false;
}

/* Sends housekeeping to ground: what the end has to do. */
static void tell(void) {
    const Head head = {HOUSEKEEPING, LPT_DIRECTION_DOWN, {0, 0}, 0};
    LptView view = {0, 0, 0, 0, 0, 0};
    LptReception reception = {{0, 0}, 0, 0, 0};
    uint8_t octets[8] = {0};
    size_t open = 0;
    must(lpt_end_view(node.end, &view) == LPT_DONE, "no view");
    while (open < RECEPTIONS && lpt_end_reception(node.end, open, &reception) == LPT_DONE) {
        open++;
    }
    octets[0] = (uint8_t)(view.clock >> 24);
    octets[1] = (uint8_t)(view.clock >> 16);
    octets[2] = (uint8_t)(view.clock >> 8);
    octets[3] = (uint8_t)view.clock;
    octets[4] = (uint8_t)open;
    octets[5] = (uint8_t)view.due;
    octets[6] = (uint8_t)view.outgoing;
    octets[7] = (uint8_t)view.requests;
    node_say(&node, &head, octets, sizeof octets);
}

/* A cycle. */
static void step(void) {
    const bool tells = node.cycles % HOUSEKEEPING_EACH == 0;
    if (take()) {
        execute();
    }
    node_tick(&node);
    node.has_changed = node.has_changed || tells; /* the clock that it tells is saved first */
    node_keep(&node);
    write_pieces(memory + node.kept.address, node.kept.owed, node.kept.owed_len);
    node.kept.owed_len = 0;
    node_send(&node);
    if (tells) {
        tell();
    }
}

int main(int count, char **words) {
    must(count == 5, "craft FOLDER PORT ITS_PORT STOP");
    init(words + 1);
    do {
        step();
    } while (node_wait(&node));
    lpt_end_free(node.end);
    return 0;
}
