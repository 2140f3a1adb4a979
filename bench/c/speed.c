/*
 * Times some calls of lpt.h and lpt_end.h beside plain C that does the same work (plain.c), each in
 * turn, and prints a table: octets per second of processor time, and the ratio of the times.
 *
 *     speed [ROUNDS]
 *     speed joined
 *
 * Of each round a ratio is taken; the table has the median of the ratios, with the least and the
 * greatest, and of each side the best round.
 *
 * By the word joined the library joins a message of parts of 4 octets, once for each of a few times, and
 * nothing is timed: tests/instructions counts what that takes.
 */
#define _POSIX_C_SOURCE 199309L
#include "lpt_end.h"
#include "plain.h"

#include <stdio.h>
#include <stdlib.h>
#include <string.h>
#include <time.h>

enum { LONG = 65542, PACKET = 1024, FIELD = PACKET - 8, TURNS = 20000, JOINS = 20, FEW = 2, MOST = 101 };

static uint8_t message[LONG], packet[PACKET], written[PACKET];
/* The packets of a message in parts, one behind the other. */
static uint8_t packets[20000 * 40];
static size_t lens[20000], parts;
static const LptMemory no_memory[1];
static uint32_t part_size;
static int joins = JOINS;
static volatile uint32_t sink;
static int is_wrong;

static double now(void) {
    struct timespec t;
    clock_gettime(CLOCK_PROCESS_CPUTIME_ID, &t);
    return (double)t.tv_sec + 1e-9 * (double)t.tv_nsec;
}

static void wants(int is_right) { is_wrong |= !is_right; }

/* ---- the work, by the library and by plain C ---- */

static void crc16_proved(void) {
    int i;
    for (i = 0; i < TURNS; i++) {
        sink += lpt_crc16(message, PACKET);
    }
}

static void crc16_plain(void) {
    int i;
    for (i = 0; i < TURNS; i++) {
        sink += plain_crc16(message, PACKET);
    }
}

static void read_proved(void) {
    LptPacket out;
    int i;
    for (i = 0; i < TURNS; i++) {
        sink += lpt_read_packet(packet, PACKET, &out);
    }
}

static void read_plain(void) {
    LptPacket out;
    int i;
    for (i = 0; i < TURNS; i++) {
        sink += plain_read_packet(packet, PACKET, &out);
    }
}

static void write_proved(void) {
    size_t needed;
    int i;
    for (i = 0; i < TURNS; i++) {
        sink += lpt_write_packet(LPT_PACKET_TC, 100, 7, message, FIELD, written, PACKET, &needed);
    }
}

static void write_plain(void) {
    size_t needed;
    int i;
    for (i = 0; i < TURNS; i++) {
        sink += plain_write_packet(LPT_PACKET_TC, 100, 7, message, FIELD, written, PACKET, &needed);
    }
}

/* The packets of all parts of the message. */
static void split(uint32_t p) {
    LptTmHead head = {100, 0, 0, 13, 0, 0, 1, 0};
    uint8_t body[1100];
    size_t at = 0, len = 0;
    uint32_t kind = 0, k;
    part_size = p;
    parts = lpt_part_count(LONG, p);
    for (k = 1; k <= parts; k++) {
        wants(lpt_slice_part(message, LONG, p, 5, (uint16_t)k, &kind, body, sizeof body, &len) ==
              LPT_DONE);
        head.count = (uint16_t)(k & 16383);
        head.subtype = (uint8_t)kind;
        wants(lpt_write_tm(&head, body, len, packets + at, sizeof packets - at, &lens[k - 1]) ==
              LPT_DONE);
        at += lens[k - 1];
    }
}

/* Ground joins the message again and again, whose name is freed each time. */
static void join_proved(void) {
    LptConfig config = {100, 0, 10, 4, 4, 0, LPT_MODE_ANY};
    static const LptName name = {1, 5};
    LptEnd *end = NULL;
    int i;
    config.part_size = part_size;
    wants(lpt_end_new(&end, LPT_SIDE_GROUND, &config, no_memory, 0, message, 0) == LPT_DONE);
    for (i = 0; i < joins; i++) {
        LptOutcome said = {0, {0, 0}, 0, 0};
        size_t at = 0, k;
        for (k = 0; k < parts; k++) {
            wants(lpt_end_packet(end, packets + at, lens[k], &said) == LPT_DONE);
            at += lens[k];
        }
        wants(said.kind == LPT_OUTCOME_RELEASED && said.first == LONG);
        wants(lpt_end_retire(end, LPT_DIRECTION_DOWN, &name) == LPT_DONE);
    }
    lpt_end_free(end);
}

static void join_plain(void) {
    PlainEnd *end = plain_end_new(100, part_size);
    int i;
    for (i = 0; i < joins; i++) {
        uint32_t said = 0;
        size_t at = 0, k, len;
        for (k = 0; k < parts; k++) {
            said = plain_end_packet(end, packets + at, lens[k]);
            at += lens[k];
        }
        plain_end_released(end, &len);
        wants(said == LPT_OUTCOME_RELEASED && len == LONG);
        plain_end_retire(end, 5);
    }
    plain_end_free(end);
}

/* ---- the state of an end ---- */

enum { NAMES = 65536, STATES = 20, STATE = 45 + 6 * NAMES };
static uint8_t state[STATE];

/* What it takes to write the state of an end, and to make one of it, of which so many names were used,
 * each so far from the one before. */
static void state_row(const char *name, uint32_t names, uint32_t step) {
    static const LptConfig config = {100, 8, 10, 4, 4, 0, LPT_MODE_ANY};
    LptEnd *end = NULL, *again = NULL;
    LptName used = {1, 0};
    size_t len = 0;
    uint32_t i;
    double from, written_in, made_in = 0;
    wants(lpt_end_new(&end, LPT_SIDE_GROUND, &config, no_memory, 0, message, 0) == LPT_DONE);
    for (i = 0; i < names; i++) {
        used.id = (uint16_t)(i * step);
        used.source = (uint16_t)(1 + i * step / NAMES);
        wants(lpt_end_open(end, &used, message, 9) == LPT_DONE);
        wants(lpt_end_finish(end, &used) == LPT_DONE);
    }
    from = now();
    for (i = 0; i < STATES; i++) {
        wants(lpt_end_state(end, state, sizeof state, &len) == LPT_DONE);
    }
    written_in = (now() - from) / STATES;
    for (i = 0; i < STATES; i++) {
        from = now();
        wants(lpt_end_resume(&again, LPT_SIDE_GROUND, &config, state, len, no_memory, 0, message, 0) ==
              LPT_DONE);
        made_in += (now() - from) / STATES;
        lpt_end_free(again);
    }
    lpt_end_free(end);
    printf("| %s | %zu | %.3f | %.3f |\n", name, len, written_in * 1e3, made_in * 1e3);
}

/* ---- the tables ---- */

static int by_size(const void *a, const void *b) {
    double x = *(const double *)a, y = *(const double *)b;
    return (x > y) - (x < y);
}

static double timed(void (*work)(void)) {
    double from = now();
    work();
    return now() - from;
}

static void row(const char *name, double octets, int rounds, void (*proved)(void),
                void (*plain)(void)) {
    static double ratios[MOST];
    double best = 1e9, best_plain = 1e9;
    int i;
    proved();
    plain();
    for (i = 0; i < rounds; i++) {
        double other = i % 2 ? timed(plain) : 0, mine = timed(proved);
        other = i % 2 ? other : timed(plain);
        ratios[i] = mine / other;
        best = mine < best ? mine : best;
        best_plain = other < best_plain ? other : best_plain;
    }
    qsort(ratios, (size_t)rounds, sizeof *ratios, by_size);
    printf("| %s | %.0f | %.0f | %.2f (%.2f to %.2f) |\n", name, octets / best / 1e6,
           octets / best_plain / 1e6, ratios[rounds / 2], ratios[0], ratios[rounds - 1]);
}

int main(int argc, char **argv) {
    int rounds = argc > 1 ? atoi(argv[1]) : 15;
    size_t i, len = 0;
    rounds = rounds < 1 ? 1 : rounds > MOST ? MOST : rounds;
    for (i = 0; i < LONG; i++) {
        message[i] = (uint8_t)(i * 7 + (i >> 8));
    }
    if (argc > 1 && strcmp(argv[1], "joined") == 0) {
        joins = FEW;
        split(4);
        join_proved();
        return is_wrong;
    }
    plain_begin();
    wants(lpt_write_packet(LPT_PACKET_TC, 100, 7, message, FIELD, packet, PACKET, &len) ==
          LPT_DONE);
    wants(plain_write_packet(LPT_PACKET_TC, 100, 7, message, FIELD, written, PACKET, &len) ==
          LPT_DONE);
    wants(memcmp(packet, written, PACKET) == 0 && len == PACKET);
    printf("| Work | Proved, MB/s | Plain C, MB/s | Time to plain C's |\n|---|--:|--:|--:|\n");
    row("`lpt_crc16`, 1,024 octets", TURNS * 1024.0, rounds, crc16_proved, crc16_plain);
    row("`lpt_read_packet`, 1,024 octets", TURNS * 1024.0, rounds, read_proved, read_plain);
    row("`lpt_write_packet`, 1,024 octets", TURNS * 1024.0, rounds, write_proved, write_plain);
    split(1024);
    row("65,542 octets joined of parts of 1,024", JOINS * (double)LONG, rounds, join_proved,
        join_plain);
    split(4);
    row("65,542 octets joined of parts of 4", JOINS * (double)LONG, rounds, join_proved,
        join_plain);
    printf("\n| State of an end | Octets | Written in, ms | Restored in, ms |\n|---|--:|--:|--:|\n");
    state_row("no name", 0, 1);
    state_row("65,536 names of a source", NAMES, 1);
    state_row("every other one of 65,536 names of a source", NAMES / 2, 2);
    if (is_wrong) {
        printf("what was computed is wrong\n");
    }
    return is_wrong;
}
