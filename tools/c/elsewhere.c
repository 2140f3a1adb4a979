/*
 * A spacecraft whose memories are with the program, beside one that has them itself: the same
 * requests give the same packets, octet for octet, the same answers and the same memories. And each
 * fault of the calls that memories with the program need.
 *
 * It prints how many cases passed and failed.
 */
#include "lpt_end.h"

#include <stdio.h>
#include <string.h>

enum { APID = 100, SOURCE = 1, PART_SIZE = 256, LONGEST = PART_SIZE + 23, SIZE = 2000, OTHER = 50 };

static unsigned passed, failed;

static void look(int is_right, int line, const char *what) {
    if (is_right) {
        passed++;
        return;
    }
    failed++;
    printf("elsewhere.c:%d: %s\n", line, what);
}

#define EXPECT(what) look((what), __LINE__, #what)

static const LptConfig config = {APID, PART_SIZE, 10, 4, 4, 0, LPT_MODE_ANY};
static const LptMemory memories[] = {{1, 0, SIZE}, {9, SIZE, OTHER}};
static const LptSize sizes[] = {{1, SIZE}, {9, OTHER}};
static uint8_t content[SIZE + OTHER], arrays[SIZE + OTHER], copy[SIZE];

/* The program's own memory of an identifier. */
static uint8_t *array_of(uint8_t id) {
    return id == 1 ? arrays : arrays + SIZE;
}

/* Does what the oldest request does to memories, and executes it. */
static uint32_t work(LptEnd *end, LptApplied *applied) {
    static uint8_t octets[2 * SIZE];
    LptAccess access = {0, 0, 0, 0};
    size_t number, len = 0, read = 0;
    uint32_t fault;
    for (number = 0; (fault = lpt_end_access(end, number, &access)) == LPT_DONE; number++) {
        uint8_t *at = array_of(access.memory) + access.address;
        if (access.write) {
            EXPECT(lpt_end_access_octets(end, number, octets, sizeof octets, &len) == LPT_DONE);
            EXPECT(len == access.len);
            memcpy(at, octets, len);
        } else {
            EXPECT(lpt_end_access_octets(end, number, octets, 0, &len) == LPT_E_NOTHING);
            memcpy(octets + read, at, access.len);
            read += access.len;
        }
    }
    EXPECT(fault == LPT_E_NOTHING);
    return lpt_end_execute_given(end, octets, read, applied);
}

/* The next packet of both is the same; or neither has one. */
static int take_same(LptEnd *here, LptEnd *there) {
    uint8_t one[LONGEST] = {0}, other[LONGEST] = {0};
    size_t len = 0, other_len = 0;
    uint32_t fault = lpt_end_outgoing(here, one, sizeof one, &len);
    EXPECT(lpt_end_outgoing(there, other, sizeof other, &other_len) == fault);
    if (fault != LPT_DONE) {
        return 0;
    }
    EXPECT(len == other_len && memcmp(one, other, len) == 0);
    EXPECT(lpt_end_sent(here) == LPT_DONE && lpt_end_sent(there) == LPT_DONE);
    return 1;
}

/* A request to both, as ground makes it: what became of it, and their packets, are the same. */
static unsigned both(LptEnd *ground, LptEnd *here, LptEnd *there, uint8_t service, uint8_t subtype,
                     const uint8_t *body, size_t body_len) {
    uint8_t packet[LONGEST] = {0};
    size_t len = 0;
    unsigned packets = 0;
    uint16_t number;
    LptOutcome outcome = {0, {0, 0}, 0, 0};
    LptApplied one = {0, {0, 0}, 0}, other = {0, {0, 0}, 0};
    EXPECT(lpt_end_plain(ground, SOURCE, 15, service, subtype, body, body_len) == LPT_DONE);
    EXPECT(lpt_end_outgoing(ground, packet, sizeof packet, &len) == LPT_DONE);
    EXPECT(lpt_end_sent(ground) == LPT_DONE);
    EXPECT(lpt_end_packet(here, packet, len, &outcome) == LPT_DONE);
    EXPECT(lpt_end_packet(there, packet, len, &outcome) == LPT_DONE);
    EXPECT(lpt_end_read(here) == LPT_DONE && lpt_end_read(there) == LPT_DONE);
    EXPECT(lpt_end_execute(here, &one) == LPT_DONE);
    EXPECT(work(there, &other) == LPT_DONE);
    EXPECT(memcmp(&one, &other, sizeof one) == 0);
    while (take_same(here, there)) {
        packets++;
    }
    if (one.kind == LPT_APPLIED_OPENED) {
        for (number = 1; lpt_end_part(here, &one.name, number) == LPT_DONE; number++) {
            EXPECT(lpt_end_part(there, &one.name, number) == LPT_DONE);
            EXPECT(take_same(here, there));
        }
        EXPECT(lpt_end_finish(here, &one.name) == LPT_DONE);
        EXPECT(lpt_end_finish(there, &one.name) == LPT_DONE);
    }
    EXPECT(lpt_end_memory(here, 1, copy, sizeof copy, &len) == LPT_DONE && len == SIZE);
    EXPECT(memcmp(copy, arrays, SIZE) == 0);
    EXPECT(lpt_end_memory(here, 9, copy, sizeof copy, &len) == LPT_DONE && len == OTHER);
    EXPECT(memcmp(copy, arrays + SIZE, OTHER) == 0);
    return packets;
}

/* The same requests of an end with its own memories and of one whose memories are elsewhere. */
static void same_packets(LptEnd *ground, LptEnd *here, LptEnd *there) {
    static const LptRange two[] = {{10, 8}, {0, 20}}, one[] = {{0, 600}};
    static const LptRange all[] = {{0, SIZE}, {3, 90}};
    static const LptRange past[] = {{SIZE - 1, 2}};
    uint8_t body[64] = {0}, half[64] = {0}, octets[20] = {0};
    size_t len = 0, half_len = 0, at;
    for (at = 0; at < sizeof octets; at++) {
        octets[at] = (uint8_t)(at * 11 + 5);
    }
    EXPECT(lpt_write_load(1, 8, octets, 20, body, sizeof body, &len) == LPT_DONE);
    EXPECT(both(ground, here, there, 6, 2, body, len) == 3);
    EXPECT(memcmp(arrays + 8, octets, 20) == 0);
    /* Two areas, of which the later one lies over the other. */
    EXPECT(lpt_write_load(9, 0, octets, 16, body, sizeof body, &len) == LPT_DONE);
    EXPECT(lpt_write_load(9, 4, octets, 4, half, sizeof half, &half_len) == LPT_DONE);
    body[1] = 2;
    memcpy(body + len, half + 2, half_len - 2);
    EXPECT(both(ground, here, there, 6, 2, body, len + half_len - 2) == 3);
    EXPECT(memcmp(arrays + SIZE + 4, octets, 4) == 0);
    /* The checksum of the second is wrong: neither is written. */
    body[len + half_len - 3] ^= 1;
    EXPECT(both(ground, here, there, 6, 2, body, len + half_len - 2) == 2);
    EXPECT(lpt_write_dump(1, two, 2, body, sizeof body, &len) == LPT_DONE);
    EXPECT(both(ground, here, there, 6, 5, body, len) == 4);
    EXPECT(lpt_write_check(1, all, 2, body, sizeof body, &len) == LPT_DONE);
    EXPECT(both(ground, here, there, 6, 9, body, len) == 4);
    EXPECT(lpt_write_dump(1, one, 1, body, sizeof body, &len) == LPT_DONE);
    EXPECT(both(ground, here, there, 6, 5, body, len) == 3); /* its data is opened in parts */
    EXPECT(lpt_write_dump(1, past, 1, body, sizeof body, &len) == LPT_DONE);
    EXPECT(both(ground, here, there, 6, 5, body, len) == 2);
    EXPECT(lpt_write_check(3, two, 2, body, sizeof body, &len) == LPT_DONE);
    EXPECT(both(ground, here, there, 6, 9, body, len) == 2);
    EXPECT(both(ground, here, there, 6, 2, body, 1) == 1);
    EXPECT(both(ground, here, there, 17, 1, body, 0) == 1);
}

/* Gives a request of one packet to an end. */
static void give(LptEnd *ground, LptEnd *end, uint8_t subtype, const uint8_t *body,
                 size_t body_len) {
    uint8_t packet[LONGEST] = {0};
    size_t len = 0;
    LptOutcome outcome = {0, {0, 0}, 0, 0};
    EXPECT(lpt_end_plain(ground, SOURCE, 0, 6, subtype, body, body_len) == LPT_DONE);
    EXPECT(lpt_end_outgoing(ground, packet, sizeof packet, &len) == LPT_DONE);
    EXPECT(lpt_end_sent(ground) == LPT_DONE);
    EXPECT(lpt_end_packet(end, packet, len, &outcome) == LPT_DONE);
}

/* What the calls refuse, in their order. */
static void faults(LptEnd *ground, LptEnd *here, LptEnd *there) {
    static const LptRange range = {0, 4};
    uint8_t body[64] = {0}, octets[8] = {1, 2, 3, 4, 5, 6, 7, 8};
    size_t len = 77, dump_len = 0;
    LptAccess access = {7, 7, 7, 7};
    LptApplied applied = {7, {7, 7}, 7};
    EXPECT(lpt_end_access(ground, 0, &access) == LPT_E_NO_JOB);
    EXPECT(lpt_end_access(there, 0, &access) == LPT_E_NO_JOB);
    EXPECT(lpt_end_access_octets(there, 0, octets, 8, &len) == LPT_E_NO_JOB);
    EXPECT(lpt_end_execute_given(ground, octets, 0, &applied) == LPT_E_NO_JOB);
    EXPECT(lpt_end_execute_given(there, octets, 0, &applied) == LPT_E_NO_JOB);
    EXPECT(lpt_end_execute_given(here, octets, 0, &applied) == LPT_E_ELSEWHERE);
    EXPECT(lpt_end_execute(there, &applied) == LPT_E_ELSEWHERE);
    EXPECT(lpt_end_memory(there, 1, copy, sizeof copy, &len) == LPT_E_ELSEWHERE);
    EXPECT(lpt_end_memory_range(there, 1, 0, copy, 4) == LPT_E_ELSEWHERE);
    EXPECT(lpt_end_drop_read(there) == LPT_E_NO_JOB);

    EXPECT(lpt_write_dump(1, &range, 1, body, sizeof body, &dump_len) == LPT_DONE);
    give(ground, there, 5, body, dump_len);
    EXPECT(lpt_end_access(there, 0, &access) == LPT_E_NOT_READ);
    EXPECT(lpt_end_access_octets(there, 0, octets, 8, &len) == LPT_E_NOT_READ);
    EXPECT(lpt_end_execute_given(there, octets, 4, &applied) == LPT_E_NOT_READ);
    EXPECT(lpt_end_drop_read(there) == LPT_E_NOT_READ);
    EXPECT(lpt_end_read(there) == LPT_DONE);
    EXPECT(lpt_end_access(there, 1, &access) == LPT_E_NOTHING && access.memory == 7);
    EXPECT(lpt_end_access(there, 0, &access) == LPT_DONE);
    EXPECT(access.memory == 1 && access.write == 0 && access.address == 0 && access.len == 4);
    EXPECT(lpt_end_execute_given(there, octets, 3, &applied) == LPT_E_READ_LENGTH);
    EXPECT(lpt_end_execute_given(there, octets, 5, &applied) == LPT_E_READ_LENGTH);
    EXPECT(applied.kind == 7 && len == 77);
    EXPECT(lpt_end_execute_given(there, octets, 4, &applied) == LPT_DONE);
    EXPECT(applied.kind == LPT_APPLIED_CARRIED_OUT);
    give(ground, there, 5, body, dump_len);
    EXPECT(lpt_end_read(there) == LPT_DONE);
    EXPECT(lpt_end_execute_given(there, octets, 4, &applied) == LPT_E_UNSENT);
    EXPECT(lpt_end_sent(there) == LPT_DONE);
    EXPECT(lpt_end_drop_read(there) == LPT_DONE);
    EXPECT(lpt_end_execute_given(there, octets, 4, &applied) == LPT_E_NO_JOB);
    EXPECT(lpt_end_outgoing(there, copy, sizeof copy, &len) == LPT_E_NOTHING);

    EXPECT(lpt_write_load(9, 2, octets, 8, body, sizeof body, &dump_len) == LPT_DONE);
    give(ground, there, 2, body, dump_len);
    EXPECT(lpt_end_read(there) == LPT_DONE);
    EXPECT(lpt_end_access(there, 0, &access) == LPT_DONE);
    EXPECT(access.memory == 9 && access.write == 1 && access.address == 2 && access.len == 8);
    EXPECT(lpt_end_access_octets(there, 0, copy, 7, &len) == LPT_E_ROOM && len == 8);
    EXPECT(lpt_end_access_octets(there, 0, copy, 8, &len) == LPT_DONE);
    EXPECT(memcmp(copy, octets, 8) == 0);
    EXPECT(lpt_end_access_octets(there, 1, copy, 8, &len) == LPT_E_NOTHING);
    EXPECT(lpt_end_execute_given(there, octets, 1, &applied) == LPT_E_READ_LENGTH);
    EXPECT(lpt_end_execute_given(there, NULL, 0, &applied) == LPT_DONE);
}

/* What an end isn't made of. */
static void makings(LptEnd *here, LptEnd *there) {
    LptEnd *end = NULL;
    LptConfig bad = config;
    LptSize many[17], one = {1, 0};
    uint8_t state[200] = {0}, other[200] = {0};
    size_t len = 0, other_len = 0, at;
    for (at = 0; at < 17; at++) {
        many[at].id = (uint8_t)at;
        many[at].len = 4294967295u;
    }
    bad.mode = 2;
    EXPECT(lpt_end_new_sized(&end, &bad, sizes, 2) == LPT_E_RANGE);
    bad = config;
    bad.apid = 2047;
    EXPECT(lpt_end_new_sized(&end, &bad, NULL, 0) == LPT_E_CONFIG_APID);
    EXPECT(lpt_end_new_sized(&end, &config, NULL, 0) == LPT_E_MEMORIES);
    EXPECT(lpt_end_new_sized(&end, &config, many, 17) == LPT_E_MEMORIES);
    EXPECT(lpt_end_new_sized(&end, &config, &one, 1) == LPT_E_MEMORIES);
    one.len = 4294967296u;
    EXPECT(lpt_end_new_sized(&end, &config, &one, 1) == LPT_E_MEMORIES);
    many[15].id = 0;
    EXPECT(lpt_end_new_sized(&end, &config, many, 16) == LPT_E_MEMORIES);
    EXPECT(end == NULL);
    many[15].id = 15;
    EXPECT(lpt_end_new_sized(&end, &config, many, 16) == LPT_DONE);
    lpt_end_free(end);
    end = NULL;

    EXPECT(lpt_end_state(here, state, sizeof state, &len) == LPT_DONE);
    EXPECT(lpt_end_state(there, other, sizeof other, &other_len) == LPT_DONE);
    EXPECT(len == other_len && memcmp(state, other, len) == 0);
    bad = config;
    bad.mode = 2;
    EXPECT(lpt_end_resume_sized(&end, &bad, state, len, sizes, 2) == LPT_E_RANGE);
    EXPECT(lpt_end_resume_sized(&end, &config, state, len, sizes, 0) == LPT_E_MEMORIES);
    EXPECT(lpt_end_resume_sized(&end, &config, state, 3, sizes, 2) == LPT_E_STATE_SHORT);
    EXPECT(end == NULL);
    EXPECT(lpt_end_resume_sized(&end, &config, state, len, sizes, 2) == LPT_DONE);
    EXPECT(lpt_end_memory(end, 1, copy, sizeof copy, &len) == LPT_E_ELSEWHERE);
    lpt_end_free(end);
}

/* An end is made again with the same memories, told in the other order: each has what it had. */
static void other_order(LptEnd *here) {
    static const LptMemory told[] = {{9, SIZE, OTHER}, {1, 0, SIZE}};
    static const LptMemory twice[] = {{9, 0, 1}, {9, 0, 1}};
    uint8_t state[512];
    LptEnd *end = NULL;
    size_t at, len = 0, state_len = 0;
    EXPECT(lpt_end_state(here, state, sizeof state, &state_len) == LPT_DONE);
    EXPECT(lpt_end_memory(here, 1, content, SIZE, &len) == LPT_DONE && len == SIZE);
    EXPECT(lpt_end_memory(here, 9, content + SIZE, OTHER, &len) == LPT_DONE && len == OTHER);
    EXPECT(lpt_end_resume(&end, LPT_SIDE_SPACECRAFT, &config, state, state_len, twice, 2, content,
                          sizeof content) == LPT_E_MEMORIES);
    EXPECT(lpt_end_resume(&end, LPT_SIDE_SPACECRAFT, &config, state, state_len, told, 2, content,
                          sizeof content) == LPT_DONE);
    for (at = 0; at < 2; at++) {
        EXPECT(lpt_end_memory(end, told[at].id, copy, sizeof copy, &len) == LPT_DONE);
        EXPECT(len == told[at].len && memcmp(copy, content + told[at].at, len) == 0);
    }
    lpt_end_free(end);
}

int main(void) {
    LptEnd *ground = NULL, *here = NULL, *there = NULL;
    size_t at;
    for (at = 0; at < sizeof content; at++) {
        content[at] = (uint8_t)(at * 7 + 1);
    }
    memcpy(arrays, content, sizeof arrays);
    EXPECT(lpt_end_new(&ground, LPT_SIDE_GROUND, &config, NULL, 0, NULL, 0) == LPT_DONE);
    EXPECT(lpt_end_new(&here, LPT_SIDE_SPACECRAFT, &config, memories, 2, content, sizeof content) ==
           LPT_DONE);
    EXPECT(lpt_end_new_sized(&there, &config, sizes, 2) == LPT_DONE);
    same_packets(ground, here, there);
    makings(here, there);
    faults(ground, here, there);
    other_order(here);
    lpt_end_free(ground);
    lpt_end_free(here);
    lpt_end_free(there);
    printf("%u passed, %u failed\n", passed, failed);
    return failed != 0;
}
