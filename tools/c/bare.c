/*
 * Calls the functions of lpt.h and lpt_end.h with null pointers where a length is 0, and with
 * buffers, numbers and structures that have no value yet where a call only writes through them.
 *
 * It prints how many cases passed and failed. tests/c compiles it with the sanitizers of undefined
 * behaviour, and runs it under valgrind too, where that is on the path: what depends on octets
 * without a value is told.
 */
#include "lpt_end.h"

#include <stdio.h>
#include <stdlib.h>
#include <string.h>

static unsigned passed, failed;

static void look(int is_right, int line, const char *what) {
    if (is_right) {
        passed++;
        return;
    }
    failed++;
    printf("bare.c:%d: %s\n", line, what);
}

#define EXPECT(what) look((what), __LINE__, #what)
/* The sum of octets: valgrind tells where it is compared and one of them has no value. */
static size_t sum(const uint8_t *octets, size_t len) {
    size_t at, found = 0;
    for (at = 0; at < len; at++) {
        found += octets[at];
    }
    return found;
}

/* A call that asks for the size with no buffer, and then fills one that has no value. */
#define WRITES(CALL, LENGTH)                                                                       \
    do {                                                                                           \
        size_t needed, out_len = 0;                                                                \
        uint8_t *out = NULL;                                                                       \
        EXPECT((CALL) == LPT_E_ROOM && needed == (LENGTH));                                        \
        out_len = needed;                                                                          \
        out = (uint8_t *)malloc(out_len);                                                          \
        if (out == NULL)                                                                           \
            abort();                                                                               \
        EXPECT((CALL) == LPT_DONE && needed == (LENGTH));                                          \
        EXPECT(sum(out, out_len) < 255 * out_len);                                                 \
        free(out);                                                                                 \
    } while (0)

static const uint8_t OCTETS[20] = {1, 2, 3, 4, 5, 6, 7, 8, 9, 10, 11, 12, 13, 14, 15, 16, 17, 18};
static const LptName NAME = {1, 7};

/* The codecs. */
static void codecs(void) {
    LptTcHead tc = {100, 0, 9, 6, 2, 1};
    LptTmHead tm = {100, 0, 0, 1, 1, 0, 1, 0};
    LptRange place = {16, 4};
    uint8_t packet[64], body[64];
    size_t needed, length, size;
    uint32_t kind, id;
    LptPacket read;
    LptTc command;
    LptTm told;
    LptPart part;
    LptAbort aborted;
    LptReport report;
    LptDumped dumped;
    LptChecked checked;

    EXPECT(lpt_crc16(NULL, 0) == 0xffff);
    EXPECT(lpt_crc16_more(0x29b1, NULL, 0) == 0x29b1);
    EXPECT(lpt_packet_length(NULL, 0, &length) == LPT_E_MORE);
    EXPECT(lpt_find_piece(NULL, 0, 1, 1, &kind, &size) != LPT_DONE);
    EXPECT(lpt_count_strays(NULL, 0, 1, NULL, 0) == 0);
    EXPECT(lpt_read_packet(NULL, 0, &read) == LPT_E_SHORT);
    EXPECT(lpt_read_tc(NULL, 0, &command) == LPT_E_SHORT);
    EXPECT(lpt_read_tm(NULL, 0, &told) == LPT_E_SHORT);
    EXPECT(lpt_read_part(LPT_PART_LAST, NULL, 0, 8, &part) == LPT_E_SHORT_PART);
    EXPECT(lpt_read_abort(NULL, 0, &aborted) == LPT_E_ABORT_BODY);
    EXPECT(lpt_read_report(1, NULL, 0, &report) == LPT_E_NO_REPORT);
    EXPECT(lpt_read_dump(NULL, 0, 0, &dumped) == LPT_E_NO_REPORT);
    EXPECT(lpt_read_check(NULL, 0, 0, &checked) == LPT_E_NO_REPORT);
    EXPECT(lpt_write_load(1, 0, NULL, 0, packet, sizeof packet, &needed) == LPT_E_BAD_AREA);
    EXPECT(lpt_write_dump(1, NULL, 0, packet, sizeof packet, &needed) == LPT_E_BAD_AREA);
    EXPECT(lpt_slice_part(NULL, 0, 8, 7, 1, &kind, packet, sizeof packet, &needed) ==
           LPT_E_SHORT_MESSAGE);
    WRITES(lpt_write_packet(LPT_PACKET_TM, 100, 0, OCTETS, 9, out, out_len, &needed), 17u);
    WRITES(lpt_write_tc(&tc, NULL, 0, out, out_len, &needed), 13u);
    WRITES(lpt_write_tm(&tm, NULL, 0, out, out_len, &needed), 19u);
    WRITES(lpt_slice_part(OCTETS, 20, 8, 7, 3, &kind, out, out_len, &needed), 8u);
    WRITES(lpt_write_part(LPT_PART_LAST, 7, 3, OCTETS, 4, 8, out, out_len, &needed), 8u);
    WRITES(lpt_write_abort(7, LPT_REASON_CONFLICT, out, out_len, &needed), 3u);
    WRITES(lpt_write_report(1, 1, 0, out, out_len, &needed), 4u);
    WRITES(lpt_write_load(1, 0, OCTETS, 8, out, out_len, &needed), 18u);
    WRITES(lpt_write_dump(1, &place, 1, out, out_len, &needed), 8u);
    WRITES(lpt_write_check(1, &place, 1, out, out_len, &needed), 8u);
    EXPECT(lpt_request_id(&tc, &id) == LPT_DONE && id == 0x1864c000);
    EXPECT(lpt_write_load(1, 0, OCTETS, 8, body, sizeof body, &needed) == LPT_DONE);
    EXPECT(lpt_write_tc(&tc, body, needed, packet, sizeof packet, &needed) == LPT_DONE);
    EXPECT(lpt_packet_length(packet, needed, &length) == LPT_DONE && length == needed);
    EXPECT(lpt_find_piece(packet, needed, 1, 1, &kind, &size) == LPT_DONE && size == needed);
    EXPECT(kind == LPT_PIECE_WHOLE);
    EXPECT(lpt_read_packet(packet, needed, &read) == LPT_DONE && read.apid == 100);
    EXPECT(lpt_read_tc(packet, needed, &command) == LPT_DONE && command.len == 18);
    EXPECT(lpt_write_tm(&tm, OCTETS, 4, packet, sizeof packet, &needed) == LPT_DONE);
    EXPECT(lpt_read_tm(packet, needed, &told) == LPT_DONE && told.len == 4);
    EXPECT(lpt_read_report(1, OCTETS, 4, &report) == LPT_DONE && report.request == 0x01020304);
    WRITES(lpt_build_packet(LPT_PACKET_TM, 100, 0, 0, out, out_len, &needed), 8u);
    WRITES(lpt_build_tc(&tc, 0, out, out_len, &needed), 13u);
    WRITES(lpt_build_tm(&tm, 0, out, out_len, &needed), 19u);
    EXPECT(lpt_build_part(LPT_PART_LAST, 7, 3, 4, 8, NULL, 0, &needed) == LPT_E_ROOM && needed == 8);
}

/* The ends of a link. */
static void ends(void) {
    LptConfig config = {100, 8, 10, 2, 2, 0, LPT_MODE_ANY};
    LptMemory memory = {1, 0, sizeof OCTETS};
    LptEnd *ground = NULL, *craft = NULL;
    uint8_t packet[64], state[256];
    size_t needed;
    uint32_t fault;
    LptOutcome outcome;
    LptApplied applied;
    LptView view;
    LptReception reception;
    LptSender sender;
    uint16_t number;
    LptArea area;

    EXPECT(lpt_end_new(&ground, LPT_SIDE_GROUND, &config, NULL, 0, NULL, 0) == LPT_DONE);
    EXPECT(lpt_end_new(&craft, LPT_SIDE_SPACECRAFT, &config, NULL, 0, NULL, 0) == LPT_E_MEMORIES);
    EXPECT(lpt_end_new(&craft, LPT_SIDE_SPACECRAFT, &config, &memory, 1, OCTETS, sizeof OCTETS) ==
           LPT_DONE);
    EXPECT(lpt_end_open(ground, &NAME, NULL, 0) == LPT_E_SHORT_MESSAGE);
    EXPECT(lpt_end_packet(craft, NULL, 0, &outcome) == LPT_DONE);
    EXPECT(outcome.kind == LPT_OUTCOME_IGNORED && outcome.first == LPT_WHY_UNREADABLE);
    EXPECT(lpt_end_plain(ground, 1, 9, 17, 1, NULL, 0) == LPT_DONE);
    EXPECT(lpt_end_outgoing(ground, NULL, 0, &needed) == LPT_E_ROOM && needed == 13);
    EXPECT(lpt_end_outgoing(ground, packet, sizeof packet, &needed) == LPT_DONE);
    EXPECT(lpt_end_sent(ground) == LPT_DONE);
    EXPECT(lpt_end_packet(craft, packet, needed, &outcome) == LPT_DONE);
    EXPECT(outcome.kind == LPT_OUTCOME_PLAIN_RELEASED && outcome.first == 13);
    EXPECT(lpt_end_released(craft, NULL, 0, &needed) == LPT_E_ROOM && needed == 13);
    EXPECT(lpt_end_asked_area(craft, 0, &area) == LPT_E_NOTHING);
    EXPECT(lpt_end_read(craft) == LPT_DONE);
    EXPECT(lpt_end_execute(craft, &applied) == LPT_DONE && applied.kind == LPT_APPLIED_REFUSED);
    EXPECT(lpt_end_view(craft, &view) == LPT_DONE && view.requests == 0 && view.outgoing != 0);
    EXPECT(lpt_end_memory(craft, 1, NULL, 0, &needed) == LPT_E_ROOM && needed == sizeof OCTETS);
    EXPECT(lpt_end_memory(craft, 1, packet, sizeof packet, &needed) == LPT_DONE && packet[1] == 2);
    EXPECT(lpt_end_open(ground, &NAME, OCTETS, 9) == LPT_DONE);
    EXPECT(lpt_end_sender(ground, 0, &sender) == LPT_DONE && sender.parts == 2);
    EXPECT(lpt_end_part(ground, &NAME, 2) == LPT_DONE);
    EXPECT(lpt_end_outgoing(ground, packet, sizeof packet, &needed) == LPT_DONE);
    EXPECT(lpt_end_packet(craft, packet, needed, &outcome) == LPT_DONE);
    EXPECT(lpt_end_reception(craft, 0, &reception) == LPT_DONE && reception.last == 2);
    EXPECT(lpt_end_missing(craft, &NAME, 0, &number) == LPT_DONE && number == 1);
    EXPECT(lpt_end_give_up(craft, &NAME) == LPT_DONE && lpt_end_rebase(craft, 0) == LPT_DONE);
    EXPECT(lpt_end_memory_range(craft, 1, sizeof OCTETS, NULL, 0) == LPT_DONE);
    EXPECT(lpt_end_memory_range(craft, 1, 1, packet, 2) == LPT_DONE && packet[1] == 3);
    EXPECT(lpt_end_state(ground, NULL, 0, &needed) == LPT_E_ROOM && needed <= sizeof state);
    EXPECT(lpt_end_state(ground, state, sizeof state, &needed) == LPT_DONE);
    lpt_end_free(ground);
    fault = lpt_end_resume(&ground, LPT_SIDE_GROUND, &config, NULL, 0, NULL, 0, NULL, 0);
    EXPECT(fault == LPT_E_STATE_SHORT);
    fault = lpt_end_resume(&ground, LPT_SIDE_GROUND, &config, state, needed, NULL, 0, NULL, 0);
    EXPECT(fault == LPT_DONE);
    lpt_end_free(ground);
    lpt_end_free(craft);
}

/* A spacecraft whose memories are with the program. */
static void elsewhere(void) {
    static const LptConfig config = {100, 64, 10, 4, 4, 0, LPT_MODE_ANY};
    static const LptSize size = {1, 4};
    LptEnd *ground = NULL, *craft = NULL;
    uint8_t body[64], packet[87];
    size_t needed;
    LptOutcome outcome;
    LptAccess access;
    LptApplied applied;
    EXPECT(lpt_end_new_sized(&craft, &config, NULL, 0) == LPT_E_MEMORIES);
    EXPECT(lpt_end_new_sized(&craft, &config, &size, 1) == LPT_DONE);
    EXPECT(lpt_end_new(&ground, LPT_SIDE_GROUND, &config, NULL, 0, NULL, 0) == LPT_DONE);
    EXPECT(lpt_write_load(1, 0, OCTETS, 4, body, sizeof body, &needed) == LPT_DONE);
    EXPECT(lpt_end_plain(ground, 1, 0, 6, 2, body, needed) == LPT_DONE);
    EXPECT(lpt_end_outgoing(ground, packet, sizeof packet, &needed) == LPT_DONE);
    EXPECT(lpt_end_packet(craft, packet, needed, &outcome) == LPT_DONE);
    EXPECT(lpt_end_packet(craft, packet, needed, &outcome) == LPT_DONE);
    EXPECT(lpt_end_packet(craft, packet, needed, &outcome) == LPT_DONE);
    EXPECT(lpt_end_read(craft) == LPT_DONE && lpt_end_read(craft) == LPT_DONE);
    EXPECT(lpt_end_read(craft) == LPT_DONE);
    EXPECT(lpt_end_access(craft, 0, &access) == LPT_DONE && access.write == 1 && access.len == 4);
    EXPECT(lpt_end_access_octets(craft, 0, NULL, 0, &needed) == LPT_E_ROOM && needed == 4);
    EXPECT(lpt_end_access_octets(craft, 0, body, sizeof body, &needed) == LPT_DONE);
    EXPECT(memcmp(body, OCTETS, needed) == 0);
    EXPECT(lpt_end_execute_given(craft, NULL, 0, &applied) == LPT_DONE);
    EXPECT(applied.kind == LPT_APPLIED_CARRIED_OUT && lpt_end_drop_read(craft) == LPT_DONE);
    EXPECT(lpt_end_refuse(craft, LPT_FAILURE_OUT_OF_RANGE, &applied) == LPT_DONE);
    EXPECT(applied.kind == LPT_APPLIED_REFUSED);
    EXPECT(lpt_end_state(craft, packet, sizeof packet, &needed) == LPT_DONE);
    lpt_end_free(craft);
    EXPECT(lpt_end_resume_sized(&craft, &config, NULL, 0, &size, 1) == LPT_E_STATE_SHORT);
    EXPECT(lpt_end_resume_sized(&craft, &config, packet, needed, &size, 1) == LPT_DONE);
    lpt_end_free(craft);
    lpt_end_free(ground);
}

int main(void) {
    codecs();
    ends();
    elsewhere();
    printf("%u passed, %u failed\n", passed, failed);
    return failed != 0;
}
