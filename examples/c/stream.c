/*
 * A message of 20 octets goes up in three parts, with an idle packet and a telecommand of another
 * service between them, as one stream of octets. On its way the second part was damaged, and a
 * stray octet came between two packets. The reader cuts the stream into pieces, prints which are
 * damaged, skips what is no part, and reads the parts.
 *
 * This is right for a recording. On a link, give an end only the packets in front of the first
 * damage: a message may contain packets, so behind damage you may find one that nobody sent.
 *
 *   cc -Iinclude examples/c/stream.c build/liblpt.a -o stream && ./stream
 */
#include "lpt.h"

#include <stdio.h>

enum { PART_SIZE = 8, MESSAGE = 20, STREAM = 200, TRANSFER = 13, TEST = 17 };

/* Puts part k of a message at the end of a stream, as a telecommand. Returns the stream's new
   length. */
static size_t send_part(uint8_t *stream, size_t len, const uint8_t *message, uint16_t k) {
    uint8_t body[4 + PART_SIZE] = {0};
    uint32_t kind = 0;
    size_t body_len = 0, needed = 0;
    LptTcHead head = {100, 0, 0, TRANSFER, 0, 1};
    if (lpt_slice_part(message, MESSAGE, PART_SIZE, 7, k, &kind, body, sizeof body, &body_len) !=
        LPT_DONE) {
        return len;
    }
    head.count = (uint16_t)(k - 1);
    head.subtype = (uint8_t)(8 + kind);
    if (lpt_write_tc(&head, body, body_len, stream + len, STREAM - len, &needed) != LPT_DONE) {
        return len;
    }
    return len + needed;
}

/* Puts a telecommand of another service, without a body, at the end of a stream. Returns the
   stream's new length. */
static size_t send_other(uint8_t *stream, size_t len, const uint8_t *message) {
    static const LptTcHead head = {100, 3, 0, TEST, 1, 1};
    size_t needed = 0;
    if (lpt_write_tc(&head, message, 0, stream + len, STREAM - len, &needed) != LPT_DONE) {
        return len;
    }
    return len + needed;
}

/* Reads a packet that came, and prints what it is. */
static void receive(const uint8_t *octets, size_t len) {
    LptTc tc = {{0, 0, 0, 0, 0, 0}, 0, 0};
    LptPart part = {0, 0, 0, 0, 0};
    uint32_t kind = LPT_PART_NONE, fault = lpt_read_tc(octets, len, &tc);
    if (fault == LPT_E_IDLE) {
        printf("idle: %u octets\n", (unsigned)len);
        return;
    }
    if (fault == LPT_DONE) {
        kind = lpt_part_kind(LPT_PACKET_TC, tc.head.service, tc.head.subtype);
    }
    if (fault == LPT_DONE && kind == LPT_PART_NONE) {
        printf("service %u: no part\n", tc.head.service);
        return;
    }
    if (fault == LPT_DONE) {
        fault = lpt_read_part(kind, octets + tc.at, tc.len, PART_SIZE, &part);
    }
    if (fault != LPT_DONE) {
        printf("fault %u\n", (unsigned)fault);
        return;
    }
    printf("part %u of %u: %u octets\n", part.number, part.id, (unsigned)part.len);
}

int main(void) {
    static const uint8_t idle[] = {0x07, 0xff, 0xc0, 0x00, 0x00, 0x01, 0x00, 0x00};
    uint8_t message[MESSAGE] = {0}, stream[STREAM] = {0};
    size_t len = 0, at = 0, size = 0, k;
    uint32_t in_step = 1, kind = 0;
    for (k = 0; k < MESSAGE; k++) {
        message[k] = (uint8_t)k;
    }
    printf("%u parts\n", (unsigned)lpt_part_count(MESSAGE, PART_SIZE));
    len = send_part(stream, len, message, 1);
    for (k = 0; k < sizeof idle; k++) {
        stream[len++] = idle[k];
    }
    len = send_part(stream, len, message, 2);
    stream[len - 1] ^= 1;
    len = send_other(stream, len, message);
    stream[len++] = 0xff;
    len = send_part(stream, len, message, 3);

    while (lpt_find_piece(stream + at, len - at, in_step, 1, &kind, &size) == LPT_DONE) {
        if (kind == LPT_PIECE_WHOLE) {
            receive(stream + at, size);
        } else {
            printf("octet %u: %u that %s\n", (unsigned)at, (unsigned)size,
                   kind == LPT_PIECE_DAMAGED ? "are no packet, but as long as one" : "is none");
        }
        in_step = kind != LPT_PIECE_STRAY;
        at += size;
    }
    return 0;
}
