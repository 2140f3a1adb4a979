/* The work of some calls of lpt.h and lpt_end.h, as a C programmer writes it: the checksum eight
   octets at a time, a table of receptions, a bit for each part that was kept. */
#include "plain.h"

#include <stdlib.h>
#include <string.h>

enum { KEPT = 1, AGAIN = 2, RELEASED = 3, BROKEN = 7, IGNORED = 8 };
enum { RECEPTIONS = 4, NAMES = 65536, PARTS = 16386 };

static uint16_t table[8][256];

void plain_begin(void) {
    unsigned i, k;
    for (i = 0; i < 256; i++) {
        uint16_t r = (uint16_t)(i << 8);
        for (k = 0; k < 8; k++) {
            r = (uint16_t)(r & 0x8000 ? (r << 1) ^ 0x1021 : r << 1);
        }
        table[0][i] = r;
    }
    for (k = 1; k < 8; k++) {
        for (i = 0; i < 256; i++) {
            table[k][i] = (uint16_t)((table[k - 1][i] << 8) ^ table[0][table[k - 1][i] >> 8]);
        }
    }
}

uint16_t plain_crc16(const uint8_t *b, size_t len) {
    uint16_t r = 0xffff;
    for (; len >= 8; len -= 8, b += 8) {
        r = (uint16_t)(table[7][b[0] ^ (r >> 8)] ^ table[6][b[1] ^ (r & 255)] ^ table[5][b[2]] ^
                       table[4][b[3]] ^ table[3][b[4]] ^ table[2][b[5]] ^ table[1][b[6]] ^
                       table[0][b[7]]);
    }
    while (len--) {
        r = (uint16_t)((r << 8) ^ table[0][(r >> 8) ^ *b++]);
    }
    return r;
}

uint32_t plain_read_packet(const uint8_t *b, size_t len, LptPacket *out) {
    if (len < 7) {
        return LPT_E_SHORT;
    }
    if (b[0] >> 5) {
        return LPT_E_VERSION;
    }
    if (len != 7 + (size_t)((b[4] << 8) | b[5])) {
        return LPT_E_LENGTH;
    }
    if ((b[0] & 7) == 7 && b[1] == 255) {
        return LPT_E_IDLE;
    }
    if (b[2] >> 6 != 3) {
        return LPT_E_SEGMENTED;
    }
    if (!(b[0] & 8)) {
        return LPT_E_NO_SECONDARY;
    }
    if (len < 8 || plain_crc16(b, len - 2) != ((b[len - 2] << 8) | b[len - 1])) {
        return LPT_E_CHECKSUM;
    }
    out->kind = (b[0] >> 4) & 1;
    out->apid = (uint16_t)(((b[0] & 7) << 8) | b[1]);
    out->count = (uint16_t)(((b[2] & 0x3f) << 8) | b[3]);
    out->at = 6;
    out->len = len - 8;
    return LPT_DONE;
}

uint32_t plain_write_packet(uint32_t kind, uint16_t apid, uint16_t count, const uint8_t *field,
                            size_t field_len, uint8_t *out, size_t out_len, size_t *needed) {
    uint16_t sum;
    if (kind > 1 || apid > 2046 || count > 16383) {
        return LPT_E_RANGE;
    }
    if (field_len > 65534) {
        return LPT_E_TOO_LONG;
    }
    *needed = field_len + 8;
    if (out_len < field_len + 8) {
        return LPT_E_ROOM;
    }
    out[0] = (uint8_t)((kind << 4) | 8 | (apid >> 8));
    out[1] = (uint8_t)apid;
    out[2] = (uint8_t)(0xc0 | (count >> 8));
    out[3] = (uint8_t)count;
    out[4] = (uint8_t)((field_len + 1) >> 8);
    out[5] = (uint8_t)(field_len + 1);
    memcpy(out + 6, field, field_len);
    sum = plain_crc16(out, field_len + 6);
    out[field_len + 6] = (uint8_t)(sum >> 8);
    out[field_len + 7] = (uint8_t)sum;
    return LPT_DONE;
}

typedef struct {
    int is_open;
    uint16_t id;
    uint32_t parts;  /* 0 as long as the last isn't there */
    uint32_t kept;   /* how many */
    uint32_t number; /* the greatest */
    size_t len;      /* known with the last */
    uint8_t *octets;
    size_t room;
    uint8_t seen[PARTS / 8 + 1];
} Reception;

struct PlainEnd {
    uint16_t apid;
    uint32_t p;
    uint8_t is_closed[NAMES / 8];
    Reception receptions[RECEPTIONS];
    uint8_t *released;
    size_t released_len;
};

PlainEnd *plain_end_new(uint16_t apid, uint32_t p) {
    PlainEnd *end = calloc(1, sizeof *end);
    if (end) {
        end->apid = apid;
        end->p = p;
    }
    return end;
}

void plain_end_free(PlainEnd *end) {
    unsigned i;
    for (i = 0; i < RECEPTIONS; i++) {
        free(end->receptions[i].octets);
    }
    free(end->released);
    free(end);
}

void plain_end_retire(PlainEnd *end, uint16_t id) {
    end->is_closed[id / 8] &= (uint8_t) ~(1u << (id % 8));
}

const uint8_t *plain_end_released(const PlainEnd *end, size_t *len) {
    *len = end->released_len;
    return end->released;
}

static Reception *find(PlainEnd *end, uint16_t id) {
    Reception *unused = NULL;
    unsigned i;
    for (i = 0; i < RECEPTIONS; i++) {
        Reception *it = &end->receptions[i];
        if (it->is_open && it->id == id) {
            return it;
        }
        if (!it->is_open && !unused) {
            unused = it;
        }
    }
    if (unused) {
        memset(unused, 0, sizeof *unused);
        unused->is_open = 1;
        unused->id = id;
    }
    return unused;
}

static void close_it(PlainEnd *end, Reception *it) {
    end->is_closed[it->id / 8] |= (uint8_t)(1u << (it->id % 8));
    it->is_open = 0;
}

static uint32_t broken(PlainEnd *end, Reception *it) {
    close_it(end, it);
    free(it->octets);
    it->octets = NULL;
    return BROKEN;
}

/* A part of n octets. */
static uint32_t keep(PlainEnd *end, Reception *it, uint32_t number, int is_last, const uint8_t *b,
                     size_t n) {
    size_t from = (size_t)(number - 1) * end->p;
    if (it->seen[number / 8] & (1u << (number % 8))) {
        int same = it->parts == number ? is_last && from + n == it->len : !is_last;
        return same && memcmp(it->octets + from, b, n) == 0 ? AGAIN : broken(end, it);
    }
    if (it->parts ? is_last || number > it->parts : is_last && number < it->number) {
        return broken(end, it);
    }
    if (from + n > it->room) {
        size_t room = it->room ? it->room : 64;
        uint8_t *more;
        while (room < from + n) {
            room *= 2;
        }
        more = realloc(it->octets, room);
        if (!more) {
            return 0;
        }
        it->octets = more;
        it->room = room;
    }
    memcpy(it->octets + from, b, n);
    it->seen[number / 8] |= (uint8_t)(1u << (number % 8));
    it->kept++;
    it->number = number > it->number ? number : it->number;
    if (is_last) {
        it->parts = number;
        it->len = from + n;
    }
    if (it->kept != it->parts) {
        return KEPT;
    }
    close_it(end, it);
    end->released = it->octets;
    end->released_len = it->len;
    it->octets = NULL;
    return RELEASED;
}

uint32_t plain_end_packet(PlainEnd *end, const uint8_t *octets, size_t len) {
    LptPacket packet;
    Reception *it;
    const uint8_t *b;
    uint32_t kind, number;
    uint16_t id;
    size_t n;
    free(end->released);
    end->released = NULL;
    if (plain_read_packet(octets, len, &packet) != LPT_DONE || packet.kind != LPT_PACKET_TM ||
        packet.len < 11 || octets[6] >> 4 != 2 || packet.apid != end->apid) {
        return IGNORED;
    }
    b = octets + packet.at + 11;
    n = packet.len - 11;
    kind = octets[8];
    if (octets[7] != 13 || kind < 1 || kind > 3 || n < 5) {
        return IGNORED;
    }
    id = (uint16_t)((b[0] << 8) | b[1]);
    number = (uint32_t)((b[2] << 8) | b[3]);
    n -= 4;
    if (number == 0 || number > PARTS || (kind == LPT_PART_FIRST) != (number == 1) || n > end->p ||
        (kind != LPT_PART_LAST && n != end->p) || (size_t)(number - 1) * end->p + n > 65542) {
        return IGNORED;
    }
    if (end->is_closed[id / 8] & (1u << (id % 8))) {
        return IGNORED;
    }
    it = find(end, id);
    return it ? keep(end, it, number, kind == LPT_PART_LAST, b + 4, n) : IGNORED;
}
