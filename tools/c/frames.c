/*
 * Tries the frames of examples/c/bus: the damage that a packet's own checksum can't see, at each bit
 * of a datagram, is refused by the datagram's. Prints how many places there were, and how many of
 * them the packet's checksum let pass.
 */
#include "bus.c"

/* The polynomial of a packet's checksum: it divides itself, so these four bits change no remainder. */
enum { GENERATOR = 0x11021, GENERATOR_BITS = 17 };

static void flip(uint8_t *octets, size_t at) {
    size_t k;
    for (k = 0; k < GENERATOR_BITS; k++) {
        if ((GENERATOR >> (GENERATOR_BITS - 1 - k) & 1) != 0) {
            octets[(at + k) / 8] ^= (uint8_t)(0x80 >> (at + k) % 8);
        }
    }
}

/* Whether the end would take the packet of a datagram for a whole one. */
static bool is_sound(const uint8_t *all, size_t len) {
    const uint8_t *packet = all + HEAD;
    const size_t octets = len - HEAD - SUM;
    return number(packet + octets - 2, 2) == lpt_crc16(packet, octets - 2);
}

int main(void) {
    static Node from, to;
    uint8_t load[200] = {0}, packet[LONGEST] = {0}, all[MOST_OCTETS + 1] = {0};
    const LptTcHead tc = {.apid = APID, .source = SOURCE, .service = 6, .subtype = 2};
    Head head = {PACKET, LPT_DIRECTION_UP, {SOURCE, 0}, 0};
    size_t len = 0, at, whole = 0, sound = 0, refused = 0, places;
    int pair[2];
    ssize_t got;
    for (at = 0; at < sizeof load; at++) {
        load[at] = (uint8_t)(at * 37);
    }
    must(lpt_write_tc(&tc, load, sizeof load, packet, sizeof packet, &len) == LPT_DONE, "no packet");
    must(socketpair(AF_UNIX, SOCK_DGRAM | SOCK_NONBLOCK, 0, pair) == 0, "no link");
    from.link = pair[0];
    to.link = pair[1];
    node_say(&from, &head, packet, len);
    got = recv(to.link, all, sizeof all, 0);
    must(got == (ssize_t)(HEAD + len + SUM) && is_sound(all, (size_t)got), "another datagram");
    places = 8 * (size_t)got - GENERATOR_BITS + 1;
    for (at = 0; at <= places; at++) {
        uint8_t damaged[MOST_OCTETS] = {0}, heard[MOST_OCTETS] = {0};
        size_t heard_len = 0;
        memcpy(damaged, all, (size_t)got);
        if (at < places) { /* the last one comes as it was sent */
            flip(damaged, at);
        }
        must(send(from.link, damaged, (size_t)got, 0) == got, "not sent");
        must(hear(&to, &head, heard, &heard_len), "nothing came");
        if (at < places) {
            sound += is_sound(damaged, (size_t)got) ? 1 : 0;
            refused += head.kind == 0 && heard_len == 0 ? 1 : 0;
        } else {
            whole += head.kind == PACKET && heard_len == len && memcmp(heard, packet, len) == 0;
        }
    }
    printf("places %zu, sound by the packet's checksum %zu, refused %zu, whole %zu\n", places, sound,
           refused, whole);
    return 0;
}
