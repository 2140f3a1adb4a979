/*
 * A program with no C library at all: beside the pool it has just the functions that docs/C.md says the archives
 * need. It sends a message in parts from one end to another, and ends with status 0 if it was released.
 */
#include "lpt.h"
#include "lpt_end.h"

enum { OCTETS = 300, PART = 64 };

void *memcpy(void *to, const void *from, size_t n);
void *memmove(void *to, const void *from, size_t n);
void *memset(void *to, int octet, size_t n);
_Noreturn void _start(void);

void *memmove(void *to, const void *from, size_t n)
{
    volatile uint8_t *put = to;
    const volatile uint8_t *got = from;
    size_t at;
    for (at = 0; at < n; at++) {
        size_t next = put <= got ? at : n - 1 - at;
        put[next] = got[next];
    }
    return to;
}

void *memcpy(void *to, const void *from, size_t n)
{
    return memmove(to, from, n);
}

void *memset(void *to, int octet, size_t n)
{
    volatile uint8_t *put = to;
    size_t at;
    for (at = 0; at < n; at++)
        put[at] = (uint8_t)octet;
    return to;
}

/* Whether each part goes over, and the message is released by the last. */
static int carries(LptEnd *ground, LptEnd *craft, const uint8_t *message)
{
    static uint8_t packet[PART + 23], released[OCTETS];
    LptName name = {1, 7};
    LptOutcome outcome = {0, {0, 0}, 0, 0};
    size_t len = 0, at;
    uint16_t k;
    if (lpt_end_open(ground, &name, message, OCTETS) != LPT_DONE)
        return 0;
    for (k = 1; k <= lpt_part_count(OCTETS, PART); k++)
        if (lpt_end_part(ground, &name, k) != LPT_DONE
            || lpt_end_outgoing(ground, packet, sizeof packet, &len) != LPT_DONE
            || lpt_end_packet(craft, packet, len, &outcome) != LPT_DONE || lpt_end_sent(ground) != LPT_DONE)
            return 0;
    if (outcome.kind != LPT_OUTCOME_RELEASED || lpt_end_released(craft, released, OCTETS, &len) != LPT_DONE)
        return 0;
    for (at = 0; at < OCTETS && released[at] == message[at]; at++) {
    }
    return len == OCTETS && at == OCTETS;
}

__attribute__((force_align_arg_pointer)) _Noreturn void _start(void)
{
    static const uint8_t message[OCTETS] = {1, 2, 3};
    static const uint8_t content[16];
    LptMemory memory = {1, 0, sizeof content};
    LptConfig config = {.apid = 100, .part_size = PART, .timeout = 10, .receptions = 4, .outgoing = 4};
    LptEnd *ground = 0, *craft = 0;
    long status = 1;
    if (lpt_end_new(&ground, LPT_SIDE_GROUND, &config, 0, 0, 0, 0) == LPT_DONE
        && lpt_end_new(&craft, LPT_SIDE_SPACECRAFT, &config, &memory, 1, content, sizeof content) == LPT_DONE
        && carries(ground, craft, message))
        status = 0;
    lpt_end_free(ground);
    lpt_end_free(craft);
    for (;;)
        __asm__ volatile("syscall" : : "a"(60L), "D"(status) : "rcx", "r11", "memory");
}
