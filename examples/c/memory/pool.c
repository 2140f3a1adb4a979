/*
 * The three functions by which the library takes memory, over a pool of a fixed size, for software
 * that has no heap. They give out the first free block that is long enough, and join free
 * neighbours.
 *
 *   cc -Iinclude -DLPT_POOL=262144 program.c examples/c/memory/pool.c \
 *       build/liblpt_end.a build/liblpt.a
 *
 * The pool has no lock: calls of different ends may not run at the same time.
 */
#include "lpt_end.h"

#include <string.h>

#ifndef LPT_POOL
#define LPT_POOL (256 * 1024)
#endif

/* The head of a block; the octets follow it. A unit has 16 octets, and so has a head. */
typedef struct Head {
    size_t units;
    size_t is_used;
} Head;

enum { UNIT = 16, UNITS = LPT_POOL / UNIT };

_Static_assert(sizeof(Head) == UNIT, "a head has another size");

static _Alignas(UNIT) Head pool[UNITS];

#ifdef LPT_POOL_REFUSES
/* A test sets here whether a request is refused. */
int LPT_POOL_REFUSES(void);
#endif

/* How many octets are given out, with their heads. */
size_t lpt_pool_used(void);

size_t lpt_pool_used(void) {
    size_t at = 0, used = 0;
    while (at < UNITS && pool[at].units > 0) {
        used += pool[at].is_used ? (pool[at].units + 1) * UNIT : 0;
        at += 1 + pool[at].units;
    }
    return used;
}

/* Joins the free neighbours behind a free block with it. */
static void join(size_t at) {
    size_t next = at + 1 + pool[at].units;
    while (next < UNITS && !pool[next].is_used) {
        pool[at].units += 1 + pool[next].units;
        next = at + 1 + pool[at].units;
    }
}

/* Takes the front of a free block that has at least as many units. */
static void *taken(size_t at, size_t units) {
    if (pool[at].units > units + 1) {
        size_t rest = at + 1 + units;
        pool[rest].units = pool[at].units - units - 1;
        pool[rest].is_used = 0;
        pool[at].units = units;
    }
    pool[at].is_used = 1;
    return &pool[at + 1];
}

LptTried rattle_alloc(size_t n, size_t align) {
    LptTried it = {false, pool};
    size_t at = 0, units = n / UNIT + (n % UNIT > 0 || n == 0);
    (void)align;
#ifdef LPT_POOL_REFUSES
    if (LPT_POOL_REFUSES()) {
        return it;
    }
#endif
    if (pool[0].units == 0) {
        pool[0].units = UNITS - 1;
    }
    while (at < UNITS) {
        if (!pool[at].is_used) {
            join(at);
            if (pool[at].units >= units) {
                it.ok = true;
                it.at = taken(at, units);
                return it;
            }
        }
        at += 1 + pool[at].units;
    }
    return it;
}

LptTried rattle_realloc(void *block, size_t kept, size_t n, size_t align) {
    LptTried it = rattle_alloc(n, align);
    if (it.ok) {
        memcpy(it.at, block, kept < n ? kept : n);
        rattle_dealloc(block);
    }
    return it;
}

void rattle_dealloc(void *block) {
    Head *head = (Head *)block - 1;
    head->is_used = 0;
}
