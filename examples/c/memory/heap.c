/*
 * The three functions by which the library takes memory, over malloc.
 *
 *   cc -Iinclude program.c examples/c/memory/heap.c build/liblpt_end.a build/liblpt.a
 */
#include "lpt_end.h"

#include <stdlib.h>

/* Even if there is no memory, the address isn't null. */
static LptTried tried(void *at) {
    static char nowhere;
    LptTried it;
    it.ok = at != NULL;
    it.at = at != NULL ? at : &nowhere;
    return it;
}

LptTried rattle_alloc(size_t n, size_t align) {
    (void)align;
    return tried(malloc(n > 0 ? n : 1));
}

LptTried rattle_realloc(void *block, size_t kept, size_t n, size_t align) {
    (void)kept;
    (void)align;
    return tried(realloc(block, n > 0 ? n : 1));
}

void rattle_dealloc(void *block) {
    free(block);
}
