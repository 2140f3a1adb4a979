#include "freeing.h"

/* Returns the place of a name's turn in the list; `len` if it isn't listed. */
static uint32_t place(const Freeing *it, uint32_t direction, const LptName *name) {
    uint32_t at = 0;
    while (at < it->len &&
           !(it->of[at].direction == direction && it->of[at].name.source == name->source &&
             it->of[at].name.id == name->id)) {
        at++;
    }
    return at;
}

uint32_t freeing_turn(const Freeing *it, uint32_t direction, const LptName *name) {
    const uint32_t at = place(it, direction, name);
    return at < it->len ? it->of[at].turn : 0;
}

/* Frees the name at this end, and goes on to its next turn. Returns whether it could. */
static bool go_on(Freeing *it, LptEnd *end, uint32_t direction, const LptName *name) {
    const uint32_t at = place(it, direction, name);
    if (at == FREEING_NAMES || (at < it->len && it->of[at].turn == UINT32_MAX)) {
        return false; /* there is no room, or no turn */
    }
    if (lpt_end_retire(end, direction, name) != LPT_DONE) {
        return false; /* a reception or a message of the name is open */
    }
    if (at == it->len) {
        it->of[at].name = *name;
        it->of[at].direction = direction;
        it->of[at].turn = 0;
        it->len++;
    }
    it->of[at].turn++;
    return true;
}

bool freeing_finished(Freeing *it, LptEnd *end, uint32_t direction, const LptName *name,
                      uint32_t turn) {
    const uint32_t mine = freeing_turn(it, direction, name);
    if (turn < mine) {
        return true; /* it was freed then, and the answer is lost or on its way */
    }
    return turn == mine && go_on(it, end, direction, name);
}

bool freeing_freed(Freeing *it, LptEnd *end, uint32_t direction, const LptName *name,
                   uint32_t turn) {
    return turn == freeing_turn(it, direction, name) && go_on(it, end, direction, name);
}
