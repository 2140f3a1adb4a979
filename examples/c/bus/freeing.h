/*
 * Frees names so that they can be used again. The link may lose, repeat, delay and reorder whatever
 * goes over it, also the two lines of this protocol.
 *
 * A name has a turn at each end: how often it was freed there. It only grows, and is saved with the
 * state of the end, in the same write. Each packet of a part goes with its name and the turn of its
 * sender, and the receiver hands it to its end only if that is its own turn too. Then:
 *
 *   1. The sender has saved its message's opening, and closed the message. If a report of an
 *      abortion or a restart closed it, that is saved too. The sender says FINISHED, with its turn,
 *      again and again, until FREED comes.
 *   2. The receiver, at that turn, frees the name and goes on to the next turn. It saves both in
 *      one write, and only then answers FREED with the turn that FINISHED had. To a FINISHED of an
 *      earlier turn it answers the same, because its first answer may be lost, and frees nothing.
 *   3. The sender, at the turn of the answer, frees the name and goes on to the next turn. It saves
 *      both before it sends a part of the next message, in the write that has that message's
 *      opening.
 *
 * Why a turn? Without it a late FINISHED would free the name while the next message uses it. Parts
 * of that message that come again would then be joined to a message that is released twice, and a
 * late part of the former message would be joined to the next one.
 *
 * It is proved that two nodes which follow these three steps, whatever the link does and whenever
 * they are killed, free names in the order of docs/C.md, and keep the promise:
 * lines_free_through_resets, in crates/lpt_apart.
 */
#ifndef BUS_FREEING_H
#define BUS_FREEING_H

#include "lpt_end.h"

enum { FREEING_NAMES = 64 };

/* The turn of a name in a direction. One that isn't listed has turn 0. */
typedef struct Turn {
    LptName name;
    uint32_t direction;
    uint32_t turn;
} Turn;

/* The turns of an end's names. It is saved with the end's state, and is all zeros for a new end. */
typedef struct Freeing {
    Turn of[FREEING_NAMES];
    uint32_t len;
} Freeing;

/* The turn of a name at this end. */
uint32_t freeing_turn(const Freeing *it, uint32_t direction, const LptName *name);

/* Takes a FINISHED for a name that this end receives. Returns whether to answer FREED, with the
   same turn, once this and the end's state are saved: not while a reception of the name is open, and
   never if FREEING_NAMES other names, of both directions together, have turns: then raise it. */
bool freeing_finished(Freeing *it, LptEnd *end, uint32_t direction, const LptName *name,
                      uint32_t turn);

/* Takes a FREED for a name that this end sends. Returns whether the name is free now. */
bool freeing_freed(Freeing *it, LptEnd *end, uint32_t direction, const LptName *name,
                   uint32_t turn);

#endif
