/*
 * What the two programs of this folder share: craft.c is a spacecraft's task on a bus, ground.c its
 * ground. Each has one end, runs in cycles of a millisecond, and may be killed at any place.
 *
 * A cycle takes a bounded number of datagrams, does at most one piece of work, advances the clock
 * by one tick, saves its state in one write, and only then sends. So what is lost by a kill is as
 * if the link had lost it. A cycle makes at most 710 calls of the end: 264 for a request, if it has
 * 255 areas, and the others by the bounds below.
 *
 * Datagrams go over UDP. Each begins with its kind, a name with its direction, and the turn of that
 * name (freeing.h), and ends with a checksum, CRC-32. (The CRC of a packet around the packet would
 * let the same damage pass twice: whatever it lets pass within, it lets pass again.) Some carry
 * packets, and some are the programs' own lines. By ASKS the sender of a message asks what is
 * missing of it; the answer is MISSING, with part numbers, or ENDED. By FINISHED and FREED a name is
 * freed.
 */
#ifndef BUS_BUS_H
#define BUS_BUS_H

#include "keeping.h"

enum { APID = 100, SOURCE = 1, NAMES = 16, PART_SIZE = 256, LONGEST = PART_SIZE + 23 };
enum { MEMORY = 1, SIZE = 16384 };
enum { RECEPTIONS = 8, OUTGOING = 4, TIMEOUT = 300 };

/* The bounds of a cycle: how many datagrams it takes; how many lines, and parts that were asked
   for, it sends; how many parts of each open message; for how many closed names it says FINISHED.
   */
enum { MOST_TAKEN = 8, MOST_LINES = 16, MOST_WANTED = 32, MOST_PARTS = 8, MOST_TOLD = 2 };
/* How many parts are asked for at once, and after how many cycles without an answer a question is
   asked again. */
enum { MOST_MISSING = 16, EACH = 8 };

enum Kind { PACKET = 1, PART, ASKS, MISSING, ENDED, FINISHED, FREED, HOUSEKEEPING };

/* The front of a datagram. */
typedef struct Head {
    uint8_t kind;
    uint8_t direction;
    LptName name;
    uint32_t turn;
} Head;

enum { HEAD = 10, SUM = 4, MOST_OCTETS = HEAD + LONGEST + SUM };

/* A message that is open for sending: how many parts it has, which part is next, and for how many
   cycles nothing was heard of it since the last part was sent. */
typedef struct Sending {
    LptName name;
    uint32_t parts;
    uint32_t next;
    uint32_t quiet;
} Sending;

/* A part that was asked for. */
typedef struct Wanted {
    LptName name;
    uint16_t number;
} Wanted;

/* A program's end, and what belongs to it. */
typedef struct Node {
    LptEnd *end;
    uint32_t sends;    /* the direction in which it sends messages */
    uint32_t receives; /* the other one */
    Kept kept;
    bool has_changed; /* since it was saved */
    uint8_t *copies;  /* two, over a mapped file */
    int link;
    int journal;
    uint32_t cycles;
    /* the open messages, and until the next cycle those that were broken off */
    Sending sendings[2 * OUTGOING];
    uint32_t sendings_len;
    Head lines[MOST_LINES]; /* to be sent once this cycle is saved */
    uint32_t lines_len;
    Wanted wanted[MOST_WANTED];
    uint32_t wanted_len;
    LptName told; /* the closed name for which FINISHED was said last */
} Node;

/* Begins by the words of the command line: FOLDER PORT ITS_PORT STOP. It opens the link from the
   first port to the second, and reads what was saved. Returns false if nothing was. */
bool node_begin(Node *it, uint32_t side, char **words);

/* ---- a cycle ---- */

/* Takes a datagram that came. Returns false if there is none. The outcome's kind is 0 if it was no
   packet for the end. */
bool node_take(Node *it, Head *head, LptOutcome *outcome, uint8_t *packet, size_t *packet_len);

/* Lists a message that was opened, by the program or by the end itself, so that its parts are
   sent. */
void node_opened(Node *it, const LptName *name);

/* Advances the clock by one tick, and ends at most one reception. */
void node_tick(Node *it);

/* Saves the state, if something has changed or is to be sent. */
void node_keep(Node *it);

/* Sends lines, packets that wait, parts that were asked for, parts that weren't sent yet, and lines
   that have to be repeated. */
void node_send(Node *it);

/* Both write a line to the journal, with the number of the copy in which it is saved. The second
   adds a name with its direction and turn, and, if they are given, the octets of a message, and
   more. */
void node_note(Node *it, const char *line);
void node_note_name(Node *it, const char *what, uint32_t direction, const LptName *name,
                    const uint8_t *octets, size_t len, const char *more);

/* Sends a datagram. */
void node_say(Node *it, const Head *head, const uint8_t *octets, size_t len);

/* Waits for the next cycle. Returns false once the program gets SIGTERM. */
bool node_wait(Node *it);

/* Returns whether the program should begin nothing new: it got SIGUSR1, or has to end. */
bool is_over(void);

#endif
