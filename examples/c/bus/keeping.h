/*
 * What outlasts a program: files that are mapped. One of them has two copies, written in turn, of
 * what the program must know at the next start. A copy has a number that grows, in front and
 * behind, and a checksum. A copy that was torn isn't used.
 */
#ifndef BUS_KEEPING_H
#define BUS_KEEPING_H

#include "freeing.h"

#include <stddef.h>

enum { MOST_LOADED = 3000 };

typedef uint8_t State[512];
typedef uint8_t Owed[MOST_LOADED];

/* What is saved: the number of the copy; the turns of names and the end's state; what the last
   executed request writes to the memory, which may not be written whole. */
typedef struct Kept {
    uint64_t count;
    Freeing freeing;
    uint32_t state_len;
    uint32_t address;
    uint32_t owed_len;
    State state;
    Owed owed;
} Kept;

/* Ends the program if something isn't so. */
void must(bool is_so, const char *what);

/* Maps a file of the folder, and returns its octets, which are on the medium. */
uint8_t *mapped(const char *folder, const char *name, size_t len);

/* Maps the copies in a folder. */
uint8_t *mapped_copies(const char *folder);

/* Reads the newer copy of those that are whole. Returns false if none is. */
bool read_kept(const uint8_t *copies, Kept *kept);

/* Writes the next copy in the place of the older one. */
void write_kept(uint8_t *copies, Kept *kept);

/* Copies octets to mapped ones piece by piece, and waits for the medium. */
void write_pieces(uint8_t *to, const uint8_t *octets, size_t len);

/* Returns the CRC-32 of octets, that of IEEE 802.3. */
uint32_t sum_of(const uint8_t *octets, size_t len);

/* For a test. The first sets after how many writes and sends the program kills itself; 0 means
   never. The second counts one. */
void stop_at(unsigned at);
void pass_place(void);

#endif
