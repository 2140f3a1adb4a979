/*
 * A spacecraft whose memory is the program's own, and whose machine may be reset at any place. The
 * memory is a file that is written a few octets at a time, as a flash is. The program executes a
 * request first. Then it saves the state of the end, in one write with the octets that the request
 * still has to write to the memory. Then it writes them, and only then it sends a report. At each
 * start it writes again what it saved last. So each load is in the memory whole or not at all, and
 * is executed once.
 *
 * Ground loads an image in requests that overlap, so that their order shows, and asks for a
 * checksum after each. The spacecraft's process is stopped after each of its writes, to a file or
 * to ground, in a pass of its own, and once more soon after it was started again. At each start the
 * memory is compared with what the executed requests make of it.
 *
 * It saves in a file, in two copies that it writes in turn: a number that grows; how many loads
 * were executed; how long the state is, and the state; how many octets are to be written, where,
 * and the octets; the number again; a checksum. If the two numbers differ, or the checksum is
 * wrong, the copy was torn, and the other one is used.
 *
 *   cc -Iinclude examples/c/redo.c examples/c/memory/heap.c build/liblpt_end.a build/liblpt.a \
 *       -o redo && ./redo
 */
#define _POSIX_C_SOURCE 200809L

#include "lpt_end.h"

#include <fcntl.h>
#include <signal.h>
#include <stdio.h>
#include <stdlib.h>
#include <string.h>
#include <sys/socket.h>
#include <sys/wait.h>
#include <unistd.h>

enum { APID = 100, SOURCE = 1, PART_SIZE = 64, LONGEST = PART_SIZE + 23 };
enum { MEMORY = 1, SIZE = 480, LOADS = 4, STEP = 88, OCTETS = 200 };
enum { STATE_ROOM = 512, COPY_ROOM = 8 + 4 + 4 + STATE_ROOM + 4 + 4 + OCTETS + 8 + 2, SLOT = 4096 };
enum { PIECE = 8, STOPPED = 2 };

static const LptConfig config = {APID, PART_SIZE, 10, 4, 4, 0, LPT_MODE_ANY};
static const LptSize sizes[] = {{MEMORY, SIZE}};

/* What the loads carry, one after the other. */
static uint8_t loads[LOADS][OCTETS];

/* Ends the process if something isn't so. */
static void must(bool is_so, const char *what) {
    if (!is_so) {
        fprintf(stderr, "redo: %s\n", what);
        exit(EXIT_FAILURE);
    }
}

/* The first writes a number, the high octet first, and returns how many octets it has. The second
   reads one. */
static size_t put(uint8_t *to, uint64_t value, size_t octets) {
    size_t i;
    for (i = 0; i < octets; i++) {
        to[i] = (uint8_t)(value >> (8 * (octets - 1 - i)));
    }
    return octets;
}

static uint64_t number(const uint8_t *from, size_t octets) {
    uint64_t value = 0;
    while (octets-- > 0) {
        value = value << 8 | *from++;
    }
    return value;
}

/* ---- what is kept ---- */

typedef uint8_t State[STATE_ROOM];
typedef uint8_t Owed[OCTETS];

/* The number of the copy; how many loads were executed; the end's state; what the request that was
   executed last writes to the memory, which may not be written whole. */
typedef struct Kept {
    uint64_t count;
    uint32_t executed;
    State state;
    size_t state_len;
    uint32_t address;
    Owed owed;
    size_t owed_len;
} Kept;

/* The files: the copies, and the memory. */
typedef struct Files {
    int copies;
    int memory;
} Files;

/* After which write the process stops, counted from 1, and how many there were. */
static unsigned stops_at, writes;

static void count_write(void) {
    if (++writes == stops_at) {
        _exit(STOPPED);
    }
}

/* Writes octets piece by piece, and waits for the disk. */
static void write_all(int file, size_t at, const uint8_t *octets, size_t len) {
    size_t i;
    for (i = 0; i < len; i += PIECE) {
        const size_t size = len - i < PIECE ? len - i : PIECE;
        must(pwrite(file, octets + i, size, (off_t)(at + i)) == (ssize_t)size, "nothing is written");
        count_write();
    }
    must(fsync(file) == 0, "nothing is on the disk");
}

/* Writes the next copy in the place of the older one. */
static void keep(int file, Kept *kept) {
    uint8_t copy[COPY_ROOM] = {0};
    size_t len = 0;
    kept->count++;
    len += put(copy, kept->count, 8);
    len += put(copy + len, kept->executed, 4);
    len += put(copy + len, kept->state_len, 4);
    memcpy(copy + len, kept->state, kept->state_len);
    len += kept->state_len;
    len += put(copy + len, kept->address, 4);
    len += put(copy + len, kept->owed_len, 4);
    memcpy(copy + len, kept->owed, kept->owed_len);
    len += kept->owed_len;
    len += put(copy + len, kept->count, 8);
    len += put(copy + len, lpt_crc16(copy, len), 2);
    write_all(file, (size_t)(kept->count % 2) * SLOT, copy, len);
}

/* Reads a copy. Returns false if it was torn, or there is none. */
static bool read_copy(int file, size_t at, Kept *kept) {
    uint8_t copy[COPY_ROOM] = {0};
    size_t len = 16;
    if (pread(file, copy, sizeof copy, (off_t)at) < (ssize_t)len) {
        return false;
    }
    kept->count = number(copy, 8);
    kept->executed = (uint32_t)number(copy + 8, 4);
    kept->state_len = (size_t)number(copy + 12, 4);
    if (kept->state_len > STATE_ROOM) {
        return false;
    }
    memcpy(kept->state, copy + len, kept->state_len);
    len += kept->state_len;
    kept->address = (uint32_t)number(copy + len, 4);
    kept->owed_len = (size_t)number(copy + len + 4, 4);
    len += 8;
    if (kept->owed_len > OCTETS) {
        return false;
    }
    memcpy(kept->owed, copy + len, kept->owed_len);
    len += kept->owed_len;
    return number(copy + len, 8) == kept->count &&
           number(copy + len + 8, 2) == lpt_crc16(copy, len + 8);
}

/* Reads the newer of the copies that are whole. Returns false if none is. */
static bool read_kept(int file, Kept *kept) {
    Kept other = {0, 0, {0}, 0, 0, {0}, 0};
    bool is_one = read_copy(file, 0, kept), is_other = read_copy(file, SLOT, &other);
    if (is_other && (!is_one || other.count > kept->count)) {
        *kept = other;
    }
    return is_one || is_other;
}

/* Writes to the memory what an executed request still has to write there. */
static void settle(int memory, const Kept *kept) {
    write_all(memory, kept->address, kept->owed, kept->owed_len);
}

/* Returns whether the memory is what the executed loads make of zeros, in their order. */
static bool is_exact(int memory, uint32_t executed) {
    uint8_t wanted[SIZE] = {0}, octets[SIZE] = {0};
    uint32_t k;
    for (k = 0; k < executed; k++) {
        memcpy(wanted + (size_t)k * STEP, loads[k], OCTETS);
    }
    return pread(memory, octets, SIZE, 0) == SIZE && memcmp(octets, wanted, SIZE) == 0;
}

/* ---- packets between the processes: two octets say how long one is, 0 that no more come ---- */

static bool pass(int to, const uint8_t *octets, size_t len) {
    uint8_t framed[2 + LONGEST] = {0};
    put(framed, len, 2);
    memcpy(framed + 2, octets, len);
    return write(to, framed, 2 + len) == (ssize_t)(2 + len);
}

static bool read_all(int from, uint8_t *octets, size_t len) {
    while (len > 0) {
        ssize_t got = read(from, octets, len);
        if (got <= 0) {
            return false;
        }
        octets += got;
        len -= (size_t)got;
    }
    return true;
}

static bool take(int from, uint8_t *octets, size_t *len) {
    uint8_t front[2] = {0};
    if (!read_all(from, front, sizeof front)) {
        return false;
    }
    *len = (size_t)number(front, 2);
    return *len <= LONGEST && read_all(from, octets, *len);
}

/* ---- the spacecraft ---- */

/* After a reset: waits until the copies are on the disk, since the last process may have ended
   before; writes again what was saved, and restores the end from its state. */
static void start(LptEnd **end, Files files, Kept *kept) {
    uint32_t fault;
    must(fsync(files.copies) == 0, "nothing is on the disk");
    if (read_kept(files.copies, kept)) {
        settle(files.memory, kept);
        fault = lpt_end_resume_sized(end, &config, kept->state, kept->state_len, sizes, 1);
    } else {
        memset(kept, 0, sizeof *kept);
        fault = lpt_end_new_sized(end, &config, sizes, 1);
    }
    must(fault == LPT_DONE, lpt_fault_name(fault));
    must(is_exact(files.memory, kept->executed), "the memory isn't what was executed");
}

/* Executes the oldest request. Reads what it reads, and copies what it writes, to be saved. */
static void execute(LptEnd *end, Files files, Kept *kept) {
    LptApplied applied = {0, {0, 0}, 0};
    LptAccess access = {0, 0, 0, 0};
    uint8_t octets[SIZE] = {0};
    size_t at, read = 0;
    kept->owed_len = 0;
    for (at = 0; lpt_end_access(end, at, &access) == LPT_DONE; at++) {
        if (access.write) {
            must(at == 0, "a load has two areas"); /* ground sends no such load */
            kept->address = access.address;
            must(lpt_end_access_octets(end, at, kept->owed, OCTETS, &kept->owed_len) == LPT_DONE,
                 "a load is too long");
        } else {
            must(access.len <= SIZE - read && pread(files.memory, octets + read, access.len,
                                                    access.address) == (ssize_t)access.len,
                 "the memory isn't read");
            read += access.len;
        }
    }
    must(lpt_end_execute_given(end, octets, read, &applied) == LPT_DONE, "nothing is executed");
}

/* Takes a packet, and executes the request that it released. Saves the state with what is still to
   be written, and then writes the memory, before anything is sent. Here plain requests are checks,
   which change nothing, so nothing is saved for them. */
static void serve(LptEnd *end, Files files, Kept *kept, const uint8_t *packet, size_t len) {
    LptOutcome outcome = {0, {0, 0}, 0, 0};
    must(lpt_end_packet(end, packet, len, &outcome) == LPT_DONE, "a packet isn't taken");
    while (lpt_end_read(end) == LPT_DONE) {
        execute(end, files, kept);
        if (outcome.kind == LPT_OUTCOME_RELEASED) {
            kept->executed++;
            must(lpt_end_state(end, kept->state, STATE_ROOM, &kept->state_len) == LPT_DONE, "no state");
            keep(files.copies, kept);
            settle(files.memory, kept);
        }
    }
}

/* The spacecraft's process: it takes packets and sends its answers back, until ground is done. */
static void spacecraft(int link, Files files) {
    static Kept kept;
    LptEnd *end = NULL;
    uint8_t packet[LONGEST] = {0};
    size_t len = 0;
    start(&end, files, &kept);
    while (take(link, packet, &len)) {
        serve(end, files, &kept, packet, len);
        while (lpt_end_outgoing(end, packet, sizeof packet, &len) == LPT_DONE) {
            must(pass(link, packet, len) && lpt_end_sent(end) == LPT_DONE, "a report is lost");
            count_write();
        }
        must(pass(link, packet, 0), "ground is gone");
        count_write();
    }
    lpt_end_free(end);
    exit(EXIT_SUCCESS);
}

/* ---- ground ---- */

static LptEnd *ground = NULL;
static pid_t child;
static int to_child = -1;
static unsigned stops, starts; /* in all; in this pass */
static uint32_t seen; /* the checksum that was reported last, or one that is none */

/* Starts the spacecraft's process. The first one of a pass stops after a write, and the second one
   after one of its first writes, also while it writes again what was saved. */
static void launch(Files files, unsigned stop) {
    int both[2];
    must(socketpair(AF_UNIX, SOCK_STREAM, 0, both) == 0, "there is no link");
    starts++;
    child = fork();
    must(child >= 0, "there is no process");
    if (child == 0) {
        close(both[0]);
        lpt_end_free(ground);
        stops_at = starts == 1 ? stop : starts == 2 ? stop % 40 + 1 : 0;
        writes = 0;
        spacecraft(both[1], files);
    }
    close(both[1]);
    to_child = both[0];
}

/* Waits for the end of the process. Returns whether it was stopped. */
static bool was_stopped(void) {
    int status = 0;
    close(to_child);
    must(waitpid(child, &status, 0) == child && WIFEXITED(status), "a process is lost");
    must(WEXITSTATUS(status) == EXIT_SUCCESS || WEXITSTATUS(status) == STOPPED, "a process fails");
    stops += WEXITSTATUS(status) == STOPPED;
    return WEXITSTATUS(status) == STOPPED;
}

/* Takes a packet that came down: notes the checksum of a check's report. */
static void note(const uint8_t *packet, size_t len) {
    LptOutcome outcome = {0, {0, 0}, 0, 0};
    LptTm tm = {{0, 0, 0, 0, 0, 0, 0, 0}, 0, 0};
    must(lpt_end_packet(ground, packet, len, &outcome) == LPT_DONE, "a report isn't taken");
    if (outcome.kind == LPT_OUTCOME_REPORT_NOTED && outcome.first == 6 && outcome.second == 10 &&
        lpt_read_tm(packet, len, &tm) == LPT_DONE && tm.len == 10) {
        seen = (uint32_t)number(packet + tm.at + 8, 2);
    }
}

/* Sends up the packets that wait on ground, and takes the answers. A packet is lost if the
   spacecraft's process stops at it; the process is then started again. */
static void send_up(Files files) {
    uint8_t packet[LONGEST] = {0};
    size_t len = 0;
    while (lpt_end_outgoing(ground, packet, sizeof packet, &len) == LPT_DONE) {
        bool is_there = pass(to_child, packet, len);
        must(lpt_end_sent(ground) == LPT_DONE, "a packet stays");
        while (is_there && (is_there = take(to_child, packet, &len)) && len > 0) {
            note(packet, len);
        }
        if (!is_there) {
            must(was_stopped(), "a process ends");
            launch(files, 0);
        }
    }
}

/* Sends a load: its parts go up until the spacecraft reports its checksum. */
static void load(Files files, uint16_t k) {
    const LptTcHead head = {APID, k, 0, 6, 2, SOURCE};
    const LptName name = {SOURCE, k};
    const LptRange range = {(uint32_t)k * STEP, OCTETS};
    const uint16_t sum = lpt_crc16(loads[k], OCTETS);
    uint8_t body[OCTETS + 10] = {0}, check[8] = {0}, request[sizeof body + 13] = {0};
    size_t len = 0, check_len = 0;
    uint16_t part;
    must(lpt_write_load(MEMORY, range.address, loads[k], OCTETS, body, sizeof body, &len) ==
                 LPT_DONE &&
             lpt_write_check(MEMORY, &range, 1, check, sizeof check, &check_len) == LPT_DONE &&
             lpt_write_tc(&head, body, len, request, sizeof request, &len) == LPT_DONE &&
             lpt_end_open(ground, &name, request, len) == LPT_DONE,
         "a request isn't opened");
    do {
        seen = UINT32_MAX;
        for (part = 1; lpt_end_part(ground, &name, part) == LPT_DONE; part++) {
            send_up(files);
        }
        must(lpt_end_plain(ground, SOURCE, 0, 6, 9, check, check_len) == LPT_DONE, "no check");
        send_up(files);
    } while (seen != sum);
    must(lpt_end_finish(ground, &name) == LPT_DONE, "a request isn't finished");
}

/* Makes an empty file, whose name is removed at once. */
static int file(size_t len) {
    char path[] = "/tmp/redo.XXXXXX";
    int made = mkstemp(path);
    must(made >= 0 && unlink(path) == 0 && ftruncate(made, (off_t)len) == 0, "there is no file");
    return made;
}

/* A pass in which the spacecraft is stopped after this write. Returns whether it was stopped. */
static bool run(unsigned stop) {
    static Kept kept;
    const Files files = {file(0), file(SIZE)};
    bool is_stopped;
    uint16_t k;
    must(lpt_end_new(&ground, LPT_SIDE_GROUND, &config, NULL, 0, NULL, 0) == LPT_DONE, "no end");
    starts = 0;
    launch(files, stop);
    for (k = 0; k < LOADS; k++) {
        load(files, k);
    }
    is_stopped = was_stopped() || starts > 1;
    lpt_end_free(ground);
    must(read_kept(files.copies, &kept) && kept.executed == LOADS, "a load wasn't executed once");
    must(is_exact(files.memory, LOADS), "the memory isn't exact");
    close(files.copies);
    close(files.memory);
    return is_stopped;
}

int main(void) {
    unsigned stop = 1;
    size_t i, k;
    signal(SIGPIPE, SIG_IGN);
    for (k = 0; k < LOADS; k++) {
        for (i = 0; i < OCTETS; i++) {
            loads[k][i] = (uint8_t)(7 * i + 31 * k + 1);
        }
    }
    while (run(stop)) {
        stop++;
    }
    printf("stopped %u times, behind each of %u writes: each load executed once, the memory exact\n",
           stops, stop - 1);
    return 0;
}
