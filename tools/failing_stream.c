// Has one read or one write fail: that whose number, from 1, is FAILING_READ or FAILING_WRITE in
// the environment; with FROM_THEN_ON each write behind it too. With TAKES_NOTHING a write takes
// nothing in place of failing. With OCTET_READS each read gives one octet at most, with OCTET_WRITES
// each write takes one at most. Of writes only those to standard output are meant. With DYING_WRITE
// the process is killed before the write of that number, to whatever file. With SLOW_FILES each write
// to a file that is no standard stream takes so many milliseconds, as on a slow disk.
//
// tests/streams loads this before the C library into the program, which reads and writes by the two
// functions here.

extern long syscall(long number, ...);
extern char *getenv(const char *name);
extern long atol(const char *digits);
extern int *__errno_location(void);

#define READ 0
#define WRITE 1
#define SLEEP 35
#define GET_NUMBER 39
#define KILL 62
#define STANDARD_OUTPUT 1
#define STANDARD_ERROR 2
#define KILLED 9L
#define INPUT_OUTPUT_ERROR 5

// How many reads there were, how many writes, and how many of these to any file.
static long reads, writes, all;

static long number_in(const char *name) {
    const char *digits = getenv(name);
    return digits ? atol(digits) : 0;
}

static void sleep_for(long millis) {
    long time[2] = {millis / 1000, millis % 1000 * 1000000};
    syscall(SLEEP, time, 0);
}

static long failed(void) {
    *__errno_location() = INPUT_OUTPUT_ERROR;
    return -1;
}

long read(int file, void *place, unsigned long size) {
    if (++reads == number_in("FAILING_READ")) {
        return failed();
    }
    return syscall(READ, file, place, size > 1 && getenv("OCTET_READS") ? 1 : size);
}

long write(int file, const void *place, unsigned long size) {
    if (++all == number_in("DYING_WRITE")) {
        syscall(KILL, syscall(GET_NUMBER), KILLED);
    }
    if (file > STANDARD_ERROR && getenv("SLOW_FILES")) {
        sleep_for(number_in("SLOW_FILES"));
    }
    if (file != STANDARD_OUTPUT) {
        return syscall(WRITE, file, place, size);
    }
    long failing = number_in("FAILING_WRITE");
    if (++writes == failing || (failing && writes > failing && getenv("FROM_THEN_ON"))) {
        return getenv("TAKES_NOTHING") ? 0 : failed();
    }
    return syscall(WRITE, file, place, size > 1 && getenv("OCTET_WRITES") ? 1 : size);
}
