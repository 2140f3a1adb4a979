// Has one growth of memory fail: that whose number, from 1, is FAILING_GROWTH in the environment.
// An octet on file 9, where that is open, tells that it did.
//
// tests/growths loads this before the C library into a program that the kit has built, which takes
// all its memory by malloc and realloc.

extern void *__libc_malloc(unsigned long size);
extern void *__libc_realloc(void *old, unsigned long size);
extern char *getenv(const char *name);
extern long atol(const char *digits);
extern long write(int file, const void *place, unsigned long size);

#define TOLD 9

// Whether the number has been read, which the first growth does, before there is a second thread.
static int known = 0;

// How many growths there are up to the one that fails. Threads count them together.
static long left = 0;

static int fails(void) {
    if (!known) {
        const char *number = getenv("FAILING_GROWTH");
        left = number ? atol(number) : 0;
        known = 1;
    }
    if (__atomic_sub_fetch(&left, 1, __ATOMIC_RELAXED) != 0) {
        return 0;
    }
    write(TOLD, "x", 1);
    return 1;
}

void *malloc(unsigned long size) { return fails() ? 0 : __libc_malloc(size); }

void *realloc(void *old, unsigned long size) { return fails() ? 0 : __libc_realloc(old, size); }
