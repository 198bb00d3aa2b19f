/* Stands before read, write and writev of the C library, as a signal does that interrupts them: of the calls on standard
   input and output each second one fails with EINTR, or each one if ALWAYS is in the environment. */

#define EINTR 4

typedef unsigned long size;

extern char *getenv(const char *);
extern int *__errno_location(void);
extern long syscall(long, ...);

static long calls;

static int is_interrupted(int file) {
    if (file != 0 && file != 1) return 0;
    if (!getenv("ALWAYS") && calls++ % 2) return 0;
    *__errno_location() = EINTR;
    return 1;
}

long read(int file, void *to, size count) { return is_interrupted(file) ? -1 : syscall(0, file, to, count); }

long write(int file, const void *from, size count) { return is_interrupted(file) ? -1 : syscall(1, file, from, count); }

long writev(int file, const void *parts, int count) { return is_interrupted(file) ? -1 : syscall(20, file, parts, count); }
