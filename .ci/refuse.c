/* Stands between a program and the heap of the C library: it counts the requests for memory, and refuses one.

   The requests are counted that come between a mark and the next one, which ends the counting until a third mark
   begins it again. A mark is a request for MARK bytes, which is passed on. With COUNT_ALL in the environment
   requests are counted from the start on. The request whose number stands in REFUSE is refused; 0 refuses none. At
   the end the numbers of requests and of marks are written to the file descriptor whose number stands in REPORT_TO.

   The programs ask by malloc and realloc alone. */

#define MARK 1000003

typedef unsigned long size;

extern void *__libc_malloc(size);
extern void *__libc_realloc(void *, size);
extern char *getenv(const char *);
extern long write(int, const void *, size);

static long refused, asked, marks;
static int counts_all;

static long number_in(const char *name) {
    const char *text = getenv(name);
    long number = 0;
    while (text && *text >= '0' && *text <= '9') number = 10 * number + (*text++ - '0');
    return number;
}

__attribute__((constructor)) static void begin(void) {
    refused = number_in("REFUSE");
    counts_all = getenv("COUNT_ALL") != 0;
}

/* Counts a request, and tells whether it is the one to refuse. */
static int is_refused(void) {
    if (!counts_all && marks % 2 == 0) return 0;
    asked++;
    return asked == refused;
}

void *malloc(size wanted) {
    if (wanted == MARK) marks++;
    else if (is_refused()) return 0;
    return __libc_malloc(wanted);
}

void *realloc(void *block, size wanted) {
    return is_refused() ? 0 : __libc_realloc(block, wanted);
}

static void report(int to, long number) {
    char text[24];
    int at = sizeof text;
    text[--at] = '\n';
    do {
        text[--at] = (char) ('0' + number % 10);
        number /= 10;
    } while (number);
    write(to, text + at, sizeof text - at);
}

__attribute__((destructor)) static void end(void) {
    int to = (int) number_in("REPORT_TO");
    if (!to) return;
    report(to, asked);
    report(to, marks);
}
