/* The program inside one process, for libFuzzer: what it asks of the system is answered from memory, and counted.

   build.py compiles the program with `main`, `open`, `read`, `write`, `close`, `isatty` and `signal` renamed to `p21_..`. Its
   files are named s (a schema), f (a file) and c (its canonical file). */
#define _GNU_SOURCE
#include <errno.h>
#include <stdint.h>
#include <stdio.h>
#include <stdlib.h>
#include <string.h>
#include <sys/types.h>
#include <time.h>

extern int p21_main(int, char **);

typedef struct {
    char *bytes;
    size_t length, room;
} Buffer;

enum { WHOLE, BYTE_BY_BYTE, BY_CHANCE };
enum { SCHEMA_FILE = 1000, FIRST_FILE, CANONICAL_FILE };
enum { RUNS = 3, OUTPUT = 0, ERROR = 1 };

static Buffer schema, file, canonical, written[RUNS][2];
static size_t places[3];
static int current_run, cut;
static uint64_t chance = 88172645463325252ull;
static const char *words[6];
static size_t word_count;

static void append(Buffer *buffer, const void *bytes, size_t length) {
    if (buffer->length + length > buffer->room) {
        buffer->room = 2 * (buffer->length + length) + 4096;
        buffer->bytes = realloc(buffer->bytes, buffer->room);
    }
    memcpy(buffer->bytes + buffer->length, bytes, length);
    buffer->length += length;
}

static int are_equal(const Buffer *one, const Buffer *other) {
    return one->length == other->length && (one->length == 0 || memcmp(one->bytes, other->bytes, one->length) == 0);
}

/* --- What the program asks of the system --- */

long rattle_arg_count(void) { return (long)word_count; }

long rattle_arg(size_t number, char *bytes, size_t room) {
    if (number >= word_count)
        return -1;
    size_t length = strlen(words[number]);
    if (length > room)
        return -2;
    memcpy(bytes, words[number], length);
    return (long)length;
}

int rattle_errno(void) { return errno; }
void rattle_set_errno(int number) { errno = number; }
int p21_isatty(int descriptor) { return (void)descriptor, 0; }
void *p21_signal(int number, void *handler) { return (void)number, (void)handler, NULL; }
int p21_close(int descriptor) { return (void)descriptor, 0; }

int p21_open(const char *path, int flags, ...) {
    (void)flags;
    int which = strcmp(path, "s") == 0 ? 0 : strcmp(path, "f") == 0 ? 1 : strcmp(path, "c") == 0 ? 2 : -1;
    if (which < 0) {
        errno = ENOENT;
        return -1;
    }
    places[which] = 0;
    return SCHEMA_FILE + which;
}

static size_t by_chance(void) {
    chance ^= chance << 13;
    chance ^= chance >> 7;
    chance ^= chance << 17;
    return 1 + (chance >> 30) % ((chance >> 20) % 3 ? 40 : 400);
}

ssize_t p21_read(int descriptor, void *bytes, size_t room) {
    const Buffer *from = descriptor == SCHEMA_FILE ? &schema : descriptor == FIRST_FILE ? &file : &canonical;
    size_t *place = &places[descriptor - SCHEMA_FILE];
    size_t length = from->length - *place;
    size_t most = descriptor == SCHEMA_FILE || cut == WHOLE ? room : cut == BYTE_BY_BYTE ? 1 : by_chance();
    most = most < room ? most : room;
    length = length < most ? length : most;
    memcpy(bytes, from->bytes + *place, length);
    *place += length;
    return (ssize_t)length;
}

ssize_t p21_write(int descriptor, const void *bytes, size_t length) {
    append(&written[current_run][descriptor == 2 ? ERROR : OUTPUT], bytes, length);
    return (ssize_t)length;
}

/* --- Cost, as a second signal --- */

/* libFuzzer takes these counters as it takes those of branches: an input is kept where one of them rises. There is one for
   each doubling of the bytes that a run allocates, and of the nanoseconds that it takes, for each byte that it reads. */
enum { DOUBLINGS = 32 };
__attribute__((section("__libfuzzer_extra_counters"))) static uint8_t cost_counters[2 * DOUBLINGS];
static size_t allocated;

void *__real_malloc(size_t);
void *__real_realloc(void *, size_t);
void *__wrap_malloc(size_t size) { return allocated += size, __real_malloc(size); }
void *__wrap_realloc(void *block, size_t size) { return allocated += size, __real_realloc(block, size); }

static double nanoseconds(void) {
    struct timespec now;
    clock_gettime(CLOCK_THREAD_CPUTIME_ID, &now);
    return 1e9 * now.tv_sec + now.tv_nsec;
}

static void mark(int from, double per_byte) {
    int doubling = 0;
    while (per_byte >= 2 && doubling < DOUBLINGS - 1) {
        per_byte /= 2;
        doubling++;
    }
    cost_counters[from + doubling] = 1;
}

/* More is a fault: bytes allocated, and nanoseconds, for a byte that is read; and what any run may take. The usual file takes
   some 100 bytes and 50 ns. Square costs of small inputs are well below. */
static const double MOST_ALLOCATED = 20000, MOST_NANOSECONDS = 200000, ALLOCATED_ALWAYS = 4e6, NANOSECONDS_ALWAYS = 2e8;

static void fail(const char *what) {
    fprintf(stderr, "FAULT: %s\n", what);
    for (int run = 0; run < RUNS; run++)
        fprintf(stderr, "  run %d: output %.*s error %.*s\n", run, (int)(written[run][OUTPUT].length > 300 ? 300 : written[run][OUTPUT].length),
                written[run][OUTPUT].bytes, (int)written[run][ERROR].length, written[run][ERROR].bytes);
    abort();
}

/* --- Runs --- */

static int run_of(int number, int how, const char *command, const char *first, const char *second) {
    const char *given[] = {"p21", command, "s", first, second};
    word_count = 0;
    for (size_t i = 0; i < sizeof given / sizeof *given && given[i]; i++)
        words[word_count++] = given[i];
    current_run = number;
    cut = how;
    written[number][OUTPUT].length = written[number][ERROR].length = 0;
    allocated = 0;
    double begun = nanoseconds();
    int status = p21_main((int)word_count, (char **)words);
    double taken = nanoseconds() - begun, read = (double)(schema.length + file.length + 1);
    if (how == WHOLE) {
        mark(0, (double)allocated / read);
        mark(DOUBLINGS, taken / read);
        if ((double)allocated > ALLOCATED_ALWAYS + MOST_ALLOCATED * read || taken > NANOSECONDS_ALWAYS + MOST_NANOSECONDS * read)
            fail("cost");
    }
    if (status != 0 && status != 1)
        fail("status");
    return status;
}

/* Is the file answered alike however it is cut, and is its canonical file its own, and the same? */
static void try_file(int how, int is_again) {
    int status = run_of(0, WHOLE, "canon", "f", NULL);
    if (status != run_of(1, how, "canon", "f", NULL) || !are_equal(&written[0][OUTPUT], &written[1][OUTPUT]) ||
        !are_equal(&written[0][ERROR], &written[1][ERROR]))
        fail("another answer for other pieces");
    if (status != 0 || !is_again)
        return;
    canonical.length = 0;
    append(&canonical, written[0][OUTPUT].bytes, written[0][OUTPUT].length);
    if (run_of(1, WHOLE, "canon", "c", NULL) != 0 || !are_equal(&written[1][OUTPUT], &canonical))
        fail("the canonical file isn't its own");
    if (run_of(2, WHOLE, "same", "f", "c") != 0 || written[2][OUTPUT].length != strlen("same\n"))
        fail("the canonical file isn't the same");
    size_t instances = 0;
    for (size_t i = 0; i + 1 < canonical.length; i++)
        instances += canonical.bytes[i] == '\n' && canonical.bytes[i + 1] == '#';
    char line[100];
    int length = snprintf(line, sizeof line, "accepted, instances %zu, canonical bytes %zu\n", instances, canonical.length);
    if (run_of(1, WHOLE, "check", "f", NULL) != 0 || written[1][OUTPUT].length != (size_t)length ||
        memcmp(written[1][OUTPUT].bytes, line, (size_t)length) != 0)
        fail("another count");
}
