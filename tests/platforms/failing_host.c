/* Stands between the program and its host, and lets allocations, reads and writes fail, as the environment says: by the
 * variables of hostile/failing.c, but for those by which a run is traced, stopped or cut. The linker is told to wrap the calls. */
#include <stdint.h>
#include <stdio.h>
#include <stdlib.h>

#ifdef _WIN32
#define OF_RATTLE __attribute__((sysv_abi))
#define READ p21_read
#define WRITE p21_write
#else
#define OF_RATTLE
#define READ read
#define WRITE write
#endif
#define JOINED(FIRST, SECOND) FIRST##SECOND
#define NAMED(FIRST, SECOND) JOINED(FIRST, SECOND)
#define WRAPPING(NAME) NAMED(__wrap_, NAME)
#define REAL(NAME) NAMED(__real_, NAME)

enum { OUT_OF_MEMORY = 12, INPUT_OUTPUT = 5 };

struct tried {
    uint64_t is_done;
    void *block;
};

OF_RATTLE struct tried __real_rattle_alloc(uint64_t count, uint64_t alignment);
OF_RATTLE struct tried __real_rattle_realloc(void *block, uint64_t kept, uint64_t count, uint64_t alignment);
int64_t REAL(READ)(int file, void *into, uint64_t room);
int64_t REAL(WRITE)(int file, const void *from, uint64_t count);
void rattle_set_errno(int error);

static long long refuse_at, refuse_on, behind_write, one_in;
static uint64_t seed;
static long long read_fails, write_fails, error_number, empty, read_most, write_most;
static long long allocations, refused, reads, writes;
static char nothing;

static long long number(const char *name, long long otherwise) {
    const char *value = getenv(name);
    return value ? atoll(value) : otherwise;
}

/* The counts: allocations, refused ones, reads and writes. */
static void end(void) {
    const char *path = getenv("COUNTS");
    FILE *file = path ? fopen(path, "wb") : NULL;
    if (file) {
        fprintf(file, "%lld %lld %lld %lld\n", allocations, refused, reads, writes);
        fclose(file);
    }
}

__attribute__((constructor)) static void begin(void) {
    refuse_at = number("REFUSE", 0);
    refuse_on = number("REFUSE_ON", 0);
    behind_write = number("BEHIND_WRITE", 0);
    seed = (uint64_t)number("REFUSE_SEED", 0);
    one_in = number("REFUSE_ONE_IN", 100);
    read_fails = number("READ_FAILS", 0);
    write_fails = number("WRITE_FAILS", 0);
    error_number = number("ERROR", INPUT_OUTPUT);
    empty = number("EMPTY", 0);
    read_most = number("READ_MOST", 0);
    write_most = number("WRITE_MOST", 0);
    atexit(end);
}

static int by_chance(void) {
    seed = seed * 6364136223846793005u + 1442695040888963407u;
    return (seed >> 33) % (uint64_t)one_in == 0;
}

static int is_refused(void) {
    if (behind_write && !writes)
        return 0;
    allocations++;
    int is_next = refuse_at && (allocations == refuse_at || (refuse_on && allocations > refuse_at));
    if (!is_next && !(seed && by_chance()))
        return 0;
    refused++;
    rattle_set_errno(OUT_OF_MEMORY);
    return 1;
}

static struct tried refusal(void) {
    struct tried answer = {0, &nothing};
    return answer;
}

OF_RATTLE struct tried __wrap_rattle_alloc(uint64_t count, uint64_t alignment) {
    return is_refused() ? refusal() : __real_rattle_alloc(count, alignment);
}

OF_RATTLE struct tried __wrap_rattle_realloc(void *block, uint64_t kept, uint64_t count, uint64_t alignment) {
    return is_refused() ? refusal() : __real_rattle_realloc(block, kept, count, alignment);
}

static int64_t failed(void) {
    if (empty)
        return 0;
    rattle_set_errno((int)error_number);
    return -1;
}

static uint64_t at_most(uint64_t count, long long most) { return most && count > (uint64_t)most ? (uint64_t)most : count; }

int64_t WRAPPING(READ)(int file, void *into, uint64_t room) {
    return ++reads == read_fails ? failed() : REAL(READ)(file, into, at_most(room, read_most));
}

int64_t WRAPPING(WRITE)(int file, const void *from, uint64_t count) {
    return ++writes == write_fails ? failed() : REAL(WRITE)(file, from, at_most(count, write_most));
}
