// A library for LD_PRELOAD that lets a program's allocations, reads and writes fail, as the environment says:
//
//   REFUSE=N            the Nth allocation is refused;  REFUSE_ON=1: and each behind it
//   REFUSE_SEED=S       allocations are refused by chance, one of REFUSE_ONE_IN
//   BEHIND_WRITE=1      only the allocations behind the first write are counted, and refused
//   READ_FAILS=N        the Nth read fails;  WRITE_FAILS=N: the Nth write;  with the number ERROR, or EIO
//   EMPTY=1             what would fail answers 0 bytes instead
//   READ_MOST=K         a read takes K bytes at most;  WRITE_MOST=K: a write
//   READ_CUT=K          no read passes byte K of its file
//   READ_STOPS=N        the program stops itself by SIGSTOP in front of the Nth read
//   COUNTS=PATH         at exit the counts are written there: allocations, refused ones, reads, writes
//   TRACE=PATH          for each refused allocation a line is written there: places in the program that may be those of
//                       the calls that led to it, the innermost first
//
// The program takes memory by malloc and realloc alone, as `nm -D` shows; a call of either is an allocation. rigged.py
// builds the library.
#define _GNU_SOURCE
#include <errno.h>
#include <fcntl.h>
#include <signal.h>
#include <stdio.h>
#include <stdlib.h>
#include <sys/auxv.h>
#include <sys/syscall.h>
#include <unistd.h>

extern void *__libc_malloc(size_t);
extern void *__libc_realloc(void *, size_t);

#define LARGEST_PROGRAM (64UL << 20)

static long refuse_at, refuse_on, behind_write, seed, one_in;
static long read_fails, write_fails, error_number, empty, read_most, read_cut, read_stops, write_most;
static long allocations, refused, reads, writes;
static const char *counts_path, *trace_path;
static int is_ready;

static long number(const char *name, long otherwise) {
    const char *value = getenv(name);
    return value ? atol(value) : otherwise;
}

__attribute__((constructor)) static void begin(void) {
    refuse_at = number("REFUSE", 0);
    refuse_on = number("REFUSE_ON", 0);
    behind_write = number("BEHIND_WRITE", 0);
    seed = number("REFUSE_SEED", 0);
    one_in = number("REFUSE_ONE_IN", 100);
    read_fails = number("READ_FAILS", 0);
    write_fails = number("WRITE_FAILS", 0);
    error_number = number("ERROR", EIO);
    empty = number("EMPTY", 0);
    read_most = number("READ_MOST", 0);
    read_cut = number("READ_CUT", 0);
    read_stops = number("READ_STOPS", 0);
    write_most = number("WRITE_MOST", 0);
    counts_path = getenv("COUNTS");
    trace_path = getenv("TRACE");
    allocations = refused = reads = writes = 0;
    is_ready = 1;
}

// Writes the place in the program of each word on the stack that may be where a call returns to, the innermost first.
static void write_trace(void) {
    unsigned long program = getauxval(AT_PHDR) & ~4095UL;
    int file = syscall(SYS_open, trace_path, O_WRONLY | O_CREAT | O_APPEND, 0644);
    for (unsigned long *word = __builtin_frame_address(0); word < (unsigned long *)environ; word++) {
        char text[20];
        unsigned long place = *word - program;
        if (place >= LARGEST_PROGRAM) continue;
        int length = snprintf(text, sizeof text, "%lx ", place);
        syscall(SYS_write, file, text, length);
    }
    syscall(SYS_write, file, "\n", 1);
    syscall(SYS_close, file);
}

static int by_chance(void) {
    seed = (long)((unsigned long)seed * 6364136223846793005UL + 1442695040888963407UL);
    return ((unsigned long)seed >> 33) % (unsigned long)one_in == 0;
}

static int is_refused(void) {
    if (!is_ready || (behind_write && !writes)) return 0;
    allocations++;
    int is_next = refuse_at && (allocations == refuse_at || (refuse_on && allocations > refuse_at));
    if (!is_next && !(seed && by_chance())) return 0;
    refused++;
    if (trace_path) write_trace();
    errno = ENOMEM;
    return 1;
}

void *malloc(size_t size) { return is_refused() ? NULL : __libc_malloc(size); }

void *realloc(void *block, size_t size) { return is_refused() ? NULL : __libc_realloc(block, size); }

static ssize_t failed(void) {
    if (empty) return 0;
    errno = error_number;
    return -1;
}

static size_t at_most(size_t size, long most) { return most && size > (size_t)most ? (size_t)most : size; }

ssize_t read(int file, void *bytes, size_t size) {
    reads++;
    if (reads == read_stops) raise(SIGSTOP);
    if (reads == read_fails) return failed();
    long place = read_cut ? lseek(file, 0, SEEK_CUR) : 0;
    if (place >= 0 && place < read_cut) size = at_most(size, read_cut - place);
    return syscall(SYS_read, file, bytes, at_most(size, read_most));
}

ssize_t write(int file, const void *bytes, size_t size) {
    if (++writes == write_fails) return failed();
    return syscall(SYS_write, file, bytes, at_most(size, write_most));
}

__attribute__((destructor)) static void end(void) {
    if (!counts_path) return;
    char text[100];
    int length = snprintf(text, sizeof text, "%ld %ld %ld %ld\n", allocations, refused, reads, writes);
    int file = syscall(SYS_open, counts_path, O_WRONLY | O_CREAT | O_TRUNC, 0644);
    syscall(SYS_write, file, text, length);
    syscall(SYS_close, file);
}
