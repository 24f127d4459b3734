/*
 * A library that stands in front of the C library, by LD_PRELOAD or as it is linked. It counts the blocks of memory that live, and
 * lets an allocation fail; `blocks.c` asks it by these:
 *
 *   counting_live         how many blocks live
 *   counting_taken        how many allocations there were
 *   counting_refuse(N)    the Nth allocation from now on is refused; 0: none is
 *   counting_refused      how many were
 */
#include <errno.h>
#include <stddef.h>

extern void *__libc_malloc(size_t);
extern void *__libc_calloc(size_t, size_t);
extern void *__libc_realloc(void *, size_t);
extern void *__libc_memalign(size_t, size_t);
extern void __libc_free(void *);

static long live, taken, refused, left;

long counting_live(void) { return live; }

long counting_taken(void) { return taken; }

long counting_refused(void) { return refused; }

void counting_refuse(long number) { left = number; }

static int is_refused(void) {
    taken++;
    if (left == 0 || --left > 0) {
        return 0;
    }
    refused++;
    errno = ENOMEM;
    return 1;
}

static void *counted(void *block) {
    live += block != NULL;
    return block;
}

void *malloc(size_t size) { return is_refused() ? NULL : counted(__libc_malloc(size)); }

void *calloc(size_t count, size_t size) { return is_refused() ? NULL : counted(__libc_calloc(count, size)); }

void *memalign(size_t alignment, size_t size) { return is_refused() ? NULL : counted(__libc_memalign(alignment, size)); }

void *aligned_alloc(size_t alignment, size_t size) { return memalign(alignment, size); }

int posix_memalign(void **place, size_t alignment, size_t size) {
    void *block = memalign(alignment, size);
    if (block == NULL) {
        return ENOMEM;
    }
    *place = block;
    return 0;
}

/* A block of no bytes is let go, as the C library does it. */
void *realloc(void *block, size_t size) {
    if (block == NULL) {
        return malloc(size);
    }
    if (is_refused()) {
        return NULL;
    }
    live -= size == 0;
    return __libc_realloc(block, size);
}

void free(void *block) {
    live -= block != NULL;
    __libc_free(block);
}
