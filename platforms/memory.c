/* Memory for the program and for the library, of the C library: what `libc::heap` asks for. A block for nothing has as many
 * bytes as its alignment. */
#include <stdint.h>
#include <stdlib.h>

/* The code of Rattle calls by the convention of System V on each system of x86-64, since an answer has two words. */
#ifdef _WIN32
#define OF_RATTLE __attribute__((sysv_abi))
#else
#define OF_RATTLE
#endif

struct tried {
    uint64_t is_done;
    void *block;
};

static char nothing;

static struct tried tried(void *block) {
    struct tried answer = {block != NULL, block != NULL ? block : &nothing};
    return answer;
}

OF_RATTLE struct tried rattle_alloc(uint64_t count, uint64_t alignment) { return tried(malloc(count > 0 ? count : alignment)); }

OF_RATTLE struct tried rattle_realloc(void *block, uint64_t kept, uint64_t count, uint64_t alignment) {
    (void)kept;
    return tried(realloc(block, count > 0 ? count : alignment));
}

void rattle_dealloc(void *block) { free(block); }
