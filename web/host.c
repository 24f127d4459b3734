// What the program asks of an operating system, for WebAssembly: memory, and the files and words that the page hands to it.
// The toolchain's own C library stands here otherwise (`libc::heap`, `os::c`), and its contracts say what each call answers.
//
// Memory doubles, or where the browser doesn't give as much, grows by half of that, and so on down to what is needed.
// Firefox moves a memory at each growth, so that steps of 1 MiB cost the square of the size.

#include "../platforms/errors.h"

typedef unsigned char byte;
typedef unsigned long size;

#define FROM_PAGE(NAME) __attribute__((import_module("host"), import_name(NAME)))

static int last_error;

int rattle_errno(void) { return last_error; }
void rattle_set_errno(int error) { last_error = error; }

// The answer of a call, or -1 where it failed: by the error that the host names, which is below -1, or else by this one.
static long answer(long answered, int error)
{
    if (answered >= 0)
        return answered;
    last_error = answered < -1 ? (int)-answered : error;
    return -1;
}

// Files: descriptors 1 and 2 are the two streams of the answer.

FROM_PAGE("open") int page_open(const char *path);
FROM_PAGE("read") long page_read(int file, void *into, size count);
FROM_PAGE("write") long page_write(int file, const void *from, size count);
FROM_PAGE("close") int page_close(int file);
FROM_PAGE("isTerminal") int page_is_terminal(int file);

int open(const char *path, int flags, ...) { return (int)answer(page_open(path), NO_SUCH_FILE); }
long read(int file, void *into, size count) { return answer(page_read(file, into, count), INPUT_OUTPUT); }
long write(int file, const void *from, size count) { return answer(page_write(file, from, count), INPUT_OUTPUT); }
int close(int file) { return page_close(file); }
int isatty(int file) { return page_is_terminal(file); }

// The words of the command line. There is no environment, and there are no signals.

FROM_PAGE("word") long page_word(size number, void *into, size room);

long rattle_arg(size number, void *into, size room) { return page_word(number, into, room); }
long rattle_env(const void *name, void *into, size room) { return -1; }
long rattle_env_at(size number, void *into, size room) { return -1; }
long __sysv_signal(int signal, long handler) { return 0; }

// Memory: blocks of certain sizes, each behind sixteen bytes that name its size. A block that is freed waits in a list for
// the next of its size, and new ones are taken from the end of what is in use. All sizes are multiples of 16.

enum { HEAD = 16, SMALL_SIZES = 7, SIZES = 240, PAGE = 65536 };

struct tried {
    size ok;
    byte *block;
};

extern byte __heap_base;
static byte none;
static size end_of_use;
static byte *freed[SIZES];

// The sizes from 32 to 128 are 16 apart; above, four stand between a power of two and the next. So there is room for the
// head, and behind it for the place of the next block that is freed.
static size size_number(size count)
{
    if (count <= 32)
        return 0;
    if (count <= 128)
        return (count + 15) / 16 - 2;
    size shift = 61 - __builtin_clzl(count - 1);
    return SMALL_SIZES + 4 * (shift - 5) + ((count - 1) >> shift) - 4;
}

static size size_of(size number)
{
    if (number < SMALL_SIZES)
        return 16 * (number + 2);
    number -= SMALL_SIZES;
    return (5 + number % 4) << (number / 4 + 5);
}

static size *head_of(byte *block) { return (size *)(block - HEAD); }

static size in_pages(size count) { return (count + PAGE - 1) / PAGE; }

// Takes so many pages of the browser. Where each growth moves the whole memory, as in Firefox, what growth costs in all is
// within a few times the memory only if each one is a share of what is there.
static int grow_by(size pages) { return __builtin_wasm_memory_grow(0, pages) != (size)-1; }

// Doubles the memory, or where the browser has not that much, takes half as much, and so on down to what is needed.
static int has_room_to(size end)
{
    size have = __builtin_wasm_memory_size(0), need = in_pages(end);
    if (need <= have)
        return 1;
    for (size more = have; more > need - have; more /= 2)
        if (grow_by(more))
            return 1;
    return grow_by(need - have);
}

static byte *new_block(size count)
{
    if (count > (1ul << 62))
        return 0;
    size number = size_number(count + HEAD);
    byte *block = freed[number];
    if (block) {
        freed[number] = *(byte **)block;
        return block;
    }
    if (!end_of_use)
        end_of_use = ((size)&__heap_base + 15) & ~15ul;
    if (!has_room_to(end_of_use + size_of(number)))
        return 0;
    block = (byte *)end_of_use + HEAD;
    *head_of(block) = number;
    end_of_use += size_of(number);
    return block;
}

static struct tried tried(byte *block)
{
    struct tried answer = {block != 0, block ? block : &none};
    return answer;
}

struct tried rattle_alloc(size count, size alignment) { return tried(new_block(count)); }

void rattle_dealloc(byte *block)
{
    size number = *head_of(block);
    *(byte **)block = freed[number];
    freed[number] = block;
}

struct tried rattle_realloc(byte *block, size kept, size count, size alignment)
{
    if (count <= size_of(*head_of(block)) - HEAD)
        return tried(block);
    byte *larger = new_block(count);
    if (larger) {
        __builtin_memcpy(larger, block, kept);
        rattle_dealloc(block);
    }
    return tried(larger);
}

int memcmp(const void *first, const void *second, size count)
{
    const byte *one = first, *other = second;
    for (size at = 0; at < count; at++)
        if (one[at] != other[at])
            return one[at] < other[at] ? -1 : 1;
    return 0;
}
