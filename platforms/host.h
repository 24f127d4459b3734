/* What a host shares with another: how it answers the program, which is compiled through another backend of LLVM than the
 * gate's. The toolchain's own C code answers on Linux on x86-64 (`libos_c.a`), and the contracts of the standard library say
 * what each call answers; a failed one leaves its error under the number that Linux has for it.
 *
 * The host gives the version its second line, and the sources say nothing of systems: so the program for Linux on
 * x86-64, its proofs and its answers are as they were. The line is written behind the program's own answer, where that
 * is status 0 and the first word asks for the version.
 *
 * The hosts are three files of C: `memory.c` for the program and the library on each system, `posix.c`, and
 * `windows.c`, which takes no file, stream or name by the C library: handles are read and written in bytes, names are
 * UTF-16 behind the prefix for long ones, files are shared for reading, writing and removing, and a folder is opened as
 * elsewhere, so that reading it fails. An error is known by Linux's number and has Linux's text (`errors.h`), since the
 * program tells want of memory by the one and shows the other behind a file that can't be read.
 */
#ifndef HOST_H
#define HOST_H

#include <stdbool.h>
#include <stddef.h>
#include <stdint.h>
#include <string.h>

/* The status of a run whose answer can't be written, or that found no memory. */
enum { FAILED = 3 };

/* The answers of rattle_arg that are no count: there is no such word, and the word is longer than the room. */
enum { NO_WORD = -1, NO_ROOM = -2 };

int p21_main(void);

/* Copies a word without its end, and answers how many bytes it has. */
static inline int64_t copied(const char *word, char *into, uint64_t room) {
    uint64_t count = strlen(word);
    if (count > room)
        return NO_ROOM;
    memcpy(into, word, count);
    return (int64_t)count;
}

/* The line behind the version: build-for names the system, and says how the program came of its sources. */
static const char SYSTEM_LINE[] = SYSTEM "\n";

/* Was the version asked for? */
static inline bool asks_version(int count, char **words) {
    return count > 1 && (strcmp(words[1], "--version") == 0 || strcmp(words[1], "-V") == 0);
}

#endif
