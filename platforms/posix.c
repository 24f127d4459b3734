/* The host on a POSIX system. Files, streams and signals are those of the C library, which the program calls itself. */
#include <errno.h>
#include <unistd.h>

#include "host.h"

static int word_count;
static char **words;

int rattle_errno(void) { return errno; }

void rattle_set_errno(int error) { errno = error; }

int64_t rattle_arg(uint64_t number, char *into, uint64_t room) {
    return number < (uint64_t)word_count ? copied(words[number], into, room) : NO_WORD;
}

/* Writes a text to a stream; is all of it written? */
static bool is_written(int stream, const char *text, size_t count) {
    while (count > 0) {
        ssize_t taken = write(stream, text, count);
        if (taken < 0 && errno == EINTR)
            continue;
        if (taken <= 0)
            return false;
        text += taken;
        count -= (size_t)taken;
    }
    return true;
}

int main(int given_count, char **given) {
    word_count = given_count;
    words = given;
    int status = p21_main();
    if (status == 0 && asks_version(word_count, words) && !is_written(STDOUT_FILENO, SYSTEM_LINE, strlen(SYSTEM_LINE)))
        return FAILED;
    return status;
}
