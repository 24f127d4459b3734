/* The errors that a host knows, by Linux's numbers, with the texts that the C library has for them there: the program tells want
 * of memory, a file that isn't there, one that may not be read and a folder by these numbers, and shows the text of others. */
#ifndef ERRORS_H
#define ERRORS_H

enum {
    NO_SUCH_FILE = 2,
    INPUT_OUTPUT = 5,
    OUT_OF_MEMORY = 12,
    NOT_PERMITTED = 13,
    NO_FOLDER = 20,
    A_FOLDER = 21,
    NAME_TOO_LONG = 36
};

static inline const char *text_of_error(int error) {
    switch (error) {
    case NO_SUCH_FILE:
        return "No such file or directory";
    case OUT_OF_MEMORY:
        return "Cannot allocate memory";
    case NOT_PERMITTED:
        return "Permission denied";
    case NO_FOLDER:
        return "Not a directory";
    case A_FOLDER:
        return "Is a directory";
    case NAME_TOO_LONG:
        return "File name too long";
    default:
        return "Input/output error";
    }
}

/* POSIX's strerror_r: the text of an error with its end, where there is room, and else as much of it as there is room for. */
int __xpg_strerror_r(int error, char *into, unsigned long long room) {
    const char *text = text_of_error(error);
    for (unsigned long long at = 0; at < room; at++) {
        into[at] = text[at];
        if (text[at] == '\0')
            break;
    }
    return 0;
}

#endif
