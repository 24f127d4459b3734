/*
 * Lines and columns: of a place that p21.h tells by its byte. p21.h includes it.
 */
#ifndef P21_LINES_H
#define P21_LINES_H

#include <stddef.h>
#include <stdint.h>

/* Where in a text bytes end: the line and the column of the next byte, both counted from 1, the column in bytes. */
typedef struct p21_position {
    uint64_t line;
    uint64_t column;
    uint8_t is_behind_return; /* whether the last byte is a carriage return: a line feed behind it ends no other line */
} p21_position;

/* The position of the first byte. */
#define P21_FIRST { 1, 1, 0 }

/*
 * Moves a position over bytes, which come in pieces of any size. So the bytes in front of a place, as many as its `byte` says, give
 * its line and its column. A line ends with a line feed, a carriage return, or both in this order.
 */
static inline void p21_move(p21_position *position, const uint8_t *piece, size_t length) {
    for (size_t i = 0; i < length; i++) {
        const uint8_t byte = piece[i];
        if (byte == '\r' || (byte == '\n' && !position->is_behind_return)) {
            position->line++;
            position->column = 1;
        } else if (byte != '\n') {
            position->column++;
        }
        position->is_behind_return = byte == '\r';
    }
}

#endif
