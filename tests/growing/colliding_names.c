/* colliding_names N BITS LENGTH: N names of a schema that a table by hashes with a fixed seed (indexmap with FoldHasher, of
   texts) would keep in one group: the low BITS of their hashes are zero. A line each. */
#include <stdint.h>
#include <stdio.h>
#include <stdlib.h>
#include <string.h>

#define FACTOR 0x9e3779b97f4a7c15ull
#define LONGEST 64

static const char LETTERS[] = "ABCDEFGHIJKLMNOPQRSTUVWXYZ0123456789_";
enum { LETTER_COUNT = sizeof LETTERS - 1 };

static uint64_t folded(uint64_t a, uint64_t b) {
    unsigned __int128 product = (unsigned __int128)a * b;
    return (uint64_t)product ^ (uint64_t)(product >> 64);
}

static uint64_t with_byte(uint64_t state, uint64_t byte) { return folded(state ^ (byte | byte << 8 | byte << 16), FACTOR ^ 2); }

int main(int count, char **words) {
    if (count < 4)
        return 2;
    long left = atol(words[1]);
    int length = atoi(words[3]);
    uint32_t mask = (1u << atoi(words[2])) - 1;
    char name[LONGEST] = {0};
    int letter[LONGEST] = {0};
    uint64_t states[LONGEST];
    memset(name, 'A', length);
    states[0] = folded(0x243f6a8885a308d3ull ^ (uint64_t)length, FACTOR ^ 16);
    for (int i = 0; i < length; i++)
        states[i + 1] = with_byte(states[i], name[i]);
    while (left > 0) {
        for (int k = 0; k < LETTER_COUNT && left > 0; k++) {
            uint64_t hash = with_byte(states[length - 1], LETTERS[k]);
            name[length - 1] = LETTERS[k];
            if (((uint32_t)(hash ^ hash >> 32) & mask) == 0) {
                puts(name);
                left--;
            }
        }
        int place = length - 2;
        while (place > 0 && ++letter[place] == LETTER_COUNT)
            letter[place--] = 0;
        letter[0] += place == 0;
        for (int i = place; i < length - 1; i++) {
            name[i] = LETTERS[letter[i]];
            states[i + 1] = with_byte(states[i], name[i]);
        }
    }
    return 0;
}
