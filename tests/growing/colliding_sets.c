/* colliding_sets N BITS SIZE: N instances of SIZE of the entities A00 to A63 each, whose sets, in one section, a table by
   hashes with a fixed seed (indexmap with FoldHasher, of numbers) would keep in one group. A line each. */
#include <stdint.h>
#include <stdio.h>
#include <stdlib.h>

#define FACTOR 0x9e3779b97f4a7c15ull
enum { ENTITIES = 64, LARGEST = 16 };

static long wanted, made;
static uint32_t mask;
static int size, members[LARGEST];

static uint64_t with_number(uint64_t state, uint64_t number) {
    unsigned __int128 product = (unsigned __int128)(state ^ number) * (FACTOR ^ 16);
    return (uint64_t)product ^ (uint64_t)(product >> 64);
}

static void choose(int chosen, int from, uint64_t state) {
    if (chosen < size) {
        for (int entity = from; entity <= ENTITIES - (size - chosen) && made < wanted; entity++) {
            members[chosen] = entity;
            choose(chosen + 1, entity + 1, with_number(state, entity));
        }
        return;
    }
    if ((uint32_t)(state ^ state >> 32) & mask)
        return;
    printf("#%ld=(", ++made);
    for (int i = 0; i < size; i++)
        printf("A%02d()", members[i]);
    puts(");");
}

int main(int count, char **words) {
    if (count < 4 || atoi(words[3]) > LARGEST)
        return 2;
    wanted = atol(words[1]);
    mask = (1u << atoi(words[2])) - 1;
    size = atoi(words[3]);
    choose(0, 0, with_number(with_number(0x243f6a8885a308d3ull, size + 1), 0));
    return 0;
}
