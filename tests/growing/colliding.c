/* colliding N: N instance names that a table by hashes with a fixed seed (indexmap with FoldHasher) would keep in one group of
   32,768; a line each. Such names cost the square of their count where names are found by that table. */
#include <stdint.h>
#include <stdio.h>
#include <stdlib.h>

int main(int count, char **words) {
    const uint64_t seed = 0x243f6a8885a308d3ull, factor = 0x9e3779b97f4a7c15ull ^ 16, mask = (1ull << 15) - 1;
    long left = count > 1 ? atol(words[1]) : 0;
    uint64_t mixed = seed & ~0xffffffffffull;
    unsigned __int128 product = (unsigned __int128)mixed * factor;
    for (; left > 0; mixed++, product += factor) {
        uint64_t hash = (uint64_t)product ^ (uint64_t)(product >> 64);
        hash ^= hash >> 32;
        if ((hash & mask) == 0) {
            printf("%llu\n", (unsigned long long)(mixed ^ seed));
            left--;
        }
    }
    return 0;
}
