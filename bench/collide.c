/* Names of eight letters that the map of names keeps in one chain: their hashes agree in the low bits, which choose a group
 * of the map, and in the eight bits that it compares before it compares names. The hash is the kit's FoldHasher, with its
 * fixed seed, over the bytes of a name and 255. It tries 2^18 names for each, so 6,400 names take about half a minute.
 * usage: collide COUNT */
#include <stdint.h>
#include <stdio.h>
#include <stdlib.h>
#include <string.h>

static const uint64_t multiplier = 0x9e3779b97f4a7c15u, seed = 0x243f6a8885a308d3u;

static uint64_t folded(uint64_t a, uint64_t b) {
    unsigned __int128 product = (unsigned __int128)a * b;
    return (uint64_t)product ^ (uint64_t)(product >> 64);
}

/* Of a name of eight bytes. */
static uint32_t hash_of(uint64_t name) {
    uint64_t state = folded(seed ^ name, multiplier ^ 16);
    state = folded(state ^ 0xffffff, multiplier ^ 2);
    return (uint32_t)(state ^ state >> 32);
}

int main(int argc, char **argv) {
    long count = argc > 1 ? atol(argv[1]) : 6400;
    uint32_t bits = 0xff0003ff, wanted = 0;
    for (uint64_t number = 0, found = 0; found < (uint64_t)count; number++) {
        char name[9] = "aaaaaaaa";
        uint64_t rest = number, bytes;
        for (int i = 7; rest > 0; i--, rest /= 26) name[i] = 'a' + rest % 26;
        memcpy(&bytes, name, 8);
        uint32_t hash = hash_of(bytes) & bits;
        if (number == 0) wanted = hash;
        if (hash == wanted) {
            puts(name);
            found++;
        }
    }
    return 0;
}
