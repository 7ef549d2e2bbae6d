// Prints names of users that meet in one place of a hash table whose hasher has no secret: the attack that the tables' seed is there for.
//
// usage: collide COUNT BITS [SEED]
//
// The names' hashes by the kit's `FoldHasher`, as `indexmap` takes them, have BITS low bits of 0, which are where a table begins to look.
// With SEED the hasher is given that number first, as the tables' own hasher is.
#include <stdint.h>
#include <stdio.h>
#include <stdlib.h>
#include <string.h>

static const uint64_t START = 0x243f6a8885a308d3u;
static const uint64_t MULTIPLIER = 0x9e3779b97f4a7c15u;

static uint64_t folded(uint64_t a, uint64_t b) {
    unsigned __int128 product = (unsigned __int128)a * b;
    return (uint64_t)product ^ (uint64_t)(product >> 64);
}

static uint64_t word(const char *bytes) {
    uint64_t value;
    memcpy(&value, bytes, 8);
    return value;
}

// The state after eight bytes: a seed, or the number of a variant.
static uint64_t after_number(uint64_t state, uint64_t number) {
    return folded(state ^ number, MULTIPLIER ^ 16);
}

int main(int argc, char **argv) {
    if (argc < 3) return 2;
    uint32_t count = strtoul(argv[1], NULL, 10);
    uint32_t mask = (1u << strtoul(argv[2], NULL, 10)) - 1;
    uint64_t state = START;
    if (argc > 3) state = after_number(state, strtoull(argv[3], NULL, 10));
    state = after_number(state, 0) + 10; // a user, and ten bytes to come
    static const char digits[] = "0123456789abcdefghijklmnopqrstuvwxyz";
    char name[] = "u000000000";
    for (uint64_t i = 0; count > 0; i++) {
        uint64_t rest = i;
        for (int place = 9; place > 0; place--, rest /= 36) name[place] = digits[rest % 36];
        uint64_t hash = folded(word(name) ^ state, word(name + 2) ^ MULTIPLIER);
        if (((uint32_t)(hash ^ hash >> 32) & mask) == 0) {
            puts(name);
            count--;
        }
    }
    return 0;
}
