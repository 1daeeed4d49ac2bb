// Writes so many keys whose hashes agree, under the kit's default `FoldHasher`, which `HashMap::new` has: in the bits that choose one of 2^BITS
// groups of a table, and in the tag.
//
//     colliding MANY BITS
#include <stdint.h>
#include <stdio.h>
#include <stdlib.h>

static const uint64_t seed = 0x243F6A8885A308D3, multiplier = 0x9E3779B97F4A7C15;

static uint32_t hash_of(uint64_t key) {
    unsigned __int128 product = (unsigned __int128)(key ^ seed) * (multiplier ^ 16);
    uint64_t folded = (uint64_t)product ^ (uint64_t)(product >> 64);
    return (uint32_t)(folded ^ folded >> 32);
}

int main(int count, char **words) {
    if (count != 3) return 2;
    long many = atol(words[1]);
    uint32_t told = 0xFF000000u | ((1u << atoi(words[2])) - 1);
    for (uint64_t key = UINT64_C(1) << 62; many > 0; key += 19088743) {
        if ((hash_of(key) & told) == 0x5A000000u) {
            printf("%llu\n", (unsigned long long)key);
            many--;
        }
    }
    return 0;
}
