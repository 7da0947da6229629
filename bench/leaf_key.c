// Times the leaf key of a one-time signature at the most and at the fewest chain steps, beside the C baseline and as many bare
// compressions, in one run. Every leaf key of the run is compared; a difference ends it with status 1.
#include "timing.h"
#include <stdint.h>
#include <stdio.h>
#include <string.h>

uint32_t bench_leaf_key(const uint8_t id[16], uint32_t leaf, const uint8_t hash[32], const uint8_t *signature, size_t n, uint8_t key[32]);
void c_leaf_key(const uint8_t id[16], uint32_t leaf, const uint8_t hash[32], const uint8_t *signature, uint8_t out[32], uint32_t *steps);
void c_compressions(uint32_t h[8], const uint8_t block[64], int count);

enum { SIGNATURE = 1452, TRIES = 300 };

static uint8_t id[16], hash[32], signature[SIGNATURE], key[32], c_key[32];

struct times {
    double bare, in_c, library;
};

// The three times at the hash whose bytes are all the given one; 0 where a result differs.
static int row(int byte, uint32_t steps, struct times *best) {
    double bare = 1e9, in_c = 1e9, library = 1e9;
    memset(hash, byte, sizeof hash);
    for (int t = 0; t < TRIES; t++) {
        uint32_t h[8] = {1, 2, 3, 4, 5, 6, 7, 8}, made, c_made;
        double start = seconds();
        c_compressions(h, signature, (int)steps);
        bare = least(bare, seconds() - start);
        start = seconds();
        c_leaf_key(id, 5, hash, signature, c_key, &c_made);
        in_c = least(in_c, seconds() - start);
        start = seconds();
        made = bench_leaf_key(id, 5, hash, signature, SIGNATURE, key);
        library = least(library, seconds() - start);
        if (made != steps || c_made != steps || memcmp(key, c_key, 32) != 0)
            return 0;
        memcpy(signature + 40, key, 32);
    }
    double ns = 1e9 / steps;
    printf("%8u %16.1f %14.1f %14.1f %18.3f %12.3f\n", steps, bare * ns, in_c * ns, library * ns, library / bare, library / in_c);
    *best = (struct times){bare, in_c, library};
    return 1;
}

int main(void) {
    for (int i = 0; i < SIGNATURE; i++)
        signature[i] = (uint8_t)(7 * i + 3);
    printf("%8s %16s %14s %14s %18s %12s\n", "steps", "bare C, ns each", "C, ns each", "library", "library/bare C", "library/C");
    struct times most, fewest;
    if (!row(0x00, 8415, &most) || !row(0xff, 510, &fewest)) {
        fprintf(stderr, "a leaf key or a step count differs\n");
        return 1;
    }
    double further = 1e9 / (8415 - 510);
    printf("each further step: bare C %.1f ns, C %.1f, library %.1f\n", (most.bare - fewest.bare) * further,
           (most.in_c - fewest.in_c) * further, (most.library - fewest.library) * further);
    printf("best of %d; every leaf key compared, all equal\n", TRIES);
    return 0;
}
