// The candidate leaf key of LM-OTS with w = 8 in C: a baseline, over the unrolled compression.
#include <stddef.h>
#include <stdint.h>
#include <string.h>

void unrolled_compress(uint32_t h[8], const uint8_t *block);
void unrolled(const uint8_t *m, size_t n, uint8_t out[32]);

enum { CHAINS = 34 };

static const uint32_t initial[8] = {0x6a09e667, 0xbb67ae85, 0x3c6ef372, 0xa54ff53a, 0x510e527f, 0x9b05688c, 0x1f83d9ab, 0x5be0cd19};

static void put(uint8_t *out, uint32_t x) {
    out[0] = x >> 24, out[1] = x >> 16, out[2] = x >> 8, out[3] = x;
}

// One chain from its string to its end, a compression for each step: the 55 bytes of a step and their padding are one block.
static void chain(uint8_t block[64], int number, int digit, const uint8_t *string, uint8_t end[32]) {
    block[20] = number >> 8, block[21] = number;
    memcpy(block + 23, string, 32);
    for (int j = digit; j < 255; j++) {
        uint32_t h[8];
        memcpy(h, initial, sizeof h);
        block[22] = j;
        unrolled_compress(h, block);
        for (int k = 0; k < 8; k++)
            put(block + 23 + 4 * k, h[k]);
    }
    memcpy(end, block + 23, 32);
}

void c_leaf_key(const uint8_t id[16], uint32_t leaf, const uint8_t hash[32], const uint8_t *signature, uint8_t out[32], uint32_t *steps) {
    uint8_t digits[CHAINS], block[64] = {0}, ends[22 + 32 * CHAINS];
    uint32_t checksum = 0;
    for (int i = 0; i < 32; i++)
        digits[i] = hash[i], checksum += 255 - hash[i];
    digits[32] = checksum >> 8, digits[33] = checksum;
    memcpy(block, id, 16);
    put(block + 16, leaf);
    block[55] = 0x80;
    put(block + 60, 55 * 8);
    memcpy(ends, block, 20);
    ends[20] = ends[21] = 0x80;
    *steps = 0;
    for (int i = 0; i < CHAINS; i++) {
        chain(block, i, digits[i], signature + 40 + 32 * i, ends + 22 + 32 * i);
        *steps += 255 - digits[i];
    }
    unrolled(ends, sizeof ends, out);
}

// So many bare compressions of one block in a row.
void c_compressions(uint32_t h[8], const uint8_t block[64], int count) {
    for (int i = 0; i < count; i++)
        unrolled_compress(h, block);
}
