// Keys that fit a signature (docs/FORMAT.md, A whole example): the root is what the check of that one signature climbs to, so no signer is needed.
#include "../include/finaruvom.h"
#include <stdlib.h>
#include <string.h>

static void hash_to(const uint8_t *s, size_t n, uint8_t digest[32]) {
    if (finaruvom_hash(s, n, digest) != FINARUVOM_ACCEPTED)
        exit(1);
}

// A signature of the right form: leaf 0, the types, and zeros.
static void form(uint8_t signature[FINARUVOM_SIGNATURE_SIZE]) {
    memset(signature, 0, FINARUVOM_SIGNATURE_SIZE);
    signature[7] = 4;
    signature[1131] = 6;
}

// The digest of the leaf key behind the chains of a signature by leaf 0; `s` begins with I and the leaf.
static void walk_chains(uint8_t s[1200], const uint8_t *message, size_t n, const uint8_t *signature, uint8_t digest[32]) {
    uint8_t digits[34], ends[22 + 34 * 32];
    unsigned sum = 0;
    s[20] = s[21] = 0x81;
    memcpy(s + 22, signature + 8, 32), memcpy(s + 54, message, n);
    hash_to(s, 54 + n, digits);
    for (int i = 0; i < 32; i++)
        sum += 255u - digits[i];
    digits[32] = (uint8_t)(sum >> 8), digits[33] = (uint8_t)sum;
    memcpy(ends, s, 20);
    ends[20] = ends[21] = 0x80;
    for (int i = 0; i < 34; i++) {
        s[20] = 0, s[21] = (uint8_t)i;
        memcpy(s + 23, signature + 40 + 32 * i, 32);
        for (int j = digits[i]; j < 255; j++) {
            s[22] = (uint8_t)j;
            hash_to(s, 55, digest), memcpy(s + 23, digest, 32);
        }
        memcpy(ends + 22 + 32 * i, s + 23, 32);
    }
    hash_to(ends, sizeof ends, digest);
}

// Makes a key, whose identifier is there, fit this message and a signature by leaf 0.
static void fit(uint8_t key[FINARUVOM_KEY_SIZE], const uint8_t *message, size_t n, const uint8_t signature[FINARUVOM_SIGNATURE_SIZE]) {
    uint8_t s[1200] = {0};
    memcpy(s, key + 8, 16);
    key[3] = 6, key[7] = 4;
    walk_chains(s, message, n, signature, key + 24);
    s[18] = 4, s[19] = 0, s[20] = s[21] = 0x82; // node 1,024
    memcpy(s + 22, key + 24, 32);
    hash_to(s, 54, key + 24);
    s[20] = s[21] = 0x83;
    for (int k = 0; k < 10; k++) {
        s[18] = (uint8_t)(512 >> k >> 8), s[19] = (uint8_t)(512 >> k);
        memcpy(s + 22, key + 24, 32), memcpy(s + 54, signature + 1132 + 32 * k, 32);
        hash_to(s, 86, key + 24);
    }
}
