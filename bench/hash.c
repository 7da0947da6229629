// Times the library's hash beside the baselines in one run: ns for a block and for a 55-byte message, and ratios to the unrolled C.
// Every digest of the run is compared; a difference ends it with status 1.
#include "../include/finaruvom.h"
#include "timing.h"
#include <stdio.h>
#include <stdlib.h>
#include <string.h>
#ifdef OPENSSL
#include <openssl/sha.h>
#endif

void plain(const uint8_t *m, size_t n, uint8_t out[32]);
void unrolled(const uint8_t *m, size_t n, uint8_t out[32]);

static void library(const uint8_t *m, size_t n, uint8_t out[32]) {
    if (finaruvom_hash(m, n, out) != 0) {
        fprintf(stderr, "the library refused %zu bytes\n", n);
        exit(1);
    }
}

#ifdef OPENSSL
static void openssl(const uint8_t *m, size_t n, uint8_t out[32]) {
    SHA256(m, n, out);
}
#endif

static const struct {
    const char *name;
    void (*hash)(const uint8_t *, size_t, uint8_t[32]);
} rows[] = {
    {"C, unrolled", unrolled},
    {"finaruvom", library},
    {"C, loops", plain},
#ifdef OPENSSL
    {"OpenSSL", openssl},
#endif
};
enum { ROWS = sizeof rows / sizeof rows[0], LONG = 65536, SHORT = 55, LONGS = 1, SHORTS = 300, TRIES = 1000 };

static uint8_t message[LONG];
static uint8_t digests[ROWS][SHORTS + LONGS][32];

// The time of one call: count messages of n bytes, each made of the digest before it.
static double timed(int row, size_t n, int count, uint8_t (*out)[32]) {
    for (size_t i = 0; i < n; i++)
        message[i] = (uint8_t)(7 * i + 3);
    double start = seconds();
    for (int k = 0; k < count; k++) {
        rows[row].hash(message, n, out[k]);
        memcpy(message, out[k], 32);
    }
    return (seconds() - start) / count;
}

int main(void) {
    double block[ROWS], small[ROWS];
    for (int r = 0; r < ROWS; r++)
        block[r] = small[r] = 1e9;
    for (int t = 0; t < TRIES; t++)
        for (int r = 0; r < ROWS; r++) {
            double s = timed(r, SHORT, SHORTS, digests[r]), b = timed(r, LONG, LONGS, digests[r] + SHORTS) / (LONG / 64 + 1);
            small[r] = s < small[r] ? s : small[r];
            block[r] = b < block[r] ? b : block[r];
            if (memcmp(digests[r], digests[0], sizeof digests[0]) != 0) {
                fprintf(stderr, "%s: a digest differs\n", rows[r].name);
                return 1;
            }
        }
    printf("%-14s %12s %8s %14s %8s\n", "SHA-256", "ns a block", "ratio", "ns, 55 bytes", "ratio");
    for (int r = 0; r < ROWS; r++)
        printf("%-14s %12.1f %8.3f %14.1f %8.3f\n", rows[r].name, block[r] * 1e9, block[r] / block[0], small[r] * 1e9, small[r] / small[0]);
    printf("best of %d; %d digests of each compared, all equal\n", TRIES, SHORTS + LONGS);
    return 0;
}
